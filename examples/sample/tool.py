"""The command-line tool, which builds, files, checks and matches."""
import subprocess
from pathlib import Path

TOOL = Path(__file__).resolve().parents[2] / "target/rust/release/kwalgimo"


class Failed(Exception):
    """The sentence that says why the tool did not do what it has to."""


def run(*words):
    """Runs the tool. Gives its exit status and what it printed, on standard error if nowhere else."""
    try:
        ended = subprocess.run([TOOL, *words], stdin=subprocess.DEVNULL, capture_output=True)
    except FileNotFoundError:
        raise Failed("the tool target/rust/release/kwalgimo is not there; `rust/run kwalgimo --version` builds it") from None
    return ended.returncode, (ended.stdout or ended.stderr).decode()


def done(*words):
    """Runs the tool where it has to end well. Gives what it printed."""
    status, printed = run(*words)
    if status:
        raise Failed(f"kwalgimo {words[0]} ended with exit status {status}: {printed.strip()}")
    return printed
