"""A folder with the example library, made anew for each test, and the tool to use in it."""
import shutil
import subprocess
import tempfile
import unittest
from pathlib import Path

TOP = Path(__file__).resolve().parents[3]
EXAMPLES = TOP / "examples"
TOOL = TOP / "target/rust/release/kwalgimo"


class Desk(unittest.TestCase):
    def setUp(self):
        folder = tempfile.TemporaryDirectory()
        self.addCleanup(folder.cleanup)
        self.folder = Path(folder.name)
        self.example = Path(shutil.copy(EXAMPLES / "example.kwl", self.folder))

    def kwalgimo(self, *words, **how):
        """Runs the tool in the folder. Gives its exit status, and what it printed on both streams."""
        done = subprocess.run([TOOL, *words], cwd=self.folder, capture_output=True, check=False, stdin=subprocess.DEVNULL, **how)
        return done.returncode, done.stdout.decode(), done.stderr.decode()

    def files(self):
        return sorted(path.name for path in self.folder.iterdir())
