"""tools/gate: what it counts, shows and refuses."""
import os
import re
import subprocess
import tempfile
import unittest
from pathlib import Path

GATE = Path(__file__).resolve().parent.parent / "gate"


class Gate(unittest.TestCase):
    def setUp(self):
        folder = tempfile.TemporaryDirectory()
        self.addCleanup(folder.cleanup)
        self.folder = Path(folder.name)

    def run_steps(self, *steps):
        """Runs the steps. Keeps the lines printed, and gives the last of them and the exit status."""
        done = subprocess.run([GATE], input="\n".join(steps), cwd=self.folder, capture_output=True, text=True)
        self.lines = done.stdout.splitlines()
        return self.lines[-1], done.returncode

    def test_counts_a_plain_step_as_one(self):
        self.assertEqual(self.run_steps("first: true", "second: echo done"), ("2 passed, 0 failed", 0))

    def test_counts_a_step_by_its_tally(self):
        self.assertEqual(self.run_steps("first: echo 30 passed, 0 failed; echo", "second: true"), ("31 passed, 0 failed", 0))

    def test_counts_a_tally_with_no_line_end(self):
        self.assertEqual(self.run_steps("first: printf '3 passed, 0 failed'"), ("3 passed, 0 failed", 0))
        self.assertIn("3 passed, 0 failed", self.lines[:-1])

    def test_a_tally_is_the_whole_of_the_last_line(self):
        steps = "first: echo 7 passed, 0 failed; echo done", "second: echo all 7 passed, 0 failed"
        self.assertEqual(self.run_steps(*steps), ("2 passed, 0 failed", 0))

    def test_a_tally_is_on_standard_output(self):
        self.assertEqual(self.run_steps("first: echo 7 passed, 0 failed >&2"), ("1 passed, 0 failed", 0))

    def test_stops_at_an_exit_status(self):
        self.assertEqual(self.run_steps("first: true", "second: exit 3", "third: echo third ran"), ("1 passed, 1 failed", 1))
        self.assertIn("== FAILED: second (exit status 3, 1 failed). No step after it was run.", self.lines)
        self.assertNotIn("third ran", self.lines)

    def test_stops_at_a_tally_with_failures(self):
        self.assertEqual(self.run_steps("first: echo 5 passed, 2 failed", "second: echo second ran"), ("5 passed, 2 failed", 1))
        self.assertIn("== FAILED: first (exit status 0, 2 failed). No step after it was run.", self.lines)
        self.assertNotIn("second ran", self.lines)

    def test_a_good_tally_does_not_hide_an_exit_status(self):
        self.assertEqual(self.run_steps("first: echo 5 passed, 0 failed; exit 1"), ("5 passed, 1 failed", 1))

    def test_refuses_a_malformed_step_before_it_runs_any(self):
        for step in "echo no colon", "nothing after it:", ": nothing before it":
            self.assertEqual(self.run_steps("first: echo first ran", step), ("0 passed, 1 failed", 1))
            self.assertIn(f"== FAILED: no step `what is checked: command`: {step}", self.lines)
            self.assertNotIn("first ran", self.lines)

    def test_refuses_no_step(self):
        self.assertEqual(self.run_steps("", ""), ("0 passed, 1 failed", 1))
        self.assertIn("== FAILED: no step was given", self.lines)

    def test_prints_headings_output_and_times_in_order(self):
        self.run_steps("first thing: echo one; echo two", "second thing: echo three")
        untimed = [re.sub(r"\d+\.\d s$", "TIME", line) for line in self.lines]
        self.assertEqual(untimed, [
            "== first thing: echo one; echo two", "one", "two", "== TIME",
            "== second thing: echo three", "three", "== TIME",
            "== the whole gate: TIME", "2 passed, 0 failed"])

    def test_a_step_has_no_input(self):
        self.assertEqual(self.run_steps("first: cat", "second: true"), ("2 passed, 0 failed", 0))

    def test_a_step_runs_in_the_current_folder(self):
        (self.folder / "here").touch()
        self.assertEqual(self.run_steps("first: test -e here"), ("1 passed, 0 failed", 0))

    def test_shows_output_before_a_step_ends(self):
        # The step ends well only if `go` is made, and the test makes it when it has seen the step's first line.
        step = b"first: echo early; for i in 1 2 3 4 5 6 7 8; do test -e go && exit; sleep 0.5; done; exit 1"
        buffered = {name: value for name, value in os.environ.items() if name != "PYTHONUNBUFFERED"}
        with subprocess.Popen([GATE], stdin=subprocess.PIPE, stdout=subprocess.PIPE, cwd=self.folder, env=buffered) as gate:
            gate.stdin.write(step)
            gate.stdin.close()
            for line in gate.stdout:
                if line == b"early\n":
                    (self.folder / "go").touch()
        self.assertEqual(gate.returncode, 0)


if __name__ == "__main__":
    unittest.main()
