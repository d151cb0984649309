"""tools/prove: what of `rt ci` it passes on, keeps and refuses."""
import os
import subprocess
from pathlib import Path

from fixture import Scratch

PROVE = Path(__file__).resolve().parent.parent / "prove"
OK = "rt: ok; handles allowed: none; must-fail edits: 2 refused"
END = "; every proof and must-fail edit was done in this run\n4 passed, 0 failed\n"


class Prove(Scratch):
    def prove(self, said, status=0):
        """Runs the script where `rt` prints so much and ends so. Gives the exit status and what was printed."""
        self.write("said", said)
        self.write("bin/rt", f'#!/bin/sh\ntest "$*" = ci && test "$PWD" = "{self.root.resolve()}" || exit 9\ncat said\nexit {status}\n')
        (self.root / "bin/rt").chmod(0o755)
        path = os.pathsep.join([str(self.root / "bin"), os.environ["PATH"]])
        done = subprocess.run([str(PROVE), str(self.root)], capture_output=True, text=True, check=False, env={**os.environ, "PATH": path})
        return done.returncode, done.stdout

    def test_passes_and_keeps_what_was_said(self):
        said = "== tree\n" + OK + END
        self.assertEqual(self.prove(said), (0, said))
        self.assertEqual((self.root / "target/log/ci.say").read_text(encoding="utf-8"), said)

    def test_fails_where_the_run_fails(self):
        said = "rt: FAILED: tree\n3 passed, 1 failed\n"
        self.assertEqual(self.prove(said, 1), (1, said))
        self.assertEqual(self.prove(OK + END, 3), (1, OK + END))

    def test_refuses_bad_edits(self):
        status, out = self.prove(OK + ", 3 bad" + END)
        self.assertEqual((status, out.splitlines()[-1]), (1, "rt ci tried no contract by 3 must-fail edits: mend them"))

    def test_refuses_a_run_that_says_no_ok(self):
        status, out = self.prove("nothing, 3 bad\n4 passed, 0 failed\n")
        self.assertEqual((status, out.splitlines()[-1]), (1, "rt ci does not say `rt: ok`"))

    def test_only_the_line_ok_tells_of_bad_edits(self):
        self.assertEqual(self.prove("note: two, 3 bad\n" + OK + END)[0], 0)
