"""tools/made: when it builds, what it keeps, and what it says."""
import os
import shutil
import subprocess
from pathlib import Path

from fixture import Scratch

MADE = Path(__file__).resolve().parent.parent / "made"
RT = """#!/bin/sh
echo "$PWD: $*" >>"{root}/runs"
echo what is said
test -e "{root}/fails" && exit 1
mkdir -p out && echo made >out/libhost_c.a && echo made >out/listing
"""


class Made(Scratch):
    def setUp(self):
        super().setUp()
        self.write("crates.txt", "host_c staticlib:\nlisting:\n")
        self.write("crates/host_c/src/lib.rt", "\n")
        self.write("crates/listing/src/main.rt", "\n")
        self.write("runs", "")
        self.write("bin/rt", RT.format(root=self.root.resolve()))
        (self.root / "bin/rt").chmod(0o755)
        (self.root / "tools").mkdir()
        shutil.copy(MADE, self.root / "tools/made")

    def make(self, *words):
        """Runs the script where `rt` is the one above. Gives the exit status and what was printed."""
        path = os.pathsep.join([str(self.root / "bin"), os.environ["PATH"]])
        done = subprocess.run([str(self.root / "tools/made"), *words], capture_output=True, text=True, check=False, env={**os.environ, "PATH": path})
        return done.returncode, done.stdout

    def runs(self):
        return (self.root / "runs").read_text(encoding="utf-8").splitlines()

    def read(self, name):
        return (self.root / name).read_text(encoding="utf-8")

    def older(self, name):
        """As if the file had been written long ago."""
        os.utime(self.root / name, (1, 1))

    def test_makes_what_is_named(self):
        self.assertEqual(self.make("host", "listing"), (0, ""))
        self.assertEqual(self.runs(), [f"{self.root.resolve()}/crates/host_c: lib --list-axioms", f"{self.root.resolve()}/crates/listing: run --list-axioms"])
        self.assertEqual((self.read("target/staticlib/libhost.a"), self.read("target/bin/listing")), ("made\n", "made\n"))
        self.assertEqual(self.read("target/log/host_c.say"), "what is said\n")

    def test_makes_nothing_twice(self):
        self.make("host")
        for path in self.root.glob("crates/*/src/*"):
            self.older(path.relative_to(self.root))
        self.older("crates.txt")
        self.make("host")
        self.assertEqual(len(self.runs()), 1)

    def test_makes_it_anew_where_a_source_is_newer(self):
        self.make("host")
        self.older("target/staticlib/libhost.a")
        self.make("host")
        self.assertEqual(len(self.runs()), 2)

    def test_what_rt_leaves_is_no_source(self):
        self.make("host")
        for name in ["crates.txt", "crates/host_c/src/lib.rt", "crates/listing/src/main.rt", "target/staticlib/libhost.a"]:
            self.older(name)
        self.make("host")
        self.assertEqual(len(self.runs()), 1)

    def test_says_why_nothing_was_made(self):
        self.write("fails", "")
        self.assertEqual(self.make("host"), (1, "what is said\n"))
        self.assertFalse((self.root / "target/staticlib/libhost.a").exists())

    def test_refuses_another_word(self):
        self.assertEqual(self.make("hosts")[0], 2)
