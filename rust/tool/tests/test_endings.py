"""How the tool ends where its output goes to nobody, to a full disk, or to a person who waits."""
import os
import pty
import random
import subprocess
import time

from desk import TOOL, Desk


class Endings(Desk):
    def unread(self, *words):
        """The exit status of a run whose standard output nobody reads, and its standard error."""
        read, write = os.pipe()
        os.close(read)
        done = subprocess.run([TOOL, *words], cwd=self.folder, stdout=write, stderr=subprocess.PIPE, check=False)
        os.close(write)
        return done.returncode, done.stderr

    def test_a_reader_that_has_seen_enough_is_no_fault(self):
        for words in [("explain",), ("check", "example.kwl"), ("match", "example.kwl", "7"), ("--help",)]:
            self.assertEqual(self.unread(*words), (0, b""), words)

    def test_what_was_found_decides_the_exit_status_also_where_nobody_reads_it(self):
        (self.folder / "empty").touch()
        self.assertEqual(self.unread("check", "empty", "example.kwl"), (1, b""))
        status, err = self.unread("check", "empty", "missing", "example.kwl")
        self.assertEqual(status, 2)
        self.assertIn(b"missing cannot be read", err)

    def test_a_written_file_that_cannot_be_told(self):
        with open("/dev/full", "wb") as full:
            done = subprocess.run([TOOL, "add", "example.kwl", "105", "12"], cwd=self.folder, stdout=full, stderr=subprocess.PIPE, check=False)
        self.assertEqual(done.returncode, 2)
        self.assertIn(b"example.kwl is written, but the answer cannot be written", done.stderr)

    def test_output_that_cannot_be_written_is_told(self):
        for words in [("list", "example.kwl"), ("show", "example.kwl"), ("selftest", "example.kwl"), ("--version",)]:
            with open("/dev/full", "wb") as full:
                done = subprocess.run([TOOL, *words], cwd=self.folder, stdout=full, stderr=subprocess.PIPE, check=False)
            self.assertEqual(done.returncode, 2, words)
            self.assertIn(b"the answer cannot be written", done.stderr)

    def test_no_standard_error_changes_nothing(self):
        with open("/dev/full", "wb") as full:
            done = subprocess.run([TOOL, "check", "missing"], cwd=self.folder, stderr=full, check=False)
        self.assertEqual(done.returncode, 2)


class Progress(Desk):
    def large(self):
        """A library whose self-test takes seconds."""
        draw = random.Random(3)
        strains = [f"{code}," + ",".join(str(draw.randrange(-9999, 9999)) for _ in range(16)) for code in range(1, 1025)]
        (self.folder / "strains.csv").write_text("\n".join(strains), encoding="ascii")
        self.assertEqual(self.kwalgimo("start", "large.kwl", "16", "1", "--from", "strains.csv")[0], 0)
        return "large.kwl"

    def on_terminal(self, *words):
        """Runs the tool with a terminal for its standard error. How it ended, what the terminal got, and how many seconds it took."""
        person, terminal = pty.openpty()
        began = time.monotonic()
        with subprocess.Popen([TOOL, *words], cwd=self.folder, stdout=subprocess.PIPE, stderr=terminal) as run:
            os.close(terminal)
            shown = b"".join(iter(lambda: read_on(person), b""))
            out = run.stdout.read()
        os.close(person)
        return run.returncode, out.decode(), shown.decode(), time.monotonic() - began

    def test_long_work_shows_how_far_it_is_to_a_terminal_alone(self):
        status, out, shown, took = self.on_terminal("selftest", self.large())
        self.assertEqual(status, 0)
        self.assertEqual(self.kwalgimo("selftest", "large.kwl"), (0, out, ""))
        if took < 1.5:
            self.skipTest("this machine is too fast for work that takes over a second")
        self.assertRegex(shown, r"^\r[a-z ]+: [0-9]+ of 1024")
        self.assertTrue(shown.endswith("\r\x1b[K"))

    def test_short_work_shows_nothing(self):
        self.assertEqual(self.on_terminal("selftest", "example.kwl")[2], "")


def read_on(terminal):
    """What came to the terminal. Nothing where the other side is closed, which the system tells as an error."""
    try:
        return os.read(terminal, 4096)
    except OSError:
        return b""
