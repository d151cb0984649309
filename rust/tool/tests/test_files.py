"""Files are written whole or not at all."""
import os
import resource
import signal
import subprocess
from pathlib import Path

from desk import TOOL, Desk


def no_room():
    """A file takes 20 bytes, and then its disk is full."""
    signal.signal(signal.SIGXFSZ, signal.SIG_IGN)
    resource.setrlimit(resource.RLIMIT_FSIZE, (20, 20))


class Files(Desk):
    def test_a_disk_without_room_leaves_the_library_as_it_was(self):
        before = self.example.read_bytes()
        for words in [("add", "example.kwl", "105", "12"), ("file", "example.kwl")]:
            status, out, err = self.kwalgimo(*words, preexec_fn=no_room)
            self.assertEqual((status, out), (2, ""))
            self.assertIn("example.kwl cannot be written: File too large", err)
            self.assertEqual(self.example.read_bytes(), before)
            self.assertEqual(self.files(), ["example.kwl"])

    def test_a_disk_without_room_makes_no_new_file(self):
        for words in [("start", "new", "1", "1", "1", "0"), ("file", "example.kwl", "new"), ("show", "example.kwl", "--svg", "new")]:
            status, _, err = self.kwalgimo(*words, preexec_fn=no_room)
            self.assertEqual(status, 2)
            self.assertIn("new cannot be written", err)
            self.assertEqual(self.files(), ["example.kwl"])

    def test_nothing_is_left_beside_a_written_file(self):
        self.assertEqual(self.kwalgimo("add", "example.kwl", "105", "12")[0], 0)
        self.assertEqual(self.files(), ["example.kwl"])

    def test_the_file_is_replaced_and_not_written_over(self):
        """Whoever has the old one open goes on reading it whole."""
        before = self.example.read_bytes()
        with self.example.open("rb") as opened:
            self.assertEqual(self.kwalgimo("add", "example.kwl", "105", "12")[0], 0)
            self.assertEqual(opened.read(), before)
        self.assertEqual(len(self.example.read_bytes()), len(before) + 10)

    def test_a_link_stays_a_link(self):
        link = self.folder / "link"
        link.symlink_to("example.kwl")
        self.assertEqual(self.kwalgimo("add", "link", "105", "12")[0], 0)
        self.assertTrue(link.is_symlink())
        self.assertEqual(len(self.example.read_bytes()), 66)

    def test_what_may_be_done_with_a_file_stays(self):
        os.chmod(self.example, 0o640)
        self.assertEqual(self.kwalgimo("add", "example.kwl", "105", "12")[0], 0)
        self.assertEqual(self.example.stat().st_mode & 0o777, 0o640)

    def test_a_name_that_is_no_text(self):
        name = os.fsdecode(b"\xff.kwl")
        Path(self.folder, name).write_bytes(self.example.read_bytes())
        self.assertEqual(self.kwalgimo("add", name, "105", "12")[0], 0)
        self.assertEqual(self.kwalgimo("check", name)[0], 0)

    def test_a_part_that_a_stopped_run_left_is_no_hindrance(self):
        # the shell's number is that of the tool which it becomes
        script = 'echo left > .example.kwl.$$.0.part; exec "$0" add example.kwl 105 12'
        done = subprocess.run(["sh", "-c", script, TOOL], cwd=self.folder, capture_output=True, check=False)
        self.assertEqual(done.returncode, 0, done.stderr)
        left, library = self.files()
        self.assertEqual(((self.folder / left).read_text(encoding="ascii"), library), ("left\n", "example.kwl"))
        self.assertEqual(len(self.example.read_bytes()), 66)

    def test_a_link_that_leads_nowhere_stays(self):
        (self.folder / "link").symlink_to("nowhere")
        status, _, err = self.kwalgimo("start", "link", "1", "1", "1", "0", "--replace")
        self.assertEqual(status, 2)
        self.assertIn("a link that leads nowhere", err)
        self.assertEqual(self.files(), ["example.kwl", "link"])

    def test_additions_at_the_same_time_are_all_kept(self):
        runs = [subprocess.Popen([TOOL, "add", "example.kwl", str(code), str(code)], cwd=self.folder, stdout=subprocess.DEVNULL)
                for code in range(200, 240)]
        self.assertEqual([run.wait() for run in runs], [0] * 40)
        self.assertIn("44 strains", self.kwalgimo("check", "example.kwl")[1])

    def test_of_libraries_started_at_the_same_time_one_is_kept(self):
        runs = [subprocess.Popen([TOOL, "start", "new.kwl", "1", "1", str(code), "0"], cwd=self.folder, stdout=subprocess.DEVNULL,
                                 stderr=subprocess.DEVNULL) for code in range(1, 31)]
        self.assertEqual(sorted(run.wait() for run in runs), [0] + [2] * 29)
