"""tools/transcript: what it compares, counts and writes."""
import subprocess
from pathlib import Path

from fixture import Scratch

SCRIPT = Path(__file__).resolve().parent.parent / "transcript"


class Transcript(Scratch):
    def play(self, text, *words, name="said.txt"):
        """Plays a transcript in an empty folder. The last line and the exit status; all lines are kept."""
        (self.root / "on").mkdir(exist_ok=True)
        self.write(name, text)
        done = subprocess.run([SCRIPT, "--on", self.root / "on", *words, self.root / name], capture_output=True, text=True, check=False)
        self.lines = done.stdout.splitlines()
        return self.lines[-1], done.returncode

    def stored(self, name="said.txt"):
        return (self.root / name).read_text(encoding="utf-8")

    def test_what_is_printed_as_stored_passes(self):
        self.assertEqual(self.play("# a remark\n$ echo one\none\n\n$ printf 'a\\n\\nb\\n'\na\n\nb\n"), ("2 passed, 0 failed", 0))

    def test_what_differs_is_shown(self):
        self.assertEqual(self.play("$ echo one\ntwo\n$ echo one\none\n"), ("1 passed, 1 failed", 1))
        self.assertIn("-two", self.lines)
        self.assertIn("+one", self.lines)

    def test_the_streams_and_the_exit_status_are_told_apart(self):
        self.assertEqual(self.play("$ echo out; echo err >&2; exit 3\nout\n! err\n[3]\n"), ("1 passed, 0 failed", 0))
        self.assertEqual(self.play("$ echo out; echo err >&2\nout\nerr\n"), ("0 passed, 1 failed", 1))
        self.assertEqual(self.play("$ exit 3\n"), ("0 passed, 1 failed", 1))
        self.assertEqual(self.play("$ true\n[3]\n"), ("0 passed, 1 failed", 1))

    def test_a_line_too_much_or_too_few_fails(self):
        self.assertEqual(self.play("$ echo one\none\nmore\n"), ("0 passed, 1 failed", 1))
        self.assertEqual(self.play("$ printf 'one\\nmore\\n'\none\n"), ("0 passed, 1 failed", 1))

    def test_a_line_that_no_command_has_printed_fails(self):
        self.assertEqual(self.play("$ echo one\none\n\n# a remark\ntwo\n"), ("0 passed, 1 failed", 1))

    def test_what_begins_like_a_remark_may_be_printed(self):
        self.assertEqual(self.play("$ printf 'one\\n# two\\n'\none\n# two\n"), ("1 passed, 0 failed", 0))
        self.assertEqual(self.play("$ printf '# two\\n'\n# two\n"), ("1 passed, 0 failed", 0))

    def test_a_transcript_without_commands_fails(self):
        self.assertEqual(self.play("# nothing\n"), ("0 passed, 0 failed", 1))

    def test_commands_see_what_the_last_one_wrote_and_the_folder_stays(self):
        self.assertEqual(self.play("$ echo one > file\n$ cat file\none\n"), ("2 passed, 0 failed", 0))
        self.assertEqual(list((self.root / "on").iterdir()), [])

    def test_of_a_page_only_the_fences_are_played(self):
        page = "$ false\n\n```sh\n$ false\n```\n\n```console\n$ echo one; echo two >&2\none\ntwo\n```\n\nwords\n"
        self.assertEqual(self.play(page, name="page.md"), ("1 passed, 0 failed", 0))

    def test_of_a_page_the_exit_status_counts_too(self):
        self.assertEqual(self.play("```console\n$ false\n```\n", name="page.md"), ("0 passed, 1 failed", 1))

    def test_a_command_begins_where_the_last_has_ended(self):
        self.assertEqual(self.play("$ mkdir inner && cd inner\n$ basename $(pwd)\ninner\n"), ("2 passed, 0 failed", 0))

    def test_ends_of_lines_are_seen(self):
        self.assertEqual(self.play("$ printf 'one\\r\\ntwo'\none\ntwo\n"), ("0 passed, 1 failed", 1))
        self.assertEqual(self.play("$ printf 'one\\r\\ntwo'\none\\r\ntwo\\\n"), ("1 passed, 0 failed", 0))

    def test_the_gate_on_a_page_is_passed_over(self):
        self.assertEqual(self.play("```console\n$ .ci/run\n$ echo one\none\n```\n", name="page.md"), ("1 passed, 0 failed", 0))

    def test_store_writes_what_is_printed_and_keeps_the_rest(self):
        self.play("# a remark\n$ echo one\ntwo\n\n# another\n$ echo three >&2; exit 2\n", "--store")
        self.assertEqual(self.stored(), "# a remark\n$ echo one\none\n\n# another\n$ echo three >&2; exit 2\n! three\n[2]\n")

    def test_store_on_a_page_keeps_its_words(self):
        page = "# A page\n\n```console\n$ echo one\ntwo\n```\nwords\n"
        self.play(page, "--store", name="page.md")
        self.assertEqual(self.stored("page.md"), page.replace("two", "one"))
