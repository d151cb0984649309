"""Nothing panics, whatever the words and files hold."""
import random

from desk import EXAMPLES, Desk


class AnyInput(Desk):
    def expect_an_end(self, *words):
        status, out, err = self.kwalgimo(*words)
        self.assertIn(status, (0, 1, 2), (words, err))
        self.assertNotIn("panicked", err)
        self.assertEqual(bool(err), status != 0 and not (words[0] == "check" and status == 1), (words, out, err))

    def commands_on(self, image):
        names = str(EXAMPLES / "names")
        yield "check", image
        yield "list", image
        yield "show", image, "--names", names
        yield "show", image, "--svg", "-"
        yield "selftest", image
        yield "match", image, "7", "--names", names
        yield "within", image, "7", "4"
        yield "add", image, "105", "12"
        yield "file", image, "filed", "--replace"

    def test_damaged_images(self):
        draw = random.Random(1)
        good = self.example.read_bytes()
        for _ in range(120):
            image = bytearray(good[:draw.choice([len(good), draw.randrange(len(good) + 1)])])
            for _ in range(draw.randrange(1, 4)):
                if image:
                    image[draw.randrange(len(image))] = draw.choice([0, 1, 2, 255, draw.randrange(256)])
            for words in self.commands_on("image"):
                (self.folder / "image").write_bytes(image)
                self.expect_an_end(*words)

    def test_texts_of_any_kind(self):
        draw = random.Random(2)
        pieces = [b"7", b"-1", b",", b" ", b"\n", b"\"", b"101", b"#", b"x", b"\xff", b"\0", b"\r", b"99999999999", b"\xef\xbb\xbf", b"1.5", b"\t"]
        for _ in range(150):
            text = b"".join(draw.choice(pieces) for _ in range(draw.randrange(12)))
            (self.folder / "text").write_bytes(text)
            self.expect_an_end("match", "example.kwl", "./text")
            self.expect_an_end("match", "example.kwl", "7", "--names", "text")
            self.expect_an_end("add", "example.kwl", "--from", "text")
            self.example.write_bytes((EXAMPLES / "example.kwl").read_bytes())

    def test_words_of_any_kind(self):
        draw = random.Random(4)
        commands = ["check", "list", "start", "add", "file", "match", "within", "show", "selftest", "explain", "help"]
        words = ["example.kwl", "7", "-31", "--names", "-k", "--csv", "--", "-", "", "--svg", "--from", "--replace", "=", "-k=3", "--help", "99999999999", "--x=", "é"]
        for _ in range(400):
            self.expect_an_end(draw.choice(commands), *draw.choices(words, k=draw.randrange(5)))
            self.example.write_bytes((EXAMPLES / "example.kwl").read_bytes())
