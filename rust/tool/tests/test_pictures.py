"""The picture of a tree, read as XML."""
import re
import xml.etree.ElementTree as xml

from desk import Desk

SVG = "{http://www.w3.org/2000/svg}"


class Pictures(Desk):
    def picture(self, *words):
        status, _, err = self.kwalgimo("show", *words, "--svg", "tree.svg", "--replace")
        self.assertEqual((status, err), (0, ""))
        root = xml.parse(self.folder / "tree.svg").getroot()
        self.assertEqual(root.tag, f"{SVG}svg")
        return root

    def texts(self, root):
        return ["".join(text.itertext()) for text in root.iter(f"{SVG}text")]

    def test_the_example(self):
        root = self.picture("example.kwl")
        texts = self.texts(root)
        for code in ("101", "102", "103", "104"):
            self.assertEqual(sum(code in text for text in texts[1:]), 1, (code, texts))
        inside = [[text.text for text in group.iter(f"{SVG}text")] for group in root.iter(f"{SVG}g")]
        self.assertEqual(inside, [["root", "101"], ["3", "102"], ["10", "103"], ["1", "104"]])
        self.assertEqual(len(list(root.iter(f"{SVG}circle"))), 4)

    def test_names_that_would_break_it(self):
        names = ['101,<script>alert("&")</script>', "102,O'Brien & sons", "103,a < b > c", "104,\U0001f9eb \ufffe"]
        (self.folder / "names").write_text("\n".join(names), encoding="utf-8")
        root = self.picture("example.kwl", "--names", "names")
        texts = " ".join(self.texts(root))
        for name in ('<script>alert("&")</script>', "O'Brien & sons", "a < b > c", "\U0001f9eb"):
            self.assertIn(name, texts)
        self.assertEqual(list(root.iter(f"{SVG}script")), [])

    def test_some_hundred_strains_each_on_a_row_of_its_own(self):
        strains = [f"{code},{(code * 7919) % 10007}" for code in range(1, 301)]
        (self.folder / "strains").write_text("\n".join(strains), encoding="ascii")
        self.assertEqual(self.kwalgimo("start", "many.kwl", "1", "1", "--from", "strains")[0], 0)
        groups = self.picture("many.kwl").iter(f"{SVG}g")
        rows = sorted(float(re.fullmatch(r"translate\(\S+ (\S+)\)", group.get("transform"))[1]) for group in groups)
        self.assertEqual(len(rows), 300)
        self.assertGreaterEqual(min(after - before for before, after in zip(rows, rows[1:])), 10)
