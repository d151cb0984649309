"""tools/imports: which names count as used."""
from fixture import Scratch


class Imports(Scratch):
    def run_on(self, name, text):
        self.write(f"crates/profile/{name}", text)
        return self.run_script("imports")

    def test_used_names_pass(self):
        status, said = self.run_on("proofs/A.antt", "use lib.X.{◌+◌, suc, ap as map, if◌then◌else◌}\nuse lib.Tie as tie\n\nf : tie.N\nf a = map (a + suc a) (if a then a else a)\n")
        self.assertEqual((status, said), (0, "each name that 1 files bring in is used there\n"))

    def test_unused_name(self):
        status, said = self.run_on("proofs/A.antt", "use lib.X.{suc, pred}\n\nf : N\nf = suc\n")
        self.assertEqual(status, 1)
        self.assertIn("crates/profile/proofs/A.antt: pred\n", said)

    def test_name_in_a_comment_only(self):
        status, said = self.run_on("proofs/A.antt", "use lib.X.{pred}\n\n-- pred\nf : N\nf = 1\n")
        self.assertEqual(status, 1)
        self.assertIn("A.antt: pred\n", said)

    def test_unused_operator(self):
        status, said = self.run_on("proofs/A.antt", "use lib.X.{◌+◌, ◌≤◌}\n\nf : N\nf a = a ≤ a\n")
        self.assertEqual(status, 1)
        self.assertIn("A.antt: ◌+◌\n", said)
        self.assertNotIn("◌≤◌", said)

    def test_unused_under_another_name(self):
        status, said = self.run_on("proofs/A.antt", "use lib.X.{ap as map}\n\nf : N\nf = ap\n")
        self.assertEqual(status, 1)
        self.assertIn("A.antt: map\n", said)

    def test_one_name_under_another(self):
        status, said = self.run_on("src/lib.rt", "ghost use lib.X.{ap as map};\n\nfn f() ensures { map } {}\n")
        self.assertEqual((status, said), (0, "each name that 1 files bring in is used there\n"))

    def test_unused_module(self):
        status, said = self.run_on("proofs/A.antt", "use lib.Reads as reads\n\nf : N\nf = 1\n")
        self.assertEqual(status, 1)
        self.assertIn("A.antt: reads\n", said)

    def test_source_file(self):
        status, said = self.run_on("src/lib.rt", "ghost use lib.X.{length, take};\n\nfn f() ensures { length } {}\n")
        self.assertEqual(status, 1)
        self.assertIn("src/lib.rt: take\n", said)

    def test_a_name_of_several_words(self):
        status, said = self.run_on("proofs/A.antt", "use lib.X.{suc_le, pred_le}\n\nf : N\nf = suc le pred_le\n")
        self.assertEqual(status, 1)
        self.assertIn("A.antt: suc_le\n", said)
        self.assertNotIn("A.antt: pred_le\n", said)

    def test_what_rt_leaves_is_not_read(self):
        self.write("crates/profile/out/rlib/A.antt", "use lib.X.{pred}\n")
        self.assertEqual(self.run_on("proofs/A.antt", "f : N\n"), (0, "each name that 1 files bring in is used there\n"))

    def test_nothing_to_read(self):
        self.assertEqual(self.run_script("imports")[0], 1)
