"""tools/statement: which links hold, which edits and laws must be named."""
from fixture import Scratch

SPECS = "-- Says.\npub record Demand (n : N) : Type 0 where\n  pub first : (a : A) → a ≡ a\n\nunfoldable pub table : List Line\ntable = []\n"
PROOFS = "use lib.X.{helper}\n\nhelped : A ≡ A\nhelped = refl\n\npub demand : Demand 1\ndemand = record { first = λ a. helped }\n"
CODE = "// The check.\npub fn check(image: &[u8]) -> Checked\n{\n}\n"
LINKS = "[`Demand`](../crates/claims/specs/D.antt), [`Demand.first`](../crates/claims/specs/D.antt), [`table`](../crates/claims/specs/D.antt), " \
    "[`demand`](../crates/claims/proofs/D.antt), [`check`](../crates/claims/src/lib.rt), [`claims/wrong`](../crates/claims/must-fail/wrong.edit)\n"


class Statement(Scratch):
    def setUp(self):
        super().setUp()
        self.write("crates/claims/specs/D.antt", SPECS)
        self.write("crates/claims/proofs/D.antt", PROOFS)
        self.write("crates/claims/src/lib.rt", CODE)
        self.write("crates/claims/must-fail/wrong.edit", "a wrong program\n")
        self.write("docs/STATEMENT.md", LINKS)

    def refused(self, said):
        status, out = self.run_script("statement")
        self.assertEqual((status, out), (1, said))

    def test_all_holds(self):
        self.assertEqual(self.run_script("statement"), (0, "each of 6 links holds, each must-fail edit is named, and each law is cited or named\n"))

    def test_no_file(self):
        self.write("docs/STATEMENT.md", LINKS + "[`demand`](../crates/claims/proofs/E.antt)\n")
        self.refused("`demand`: there is no ../crates/claims/proofs/E.antt\n")

    def test_not_declared(self):
        self.write("docs/STATEMENT.md", LINKS + "[`helper`](../crates/claims/proofs/D.antt)\n")
        self.refused("`helper`: not declared in ../crates/claims/proofs/D.antt\n")

    def test_no_such_field(self):
        self.write("docs/STATEMENT.md", LINKS + "[`Demand.second`](../crates/claims/specs/D.antt)\n")
        self.refused("`Demand.second`: not declared in ../crates/claims/specs/D.antt\n")

    def test_no_such_function(self):
        self.write("docs/STATEMENT.md", LINKS + "[`chec`](../crates/claims/src/lib.rt)\n")
        self.refused("`chec`: not declared in ../crates/claims/src/lib.rt\n")

    def test_function_with_type_parameters(self):
        self.write("crates/claims/src/lib.rt", CODE.replace("check(", "check<'a, T: Profile>("))
        self.assertEqual(self.run_script("statement")[0], 0)

    def test_declared_in_a_comment_only(self):
        self.write("crates/claims/specs/D.antt", SPECS + "-- last : N\n")
        self.write("docs/STATEMENT.md", LINKS + "[`last`](../crates/claims/specs/D.antt)\n")
        self.refused("`last`: not declared in ../crates/claims/specs/D.antt\n")

    def test_another_edit(self):
        self.write("docs/STATEMENT.md", LINKS + "[`claims/other`](../crates/claims/must-fail/wrong.edit)\n")
        self.refused("`claims/other`: ../crates/claims/must-fail/wrong.edit is another edit\n")

    def test_edit_not_named(self):
        self.write("crates/claims/must-fail/other.edit", "another\n")
        self.refused("the must-fail edit claims/other is not named\n")

    def test_law_that_nothing_cites(self):
        self.write("crates/claims/proofs/E.antt", "pub unused : A ≡ A\nunused = refl\n")
        self.refused("crates/claims/proofs/E.antt: nothing cites unused\n")

    def test_law_that_its_own_clauses_cite_by_name_only(self):
        self.write("crates/claims/proofs/E.antt", "unused : N → A ≡ A\nunused zero = refl\nunused (suc n) = refl\n")
        self.refused("crates/claims/proofs/E.antt: nothing cites unused\n")

    def test_law_cited_at_the_start_of_a_line(self):
        self.write("crates/claims/proofs/E.antt", "law : A ≡ A\nlaw = refl\n\npub demand : A ≡ A\ndemand =\n    law\n")
        self.assertEqual(self.run_script("statement")[0], 0)

    def test_law_brought_in_and_not_used(self):
        self.write("crates/claims/proofs/E.antt", "pub unused : A ≡ A\nunused = refl\n")
        self.write("crates/claims/proofs/F.antt", "use Rattle.claims.proofs.E.{unused}\n")
        self.refused("crates/claims/proofs/E.antt: nothing cites unused\n")

    def test_law_that_only_the_code_cites(self):
        self.write("crates/claims/proofs/E.antt", "pub hint : A ≡ A\nhint = refl\n")
        self.write("crates/claims/src/lib.rt", "#[tactic(auto, using(crate::proofs::E::hint))]\n" + CODE)
        self.assertEqual(self.run_script("statement")[0], 0)

    def test_answers_need_no_citing(self):
        self.write("crates/claims/proofs/check/Answers.antt", "pub returns : goal.returns\nreturns c = refl\n")
        self.write("crates/claims/proofs/check/Invariants.antt", "abbrev pub invariant-loop : goal.invariant-loop\ninvariant-loop l = A\n")
        self.assertEqual(self.run_script("statement")[0], 0)

    def test_laws_in_a_file_that_is_named_like_answers(self):
        self.write("crates/claims/proofs/Answers.antt", "pub unused : A ≡ A\nunused = refl\n")
        self.refused("crates/claims/proofs/Answers.antt: nothing cites unused\n")

    def test_what_rt_leaves_is_not_read(self):
        self.write("crates/claims/out/proofs/E.antt", "pub unused : A ≡ A\nunused = refl\n")
        self.assertEqual(self.run_script("statement")[0], 0)

    def test_no_link(self):
        self.write("docs/STATEMENT.md", "Nothing.\n")
        self.assertEqual(self.run_script("statement")[0], 1)
