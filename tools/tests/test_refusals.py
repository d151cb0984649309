"""tools/refusals: which errors show a broken fact, and which do not."""
from fixture import Scratch

# What the prover says where a fact does not hold: at a line of a proof file, cut off behind some words.
FACTS = (
    "`returns`: `omega`: the goal does not follow from what it read. All of that holds, and the goal fails, at `x` = 1",
    "`returns`: `grind`: the goal does not follow. The hypotheses hold, and the goal fails at `x` = `lib.IntN.pos 0`",
    "`returns`: `omega`: the part `.1` of the goal does not follow from what it read. All of that holds",
    "`some-long-name-of-a-goal-of-the-code`: `omega`: the goal does not fol",
    "`returns`: `omega` found no proof, and no values at which the goal fails: it found no whole numbers",
    "`returns`: `grind` found no proof, and could not check its values",
    "`law`: as printed, the two types first differ where one has `distance` (expected), right after `Metric (",
    "`some-long-name-of-a-goal-of-the-code`: computed as far as they go, the two ty",
    "`again`: computed as far as they go, the two types differ only where one has `1` (expected) and the other has `2` (found)",
    "`law`: expected type `a ≡ b`, but this has type `a ≡ c`",
    "`law`: expected type `Asked (c.args)`",
    "`valid`: `too_near xs j i` ≟ `leb 2 3`",
    "`returns`: `simp`: no equation of the list has an instance in the goal `Post c`",
    "`returns`: `rw`: no occurrence of the path's left endpoint in the goal: write the family yourself",
    "`returns`: `simp` has no last argument, so what it leaves must be a path whose two ends are equal, and `Path ℕ 1 2`",
    "`returns`: `grw`: this rule rewrites nothing in the goal `a ≤ b`",
    "`returns`: `cc`: the equations do not join `a` to `b`",
    "`returns`: `cc` met a bound of its own before the equations had joined `a` to `b`",
    "`returns`: `search`: no proof of `Post c` was found. Every way was tried",
    "`returns`: list the missing equation with its arguments, or rewrite by `rw` or `simp`",
    "`returns`: give a proof of that as the last argument, `rw L t` (`rw L ?` shows it as a hole's goal), or add what is missing to the list",
)

# What it says where a proof file does not fit, or the edit is not well formed, and what the script makes of it.
UNFIT = (
    ("`cast`: module `Goals` has no `overflow_cast-2` that can be named from here", "a proof names what is not there"),
    ("`less`: the two types differ only where one has `Lts.In-loop` (expected) and the other has `Lts.At-loop` (found)",
     "the proof takes one place of the code for another"),
    ("`again`: record `Rattle.profile.proofs.largest.Lts.View.Start` has no field `loop`", "the proof takes one place of the code for another"),
    ("`returns`: this λ has 2 binders, but its type has room for only 1: at `c` the type is `InSlice`",
     "the proof's λ does not fit what is asked for"),
    ("`returns`: this λ is checked against `URA {1} ?1`, which is not a function or extension (path) type",
     "the proof's λ does not fit what is asked for"),
    ("`city`: `◌plus◌` is not in scope", "a name is not in scope"),
    ("`law`: expected the end of the term, found `in`", "a text cannot be parsed"),
    ("this line starts at column 1, but the `(` opened at 18:20 is still open", "a text cannot be parsed"),
    ("`returns`: `minus` was not admitted (it was rejected), so this cannot be checked", "it only follows from what came before"),
    ("1 declaration that depends on `minus`, which was rejected, was not checked: overflow_sub-result", "it only follows from what came before"),
    ("`returns`: `search` broke off", "the error is of no kind that is known to show a broken fact"),
)

NOTE = "refused, as it must be: note: src/well.rt:20:1: "
HOLDS = "it is not proved that what the function ensures holds when it returns (`returns`); the facts known there allow values at which"


class Refusals(Scratch):
    def setUp(self):
        super().setUp()
        self.write("crates/profile/must-fail/swapped.edit", "file: src/lib.rt\nold: 1\nnew: 2\n")

    def judge(self, told):
        """Judges the edit by what `rt ci` says of it. Gives the lines printed and the exit status."""
        self.write("target/log/ci.say", f"== profile\nlogic=proved\nrt: must-fail profile/swapped.edit: {told}\nrt: must-fail profile/other.edit: {NOTE}{HOLDS}\n")
        status, said = self.run_script("refusals")
        return said.splitlines(), status

    def assert_fact(self, line, told):
        self.assertEqual(self.judge(told), ([line, "1 of 1 must-fail edits were refused by a fact"], 0))

    def assert_no_fact(self, words, told):
        self.assertEqual(self.judge(told), ([f"NOT BY A FACT: profile/swapped: {words}",
                                             "0 of 1 must-fail edits were refused by a fact"], 1))

    def test_passes_each_kind_of_broken_fact(self):
        for words in FACTS:
            with self.subTest(words):
                self.assert_fact(f"profile/swapped: proofs/f/Answers.antt:22: {words[:120]}",
                                 f"refused, as it must be: ./proofs/f/Answers.antt:22:14: error: {words}")

    def test_passes_a_goal_that_is_not_proved(self):
        self.assert_fact(f"profile/swapped: src/well.rt:20: {HOLDS[:120]}", NOTE + HOLDS)

    def test_refuses_each_kind_of_unfit_proof(self):
        for words, why in UNFIT:
            with self.subTest(words):
                self.assert_no_fact(f"{why}: proofs/f/Answers.antt:7: {words}",
                                    f"refused, as it must be: ./proofs/f/Answers.antt:7:1: error: {words}")

    def test_refuses_another_note(self):
        self.assert_no_fact("the note is of no kind that is known to show a broken fact: src/well.rt:20: a goal may be false", NOTE + "a goal may be false")

    def test_refuses_a_contract_that_is_not_well_formed(self):
        words = "`ensures-exact`: expected type `ℕ`, but this has type `ℤ`"
        self.assert_no_fact(f"a clause of the source is not well formed: src/lib.rt:11: {words}", f"refused, as it must be: src/lib.rt:11:32: error: {words}")

    def test_refuses_what_is_refused_for_another_reason(self):
        for told in ("refused, as it must be (only because a proof file names what the edit took away, so this says little): ./proofs/f/Answers.antt:8:47: error: x",
                     "refused, as it must be (only by a limit of the prover, which gave no verdict): ./proofs/f/Answers.antt:8:47: error: x",
                     "refused, as it must be",
                     "BAD EDIT: an 'old:' text is in src/lib.rt 0 times, and not once",
                     "NOT TRIED: its check was killed",
                     "NOT REFUSED: the crate is still proved with this edit"):
            with self.subTest(told):
                self.assert_no_fact(told, told)

    def test_refuses_an_edit_of_a_proof(self):
        self.write("crates/profile/must-fail/swapped.edit", "file: proofs/Laws.antt\nold: 1\nnew: 2\n")
        self.assert_no_fact("it edits a proof", NOTE + HOLDS)

    def test_refuses_an_edit_of_which_nothing_is_said(self):
        self.judge(NOTE + HOLDS)
        self.write("crates/profile/must-fail/new.edit", "file: src/lib.rt\nold: 1\nnew: 2\n")
        status, said = self.run_script("refusals")
        self.assertEqual((status, said.splitlines()[0]), (1, "NOT BY A FACT: profile/new: rt ci says nothing of it"))

    def test_refuses_where_nothing_was_kept(self):
        self.assertEqual(self.run_script("refusals")[1].splitlines()[0], "NOT BY A FACT: profile/swapped: rt ci says nothing of it")

    def test_refuses_a_repository_with_no_edit(self):
        (self.root / "crates/profile/must-fail/swapped.edit").unlink()
        self.assertEqual(self.judge(NOTE + HOLDS), (["there is no must-fail edit"], 1))
