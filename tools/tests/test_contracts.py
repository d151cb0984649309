"""tools/contracts: what it passes and what it refuses."""
from fixture import Scratch

# A public function with all that may stand round a contract.
GOOD = '''// Every `pub fn` has a contract.
ghost use Rattle.std.specs.Prelude.{◌≡◌, ℕ};
ghost use Prim.Native.Nat.{◌≤◌};
ghost use Rattle.profile.specs.Gap.{gap, length as length_of};

#[unsafe(no_mangle)]
pub extern "C" fn wide(x: [u8; 4], /* { */ y: &mut [u8]) -> [u8; 4]
    requires { y ≡ x } // {
    ensures exact {
        -- a brace in a comment {
        gap {x = result} x ≡ 0
    }
    ensures* rest { ⊤ₛ }
{
    let open = b"{ // \\" {";
    let brace = b'{';
    if x { y } else { open }
}

impl Best {
    pub fn new(k: usize) -> Best
        ensures { result ≡ best_of k }
    {
        Best { k }
    }
}

pub(crate) fn seen_here(x: u8) -> u8 {
    x
}

fn own(x: u8) -> u8 {
    x
}
'''

GOOD_SPECS = '''-- Definitions. length : this is a comment
{- infixl 6 ◌+◌ {- nested -} T : Type 0 -}
use Rattle.std.specs.Prelude.{◌≡◌, refl}
use mathlib.Core.Path.{sym}
use mathlib.Core.List
use package.mathlib.Core.List.{List, []}
use Prim.{Native.{Nat.{ℕ, zero}}}
use Rattle.std.proofs.Math.IntN.{suc_ℤ}
use lib.ListN.{length as count, «take»}
use lib.Dec as D
pub mod List

infixl 6 ◌⊕◌
abbrev pub gap : (length : ℕ) {T : Type 0} → List ℕ → ℕ
gap length xs = let min : ℕ = zero in min

own : ℕ
own = count [] where inner : ℕ
next : List ℕ
next = []
last : ℕ
last = zero

pub record Laws (map : ℕ → ℕ) : Type 0 where
  pub self : gap 0 [] ≡ 0
  pub apart : gap 1 [] ≡ 0
'''


# The doors of the C interface.
DOORS = "".join(f"pub fn kw_{name}()\n    ensures {{ Yes }}\n{{\n}}\n" for name in "check start add file list sitting within short".split())


class Contracts(Scratch):
    def setUp(self):
        super().setUp()
        self.write("profile/src/lib.rt", GOOD)

    def write(self, name, text):
        super().write(f"crates/{name}", text)

    def check(self):
        """The lines printed and the exit status."""
        status, said = self.run_script("contracts")
        return said.splitlines(), status

    def assert_refused(self, *lines):
        self.assertEqual(self.check(), ([f"crates/{line}" for line in lines], 1))

    def assert_passed(self, words):
        lines, status = self.check()
        self.assertEqual((len(lines), status), (1, 0), lines)
        self.assertIn(words, lines[0])

    def refuse_source(self, text, *faults, crate="profile"):
        self.write(f"{crate}/src/more.rt", text)
        self.assert_refused(*(f"{crate}/src/more.rt:{fault}" for fault in faults))

    def refuse_specs(self, text, *faults):
        self.write("profile/specs/deep/More.antt", text)
        self.assert_refused(*(f"profile/specs/deep/More.antt:{fault}" for fault in faults))

    def test_passes_what_is_good(self):
        self.write("profile/specs/Gap.antt", GOOD_SPECS)
        self.write("profile/proofs/Laws.antt", "use elsewhere.{length}\nT : Type 0\n")
        self.assert_passed("2 public functions in 1 crates have a contract")

    # ---- contracts

    def test_refuses_a_public_function_with_no_ensures(self):
        self.refuse_source("\npub fn bare(x: u8) -> u8\n    requires { x ≤ 3 }\n{\n    x\n}\n",
                           "2: the public function `bare` has no ensures")

    def test_refuses_an_exported_function_with_no_ensures(self):
        self.refuse_source('#[unsafe(no_mangle)]\npub extern "C" fn bare(x: u8) -> u8 {\n    x\n}\n',
                           "2: the public function `bare` has no ensures")

    def test_refuses_a_method_with_no_ensures(self):
        self.refuse_source("impl Best {\n    fn own(self) {}\n    pub fn bare(self) -> u8 {\n        1\n    }\n}\n",
                           "3: the public function `bare` has no ensures")

    def test_a_comment_is_no_contract(self):
        self.refuse_source("pub // said\nfn bare(x: u8) -> u8\n// ensures { result }\n/* /* */ ensures { result } */\n{\n    x\n}\n",
                           "2: the public function `bare` has no ensures")

    def test_the_next_contract_is_not_this_one(self):
        self.refuse_source("pub fn bare(x: u8) -> u8 {\n    x\n}\nfn next()\n    ensures { Yes }\n{\n}\n",
                           "1: the public function `bare` has no ensures")

    def test_refuses_a_block_with_no_end(self):
        self.refuse_source("\nfn open() {\n    {\n}\n", "2: what begins here has no end")

    def test_refuses_a_repository_with_no_public_function(self):
        self.write("profile/src/lib.rt", "fn own() {}\n")
        self.assertEqual(self.check(), (["no public function was found"], 1))

    # ---- calls

    def test_refuses_a_requires_in_the_host(self):
        self.write("host/src/lib.rt", DOORS)
        self.assert_passed("public functions in 2 crates")
        self.refuse_source("fn own(x: u8)\n    requires { x ≤ 3 }\n{\n}\n",
                           "1: `own` has a requires, and has to take any input", crate="host")

    def test_refuses_a_requires_in_what_c_sees(self):
        self.write("host_c/src/lib.rt", DOORS)
        self.assert_passed("public functions in 2 crates")
        self.refuse_source("fn own(x: u8)\n    requires { x ≤ 3 }\n{\n}\n",
                           "1: `own` has a requires, and has to take any input", crate="host_c")

    def test_refuses_an_export_with_other_clauses(self):
        self.write("host/src/lib.rt", DOORS)
        self.write("host_c/src/lib.rt", DOORS.replace("pub fn", 'pub extern "C" fn'))
        self.assert_passed("public functions in 3 crates")
        self.write("host_c/src/lib.rt", DOORS.replace("Yes", "Other", 2).replace("Other", "Yes", 1))
        self.assert_refused("host_c/src/lib.rt:5: `kw_start` has other clauses than in host")

    def test_refuses_an_export_that_takes_its_words_from_elsewhere(self):
        self.write("host/src/lib.rt", DOORS + "ghost use Rattle.host.specs.Word.{Yes, No};\n")
        self.write("host_c/src/lib.rt", DOORS + "ghost use Rattle.host.specs.Word.{No as Yes};\n")
        self.assert_refused("host_c/src/lib.rt:1: `Yes` is another word than in host")

    def test_refuses_a_requires_on_a_call(self):
        self.refuse_source("pub fn check(x: u8) -> u8\n    requires { x ≤ 3 }\n    ensures { result ≡ x }\n{\n    x\n}\n",
                           "1: `check` has a requires, and has to take any input", crate="checker")

    def test_refuses_a_crate_that_lacks_its_calls(self):
        call = "pub fn {}()\n    ensures {{ Yes }}\n{{\n}}\n"
        self.write("build/src/lib.rt", "impl Tree {\n" + call.format("file") + "}\nfn add() {}\n" + call.format("start"))
        self.assert_refused("build/src/lib.rt:1: the public call `add` is not there",
                            "build/src/lib.rt:1: the public call `file` is not there")

    def test_passes_a_method_spelled_like_a_call(self):
        clauses = "    requires { Yes }\n    ensures { Yes }\n"
        self.write("checker/src/lib.rt", "impl Best {\npub fn check(self)\n" + clauses + "{\n}\n}\n"
                   "pub fn check()\n    ensures { Yes }\n{\n}\nfn own()\n" + clauses + "{\n}\n")
        self.assert_passed("4 public functions in 2 crates")

    # ---- symbols

    def test_refuses_a_symbol_from_another_module_in_a_source(self):
        self.refuse_source("ghost use lib.ListN.{take};\nghost use mathlib.Core.List.{\n    [],\n    length,\n};\n",
                           "4: `length` comes from lib.ListN, and here from mathlib.Core.List")

    def test_refuses_a_symbol_from_another_module_in_a_specification(self):
        self.refuse_specs("use std.Nat.{ℕ}\nunfoldable pub use own.{«map»}\n",
                          "1: `ℕ` comes from Prim.Native.Nat, and here from std.Nat",
                          "2: `map` comes from mathlib.Core.List, and here from own")

    def test_refuses_a_symbol_from_a_group_in_a_group(self):
        self.refuse_specs("use mathlib.{Core.{Path.{refl}, Nat.suc}}\n",
                          "1: `suc` comes from Prim.Native.Nat, and here from mathlib.Core.Nat")

    def test_refuses_what_a_module_of_the_kit_does_not_pass_on(self):
        self.refuse_specs("use Rattle.std.specs.Prelude.{ℕ, suc_ℤ}\nuse Rattle.std.proofs.Math.IntN.{take}\n",
                          "1: `suc_ℤ` comes from lib.IntN, and here from Rattle.std.specs.Prelude",
                          "2: `take` comes from lib.ListN, and here from Rattle.std.proofs.Math.IntN")

    def test_refuses_another_name_as_a_symbol_in_a_source(self):
        self.refuse_source("ghost use Prim.Native.Nat.{◌<◌ as ◌≤◌};\n",
                           "1: `◌≤◌` comes from Prim.Native.Nat, and here it is `◌<◌` of Prim.Native.Nat")

    def test_refuses_another_name_as_a_symbol_in_a_specification(self):
        self.refuse_specs("use own.Lists.{size as length}\nopen Lists l using (size as take)\n",
                          "1: `length` comes from lib.ListN, and here it is `size` of own.Lists",
                          "2: `take` comes from lib.ListN, and here it is `size` of a record")

    def test_refuses_what_is_the_prelude_s(self):
        self.refuse_specs("use Prim.{tt}\n", "1: `tt` comes from the prelude, and here from Prim")

    def test_refuses_another_thing_under_a_library_s_name(self):
        self.refuse_specs("use own.Lists as lib\npub mod mathlib\n",
                          "1: `lib` comes from the kit, and here it is `Lists` of own",
                          "2: `mathlib` comes from the kit, and here from mod")

    def test_refuses_a_definition(self):
        self.refuse_specs("abbrev pub length {ℓ} : {A : Type ℓ} → ℕ\nf = 1\n  where\n    eqb : ℕ\n",
                          "1: `length` comes from lib.ListN, and is declared here",
                          "4: `eqb` comes from lib.Dec, and is declared here")

    def test_refuses_a_definition_over_two_lines(self):
        self.refuse_specs("pub\n  length\n  : ℕ\n", "2: `length` comes from lib.ListN, and is declared here")

    def test_refuses_a_data_type_and_its_constructors(self):
        self.refuse_specs("pub data Bool (A : Type 0) : Type 0 where\n  red true : Bool\n",
                          "1: `Bool` comes from mathlib.Core.Bool, and is declared here",
                          "2: `true` comes from mathlib.Core.Bool, and is declared here")

    def test_refuses_constructors_on_the_line_of_their_type(self):
        self.refuse_specs("data Colour : Type 0 where red yes : Colour\n", "1: `yes` comes from the prelude, and is declared here")

    def test_refuses_a_record_and_its_fields(self):
        self.refuse_specs("record Unit : Type 0 where\n  pub sym : ℕ\n",
                          "1: `Unit` comes from the prelude, and is declared here",
                          "2: `sym` comes from mathlib.Core.Path, and is declared here")

    def test_refuses_a_fixity(self):
        for word in "infix", "infixl", "infixr":
            self.refuse_specs(f"{word} 6 ◌⊕◌ ◌+◌\n", "1: `◌+◌` comes from Prim.Native.Nat, and is given a fixity here")
