"""tools/assumptions: what a crate may assume."""
from fixture import Scratch

TABLE = "| crates | assumptions |\n|---|---|\n| `profile`, `tree`, `host_c` | none |\n| `listing` | `libc::read`, `os::c::rattle_errno` |\n\nAnd so on.\n"
PROVED = "logic=proved functions=4 sum=06 native=nat\n"
CI = f"rt: profile is kept: an earlier run on this machine proved the same files\n== tree\nfn tree::up: proved\n{PROVED}rt: tree proved\n"
LINKED = "axioms libc: none reached of the 2 declared\n  libc::read\n  libc::write\nlogic=proved functions=1 target=x sum=06\n"
PROGRAM = ("axioms libc: 1 reached of the 2 declared\n  libc::read   reached\n  libc::write\n"
           "axioms os: 1 reached of the 1 declared\n  os::c::rattle_errno   reached\nlogic=proved functions=1 axioms=2 target=x sum=06\n")


class Assumptions(Scratch):
    def setUp(self):
        super().setUp()
        self.write("crates.txt", "# Each crate.\nprofile:\ntree: profile\nhost_c staticlib: profile\nlisting: profile\n")
        self.write("crates/listing/src/main.rt", "fn main() {}\n")
        self.write("docs/STATEMENT.md", TABLE)
        self.write("target/log/ci.say", CI)
        self.write("target/log/host_c.say", LINKED)
        self.write("target/log/listing.say", PROGRAM)

    def refused(self, said):
        status, out = self.run_script("assumptions")
        self.assertEqual(status, 1)
        self.assertIn(said, out)

    def test_as_stated(self):
        self.assertEqual(self.run_script("assumptions"), (0, "4 crates assume what the statement says: 2 assumptions in all\n"))

    def test_one_more(self):
        self.write("target/log/host_c.say", PROGRAM)
        self.refused("host_c: assumes libc::read, os::c::rattle_errno, and the table says none\n")

    def test_one_fewer(self):
        self.write("target/log/listing.say", LINKED)
        self.refused("listing: assumes nothing, and the table says libc::read, os::c::rattle_errno\n")

    def test_a_count_without_names(self):
        self.write("target/log/host_c.say", "axioms libc: libc::exit (1 of the 50 declared)\nlogic=proved functions=1 axioms=1 sum=06\n")
        self.refused("host_c: no proof that tells what it assumes\n")

    def test_a_library_with_c_functions(self):
        self.write("target/log/ci.say", CI.replace("functions=4", "functions=4 foreign=tree::c::up"))
        self.refused("tree: no proof that tells what it assumes\n")

    def test_not_proved(self):
        self.write("target/log/listing.say", "logic=refused\n")
        self.refused("listing: no proof that tells what it assumes\n")

    def test_a_library_not_proved(self):
        self.write("target/log/ci.say", CI.replace("tree proved", "tree NOT PROVED"))
        self.refused("tree: no proof that tells what it assumes\n")

    def test_no_log(self):
        (self.root / "target/log/listing.say").unlink()
        self.refused("listing: no proof that tells what it assumes\n")
        (self.root / "target/log/ci.say").unlink()
        self.refused("profile: no proof that tells what it assumes\n")

    def test_crate_not_in_the_table(self):
        self.write("crates.txt", "profile:\ntree:\nhost_c staticlib:\nlisting:\nwalk:\n")
        self.refused("walk: not in the table of assumptions\n")

    def test_table_names_no_crate(self):
        self.write("crates.txt", "profile:\nlisting:\n")
        self.refused("tree: in the table of assumptions, and no crate\n")

    def test_no_table(self):
        self.write("docs/STATEMENT.md", "Nothing.\n")
        self.refused("profile: not in the table of assumptions\n")
