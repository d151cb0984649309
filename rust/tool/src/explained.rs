//! The table of refusals, for whoever has to mend what was refused.
use kwalgimo::Reason;

/// Which record or records a refusal tells.
pub fn place(reason: Reason) -> &'static str {
    match reason {
        Reason::Node | Reason::Level | Reason::Cover => "the first such record",
        Reason::EqualCodes | Reason::Separation => {
            "both records: the smallest later one, and the smallest earlier one that it clashes with"
        }
        Reason::NewCode => "where the code is taken, the record that has it",
        Reason::Held => "the record that holds it",
        Reason::Size | Reason::Edition | Reason::Wells | Reason::Metric | Reason::Count | Reason::Offsets | Reason::Length => "none",
        Reason::RootNumber | Reason::Plate | Reason::Neighbours | Reason::Room | Reason::NewProfile | Reason::Full => "none",
    }
}

const READS: &str = "every command that reads an image";

/// The commands that refuse by it.
pub fn commands(reason: Reason) -> &'static str {
    match reason {
        Reason::Wells | Reason::Metric => "every command that reads an image, and start",
        Reason::Plate => "match and within",
        Reason::Neighbours => "match",
        Reason::Room => "none: the tool lends enough",
        Reason::NewProfile | Reason::NewCode => "start and add",
        Reason::Held | Reason::Full => "add, and start with a file of strains",
        Reason::Size | Reason::Edition | Reason::Count | Reason::Offsets | Reason::Length | Reason::RootNumber => READS,
        Reason::Node | Reason::EqualCodes | Reason::Level | Reason::Cover | Reason::Separation => READS,
    }
}

/// What has to hold.
pub fn rule(reason: Reason) -> &'static str {
    match reason {
        Reason::Size => "An image has at least 16 bytes, its header, and at most 40,976: 1,024 strains of 16 wells.",
        Reason::Edition => "Bytes 0 and 1, the lower first, hold 1.",
        Reason::Wells => "A profile has 1 to 16 wells. In an image byte 2 tells how many.",
        Reason::Metric => "The metric is 1, the sum of the wells' differences, or 2, the largest of them. In an image byte 3 tells which.",
        Reason::Count => "A library has 1 to 1,024 strains. Bytes 4 and 5, the lower first, tell how many.",
        Reason::Offsets => {
            "With n strains, bytes 8 to 11 hold 16 + 8n, where the profiles begin, and bytes 12 to 15 hold 16, where the nodes begin; \
             the lowest byte first."
        }
        Reason::Length => {
            "An image of n strains with w wells has 16 + 8n + 2wn bytes: the header, the nodes, and then the profiles, record after \
             record, two bytes for each well, the lower first, in two's complement. Nothing stands behind them."
        }
        Reason::RootNumber => {
            "Bytes 6 and 7, the lower first, hold the root's record. Records are counted from 0, so it is less than the number of strains."
        }
        Reason::Node => {
            "The node of record i stands at byte 16 + 8i: the code in four bytes, not 0; the parent's record in two, less than the number \
             of strains; the level plus 1 in one, from 0 to 21; and one byte 0. The lowest byte comes first."
        }
        Reason::EqualCodes => "No two records have the same code.",
        Reason::Level => {
            "The root's parent is the root itself. The level of every other record is below its parent's, so every way upwards ends at \
             the root."
        }
        Reason::Cover => {
            "A strain lies at most 2^(level + 1) from its parent, by its own level: 1 at level -1, 2 at level 0, 4 at level 1, 8 at \
             level 2. A strain that lies d from its parent fits at the level e with 2^e < d <= 2^(e + 1). Rounding the logarithm of d \
             down gives a level that is too low. Searches pass over a branch by this rule: of one that hangs too far away they can \
             lose strains."
        }
        Reason::Separation => {
            "Any two strains, siblings or not, lie further apart than 2^m, where m is the lower of their two levels: further than 1/2 \
             at level -1, than 1 at level 0, than 2 at level 1. So no two strains have the same profile."
        }
        Reason::Plate => {
            "A plate has as many values as the library has wells. A sitting takes 1 to 64 plates; the tool makes as many sittings as a \
             file needs."
        }
        Reason::Neighbours => "1 to 32 neighbours can be asked for.",
        Reason::Room => "A host program lends memory for the answer; the header kwalgimo.h tells how much each call needs.",
        Reason::NewProfile => "A new strain has as many values as the library has wells.",
        Reason::NewCode => "A new strain's code is not 0, and no strain of the library has it.",
        Reason::Held => "No two strains have the same profile.",
        Reason::Full => "A library holds at most 1,024 strains.",
    }
}
