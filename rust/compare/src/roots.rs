//! Every level that a root may have, of a lone root and of one with others below it, and the first on each side that it may not.
use crate::{
    any::{any_add, any_filing, any_list, any_short, any_sitting, any_within},
    call::Call,
    compared::{compared, expected},
    tally::Tallies,
};
use plain::{
    data::Random,
    images::{made, Kind, Library},
};

pub fn compare(tallies: &mut Tallies, random: &mut Random) -> Result<(), String> {
    for strains in [1, 2 + random.below(10)] {
        let mut tree = made(Kind { strains, ..Kind::any(random) }, random);
        let (root, lowest) = (tree.root, tree.lowest_root());
        for level in lowest - 1..=21 {
            tree.records[root].level = level;
            // below -1 and above 20 there is no level byte
            let number = if (-1..=20).contains(&level) { 11 * usize::from(level < lowest) } else { 9 };
            expected(&Call::Check { image: tree.bytes() }, number, tallies, random)?;
            if number == 0 {
                other_calls(&tree, tallies, random)?;
            }
        }
    }
    Ok(())
}

fn other_calls(tree: &Library, tallies: &mut Tallies, random: &mut Random) -> Result<(), String> {
    let image = tree.bytes();
    compared(&any_add(tree, image.clone(), random), tallies, random)?;
    compared(&any_filing(image.clone(), random), tallies, random)?;
    compared(&any_list(image.clone(), random), tallies, random)?;
    compared(&any_sitting(tree, image.clone(), random), tallies, random)?;
    compared(&any_short(tree, image.clone(), random), tallies, random)?;
    // what is measured hangs on the root's reach
    for _ in 0..10 {
        compared(&any_within(tree, image.clone(), random), tallies, random)?;
    }
    Ok(())
}
