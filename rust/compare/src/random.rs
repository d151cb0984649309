//! Any calls on any libraries.
use crate::{
    any::{any_add, any_filing, any_list, any_short, any_sitting, any_start, any_within},
    call::Call,
    compared::{compared, expected},
    tally::Tallies,
};
use plain::{
    data::Random,
    images::{any_library, any_shape, damaged, made, Kind, Library},
};

/// Several calls of each kind on one library. Each round of a thousand has a library that is full, or has room for one strain more.
pub fn compare(round: usize, tallies: &mut Tallies, random: &mut Random) -> Result<(), String> {
    let large = round.is_multiple_of(1000);
    let tree = if large { nearly_full(1024 - round / 1000 % 2, random) } else { any_library(random) };
    let image = tree.bytes();
    expected(&Call::Check { image: image.clone() }, 0, tallies, random)?;
    for _ in 0..4 {
        compared(&Call::Check { image: damaged(&image, random) }, tallies, random)?;
        compared(&any_start(random), tallies, random)?;
        compared(&any_sitting(&tree, any_form(&image, random), random), tallies, random)?;
        compared(&any_short(&tree, any_form(&image, random), random), tallies, random)?;
    }
    for _ in 0..8 {
        compared(&any_add(&tree, any_form(&image, random), random), tallies, random)?;
        compared(&any_within(&tree, any_form(&image, random), random), tallies, random)?;
    }
    for _ in 0..3 {
        compared(&any_filing(any_form(&image, random), random), tallies, random)?;
    }
    // a room for a listing takes its time to lend
    if round.is_multiple_of(4) {
        compared(&any_list(any_form(&image, random), random), tallies, random)?;
    }
    one_form(tree, tallies, random)
}

fn nearly_full(strains: usize, random: &mut Random) -> Library {
    let tree = made(Kind { strains, ..Kind::any(random) }, random);
    any_shape(tree, random)
}

/// An image, or one time in five a damaged form of it.
fn any_form(image: &[u8], random: &mut Random) -> Vec<u8> {
    if random.below(5) == 0 {
        damaged(image, random)
    } else {
        image.to_vec()
    }
}

/// Of the same strains in any tree and order the same filing form has to come, byte for byte, and of the form itself.
fn one_form(tree: Library, tallies: &mut Tallies, random: &mut Random) -> Result<(), String> {
    let form = filed(tree.bytes(), tallies, random)?;
    for image in [any_shape(tree, random).bytes(), form.clone()] {
        let call = Call::Check { image: image.clone() };
        if filed(image, tallies, random)? != form {
            return Err(format!("another tree of the same strains has another filing form\nthe call: filing after {call}"));
        }
    }
    Ok(())
}

fn filed(image: Vec<u8>, tallies: &mut Tallies, random: &mut Random) -> Result<Vec<u8>, String> {
    let room = image.len();
    let done = expected(&Call::Filing { image, room }, 0, tallies, random)?;
    Ok(done.memory.front(room).to_vec())
}
