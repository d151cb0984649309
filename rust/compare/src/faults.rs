//! Calls with one fault of each number that the call can give, and with two: the one that comes first in the call's order is told.
mod arguments;
mod right;

use crate::{
    call::{Call, Name},
    compared::expected,
    order::order,
    tally::Tallies,
};
use arguments::with_wrong_argument;
use plain::{
    data::Random,
    images::{any_shape, made, planted, Kind, Library},
};
use right::right_call;

/// Every pair of numbers of every call, once. A library that is full takes its time, so that only every tenth round has number 20.
pub fn compare(round: usize, tallies: &mut Tallies, random: &mut Random) -> Result<(), String> {
    for name in Name::ALL {
        let numbers = order(name);
        for (place, later) in numbers.iter().enumerate() {
            for earlier in &numbers[..place] {
                if round.is_multiple_of(10) || ![*earlier, *later].contains(&20) {
                    two_faults(name, [*later, *earlier], tallies, random)?;
                }
            }
        }
    }
    Ok(())
}

/// The later one is planted first, and then alone.
fn two_faults(name: Name, numbers: [usize; 2], tallies: &mut Tallies, random: &mut Random) -> Result<(), String> {
    // a library that is full has one fault from the outset
    let mut faults = if numbers.contains(&20) { vec![20] } else { Vec::new() };
    let strains = if faults.is_empty() { 5 + random.below(8) } else { 1024 };
    let tree = made(Kind { strains, ..Kind::any(random) }, random);
    let tree = any_shape(tree, random);
    let mut call = right_call(name, &tree, random);
    expected(&call, first(name, &faults), tallies, random)?;
    for number in numbers {
        // the tree may have no place for it
        let Some(worse) = with_fault(&call, &tree, number, random) else { return Ok(()) };
        call = worse;
        faults.push(number);
        expected(&call, first(name, &faults), tallies, random)?;
    }
    Ok(())
}

/// The fault that is told; 0 where there is none.
fn first(name: Name, faults: &[usize]) -> usize {
    order(name).into_iter().find(|number| faults.contains(number)).unwrap_or(0)
}

/// The call with a fault of this number, where it has none yet that comes before.
fn with_fault(call: &Call, tree: &Library, number: usize, random: &mut Random) -> Option<Call> {
    if number > 13 || call.name() == Name::Start {
        return Some(with_wrong_argument(call.clone(), tree, number, random));
    }
    if number == 1 && random.below(2) == 0 {
        if let Call::Add { image, room, code, profile, .. } = call.clone() {
            return Some(Call::Add { stated: [room + 1, usize::MAX][random.below(2)], image, room, code, profile });
        }
    }
    // an image that is longer than an add's buffer has a fault of number 1
    let fits = |image: &Vec<u8>| number == 1 || !matches!(call, Call::Add { room, .. } if *room < image.len());
    let image = (0..20).find_map(|_| planted(call.image(), number, random).filter(fits))?;
    Some(call.clone().with_image(image))
}
