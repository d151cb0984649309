//! One call made by the library and by plain Rust.
use crate::{
    call::{Call, Name},
    calls::{PLAIN, PROVED},
    memory::{Memory, Written},
    tally::Tallies,
};
use plain::{data::Random, verdict::Verdict};

/// What the library did.
pub struct Done {
    pub answer: Verdict,
    pub memory: Memory,
}

/// Makes a call twice, each time with its own copy of what is lent. The two must answer alike and leave all memory alike, also that around
/// the slices. Whatever plain Rust does, a refusal changes nothing, nothing is written but what the call may write, and an image that is
/// made is accepted.
pub fn compared(call: &Call, tallies: &mut Tallies, random: &mut Random) -> Result<Done, String> {
    let before = Memory::lent_to(call, random);
    let (mut ours, mut theirs) = (before.clone(), before.clone());
    let answer = ours.made(call, &PROVED);
    let plain = theirs.made(call, &PLAIN);
    let wrong = |what: String| format!("{what}\nthe call: {call}");
    if answer != plain {
        return Err(wrong(format!("the library answers {answer:?}, plain Rust {plain:?}")));
    }
    if ours != theirs {
        return Err(wrong(format!("both answer {answer}, and leave unlike memory: {}", ours.unlike(&theirs))));
    }
    if !ours.alike_but(&Written::by(call, answer), &before) {
        return Err(wrong(format!("{answer}, yet something is changed that should stay: {}", ours.unlike(&before))));
    }
    if makes_image(call) && !answer.refused() {
        let checked = proved::check(ours.front(answer.length()));
        if checked != Verdict::ACCEPTED {
            return Err(wrong(format!("{answer}, yet the image made is {checked}")));
        }
    }
    tallies.count(call.name(), answer).map_err(wrong)?;
    Ok(Done { answer, memory: ours })
}

/// The same, where the refusal number is known beforehand; 0 is accepted.
pub fn expected(call: &Call, number: usize, tallies: &mut Tallies, random: &mut Random) -> Result<Done, String> {
    let done = compared(call, tallies, random)?;
    if done.answer.number() == number {
        Ok(done)
    } else {
        Err(format!("both answer {}, where {number} is right (0 is accepted)\nthe call: {call}", done.answer))
    }
}

fn makes_image(call: &Call) -> bool {
    matches!(call.name(), Name::Start | Name::Add | Name::Filing)
}
