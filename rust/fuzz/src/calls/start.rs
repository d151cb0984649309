//! The start of a library with one strain.
use crate::{
    call::{ensure, Answer, Call, Memory},
    draw,
};
use kwalgimo::{Library, Strain};
use plain::{data::Random, lent::any_room};

/// Where the first record has its level, plus 1.
const LEVEL_BYTE: usize = 22;

#[derive(Debug, PartialEq)]
pub struct Start {
    wells: u32,
    metric: u32,
    code: u32,
    profile: Vec<i16>,
    buffer: Vec<u8>,
}

impl Call for Start {
    const NAME: &'static str = "start";

    fn refused_by(number: u8) -> bool {
        matches!(number, 3 | 4 | 16..=18)
    }

    /// The image gives the profile alone.
    fn any(image: Vec<u8>, random: &mut Random) -> Self {
        let profile = draw::any_profile(&image, random);
        let wells = [profile.len() as u32, random.below(20) as u32, random.number()][random.below(16).saturating_sub(13)];
        let metric = [1 + random.below(2) as u32, random.below(4) as u32, random.number()][random.below(16).saturating_sub(13)];
        let room = any_room(24 + 2 * profile.len(), random);
        Start { wells, metric, code: draw::code(&image, random), profile, buffer: draw::bytes(room, random) }
    }

    fn image(&self) -> Option<&[u8]> {
        None
    }

    fn make(&self, [a, b, ..]: &mut Memory) -> (Answer, Self) {
        let Start { wells, metric, code, .. } = *self;
        let (profile, buffer) = (a.lend(&self.profile), b.lend(&self.buffer));
        let answer = kwalgimo::start(wells, metric, code, profile, buffer).map(|length| [length, 0]);
        (answer, Start { wells, metric, code, profile: profile.to_vec(), buffer: buffer.to_vec() })
    }

    fn holds(&self, [length, _]: [usize; 2], left: &Self) -> Result<(), String> {
        ensure(left.profile == self.profile, "the profile is changed")?;
        ensure(length == 24 + 2 * self.profile.len() && length <= self.buffer.len(), "the length is wrong")?;
        ensure(left.buffer[length..] == self.buffer[length..], "the rest of the buffer is changed")?;
        let made = Library::from_bytes(left.buffer[..length].to_vec()).map_err(|refusal| format!("what it made: {refusal}"))?;
        ensure((made.wells(), made.metric() as u32) == (self.wells as usize, self.metric), "it made a library of other wells or metric")?;
        ensure(made.strains().eq([Strain { code: self.code, profile: self.profile.clone() }]), "it made a library of another strain")?;
        ensure(left.buffer[LEVEL_BYTE] == 1, "the root is not at level 0")
    }
}
