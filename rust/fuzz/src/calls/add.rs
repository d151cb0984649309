//! The adding of a strain.
use crate::{
    call::{ensure, Answer, Call, Memory},
    draw, image,
};
use kwalgimo::{Library, Strain};
use plain::{data::Random, lent::any_room};

#[derive(Debug, PartialEq)]
pub struct Add {
    buffer: Vec<u8>,
    image_len: usize,
    code: u32,
    profile: Vec<i16>,
}

impl Call for Add {
    const NAME: &'static str = "add";

    fn refused_by(number: u8) -> bool {
        matches!(number, 1..=13 | 16..=20)
    }

    fn any(image: Vec<u8>, random: &mut Random) -> Self {
        let (code, profile) = (draw::code(&image, random), draw::any_profile(&image, random));
        let image_len = match random.below(24) {
            0 => random.below(image.len() + 64),
            1 => usize::MAX - random.below(64),
            _ => image.len(),
        };
        let room = any_room(image.len() + 8 + 2 * image::wells(&image), random);
        let behind = room.saturating_sub(image.len());
        let buffer = [image, draw::bytes(behind, random)].concat();
        Add { buffer, image_len, code, profile }
    }

    /// Where more is stated than there is, the library takes none of it.
    fn image(&self) -> Option<&[u8]> {
        Some(self.buffer.get(..self.image_len).unwrap_or_default())
    }

    fn make(&self, [a, b, ..]: &mut Memory) -> (Answer, Self) {
        let Add { image_len, code, .. } = *self;
        let (buffer, profile) = (a.lend(&self.buffer), b.lend(&self.profile));
        let answer = kwalgimo::add(buffer, image_len, code, profile).map(|length| [length, 0]);
        (answer, Add { buffer: buffer.to_vec(), image_len, code, profile: profile.to_vec() })
    }

    fn holds(&self, [length, _]: [usize; 2], left: &Self) -> Result<(), String> {
        let before = Library::from_bytes(self.buffer[..self.image_len].to_vec()).map_err(|refusal| format!("what it took: {refusal}"))?;
        ensure(left.profile == self.profile, "the profile is changed")?;
        ensure(length == self.image_len + 8 + 2 * before.wells() && length <= self.buffer.len(), "the length is wrong")?;
        ensure(left.buffer[length..] == self.buffer[length..], "the rest of the buffer is changed")?;
        let made = Library::from_bytes(left.buffer[..length].to_vec()).map_err(|refusal| format!("what it made: {refusal}"))?;
        let new = Strain { code: self.code, profile: self.profile.clone() };
        ensure((made.wells(), made.metric()) == (before.wells(), before.metric()), "the wells or the metric are changed")?;
        ensure(made.strains().eq(before.strains().chain([new])), "the strains are not those held and the new one")
    }
}
