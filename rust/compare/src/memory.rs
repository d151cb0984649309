//! The memory that is lent to a call, each slice of it amid random numbers that must stay.
use crate::{
    call::{Call, Rooms},
    calls::Calls,
};
use plain::{data::Random, lent::Lent, verdict::Verdict};

/// A call leaves empty what it is not given.
#[derive(Clone, PartialEq)]
pub struct Memory {
    image: Lent<u8>,
    /// A profile or plates.
    values: Lent<i16>,
    /// A plate as bytes.
    plate: Lent<u8>,
    /// The buffer of an image, or what a list or the short call writes to.
    buffer: Lent<u8>,
    codes: Lent<u32>,
    distances: Lent<u32>,
}

/// How many places at the front of the slices a call has written.
pub struct Written {
    bytes: usize,
    places: usize,
}

impl Memory {
    pub fn lent_to(call: &Call, random: &mut Random) -> Self {
        let (values, plate, room, rooms): (&[i16], &[u8], _, _) = match call {
            Call::Check { .. } => (&[], &[], 0, Rooms::of(0)),
            Call::Start { profile, room, .. } | Call::Add { profile, room, .. } => (profile, &[], *room, Rooms::of(0)),
            Call::Filing { room, .. } | Call::List { room, .. } => (&[], &[], *room, Rooms::of(0)),
            Call::Sitting { plates: values, rooms, .. } | Call::Within { plate: values, rooms, .. } => (values, &[], 0, *rooms),
            Call::Short { plate, room, .. } => (&[], plate, *room, Rooms::of(0)),
        };
        let mut bytes = |room, held: &[u8]| Lent::new(room, Random::byte, random).holding(held);
        // an add is given its image in the buffer
        let in_buffer = matches!(call, Call::Add { .. });
        let (image, front): (&[u8], &[u8]) = if in_buffer { (&[], call.image()) } else { (call.image(), &[]) };
        Memory {
            image: bytes(image.len(), image),
            plate: bytes(plate.len(), plate),
            buffer: bytes(room, front),
            values: Lent::new(values.len(), Random::well, random).holding(values),
            codes: Lent::new(rooms.codes, Random::number, random),
            distances: Lent::new(rooms.distances, Random::number, random),
        }
    }

    /// Makes the call.
    pub fn made(&mut self, call: &Call, by: &Calls) -> Verdict {
        let Memory { image, values, plate, buffer, codes, distances } = self;
        match call {
            Call::Check { .. } => (by.check)(image.slice()),
            Call::Start { wells, metric, code, .. } => (by.start)(*wells, *metric, *code, values.slice(), buffer.slice()),
            Call::Add { stated, code, .. } => (by.add)(buffer.slice(), *stated, *code, values.slice()),
            Call::Filing { .. } => (by.file)(image.slice(), buffer.slice()),
            Call::List { .. } => (by.list)(image.slice(), buffer.slice()),
            Call::Sitting { k, .. } => (by.sitting)(image.slice(), values.slice(), *k, codes.slice(), distances.slice()),
            Call::Within { radius, .. } => (by.within)(image.slice(), values.slice(), *radius, codes.slice(), distances.slice()),
            Call::Short { .. } => (by.short)(image.slice(), plate.slice(), buffer.slice()),
        }
    }

    /// The front of the buffer.
    pub fn front(&self, length: usize) -> &[u8] {
        self.buffer.front(length)
    }

    /// Whether the two are alike but for what was written.
    pub fn alike_but(&self, written: &Written, other: &Self) -> bool {
        self.image == other.image
            && self.values == other.values
            && self.plate == other.plate
            && self.buffer.alike_behind(written.bytes, &other.buffer)
            && self.codes.alike_behind(written.places, &other.codes)
            && self.distances.alike_behind(written.places, &other.distances)
    }

    /// The slices in which the two differ.
    pub fn unlike(&self, other: &Self) -> String {
        let alike = [
            ("image", self.image == other.image),
            ("values", self.values == other.values),
            ("plate", self.plate == other.plate),
            ("buffer", self.buffer == other.buffer),
            ("codes", self.codes == other.codes),
            ("distances", self.distances == other.distances),
        ];
        alike.iter().filter(|(_, alike)| !alike).map(|(name, _)| *name).collect::<Vec<_>>().join(" and ")
    }
}

impl Written {
    /// What a call may write, by its answer.
    pub fn by(call: &Call, answer: Verdict) -> Self {
        let (bytes, places) = match call {
            _ if answer.refused() => (0, 0),
            Call::Check { .. } => (0, 0),
            Call::Start { .. } | Call::Add { .. } | Call::Filing { .. } | Call::List { .. } => (answer.length(), 0),
            // the image is accepted, so that its third byte tells the wells
            Call::Sitting { image, plates, k, .. } => (0, plates.len() / image[2] as usize * *k as usize),
            Call::Within { .. } => (0, answer.strains()),
            Call::Short { .. } => (40, 0),
        };
        Written { bytes, places }
    }
}
