//! One call with all that it is given, so that it can be made by the library and by plain Rust, and shown where they differ.
use std::fmt;

#[derive(Clone, Copy, Debug, PartialEq)]
pub enum Name {
    Check,
    Start,
    Add,
    Filing,
    List,
    Sitting,
    Within,
    Short,
}

impl Name {
    pub const ALL: [Name; 8] = [Name::Check, Name::Start, Name::Add, Name::Filing, Name::List, Name::Sitting, Name::Within, Name::Short];
}

/// Slices that are only read are given whole. Of those that are written to, the room: what stands in them is random.
#[derive(Clone)]
pub enum Call {
    Check {
        image: Vec<u8>,
    },
    Start {
        wells: u32,
        metric: u32,
        code: u32,
        profile: Vec<i16>,
        room: usize,
    },
    /// The image stands at the front of the buffer, as far as there is room.
    Add {
        image: Vec<u8>,
        stated: usize,
        code: u32,
        profile: Vec<i16>,
        room: usize,
    },
    Filing {
        image: Vec<u8>,
        room: usize,
    },
    List {
        image: Vec<u8>,
        room: usize,
    },
    Sitting {
        image: Vec<u8>,
        plates: Vec<i16>,
        k: u32,
        rooms: Rooms,
    },
    Within {
        image: Vec<u8>,
        plate: Vec<i16>,
        radius: u32,
        rooms: Rooms,
    },
    Short {
        image: Vec<u8>,
        plate: Vec<u8>,
        room: usize,
    },
}

/// The places of the two slices that a search writes to.
#[derive(Clone, Copy)]
pub struct Rooms {
    pub codes: usize,
    pub distances: usize,
}

impl Rooms {
    pub fn of(places: usize) -> Self {
        Rooms { codes: places, distances: places }
    }
}

impl Call {
    pub fn name(&self) -> Name {
        match self {
            Call::Check { .. } => Name::Check,
            Call::Start { .. } => Name::Start,
            Call::Add { .. } => Name::Add,
            Call::Filing { .. } => Name::Filing,
            Call::List { .. } => Name::List,
            Call::Sitting { .. } => Name::Sitting,
            Call::Within { .. } => Name::Within,
            Call::Short { .. } => Name::Short,
        }
    }

    /// All calls but a start are given one.
    pub fn image(&self) -> &[u8] {
        match self {
            Call::Start { .. } => &[],
            Call::Check { image }
            | Call::Add { image, .. }
            | Call::Filing { image, .. }
            | Call::List { image, .. }
            | Call::Sitting { image, .. }
            | Call::Within { image, .. }
            | Call::Short { image, .. } => image,
        }
    }

    pub fn with_image(mut self, new: Vec<u8>) -> Self {
        match &mut self {
            Call::Start { .. } => {}
            Call::Add { image, stated, .. } => {
                *stated = new.len();
                *image = new;
            }
            Call::Check { image }
            | Call::Filing { image, .. }
            | Call::List { image, .. }
            | Call::Sitting { image, .. }
            | Call::Within { image, .. }
            | Call::Short { image, .. } => *image = new,
        }
        self
    }
}

impl fmt::Display for Name {
    fn fmt(&self, f: &mut fmt::Formatter) -> fmt::Result {
        f.write_str(&format!("{self:?}").to_lowercase())
    }
}

/// All that is needed to make the call again.
impl fmt::Display for Call {
    fn fmt(&self, f: &mut fmt::Formatter) -> fmt::Result {
        write!(f, "{}", self.name())?;
        match self {
            Call::Check { .. } => Ok(()),
            Call::Start { wells, metric, code, profile, room } => {
                write!(f, " with {wells} wells, metric {metric}, code {code}, profile {profile:?}, {room} bytes of room")
            }
            Call::Add { stated, code, profile, room, .. } => {
                write!(f, " of code {code}, profile {profile:?}, to {stated} bytes in a buffer of {room}")
            }
            Call::Filing { room, .. } | Call::List { room, .. } => write!(f, " with {room} bytes of room"),
            Call::Sitting { plates, k, rooms, .. } => write!(f, " of plates {plates:?}, {k} neighbours, {rooms}"),
            Call::Within { plate, radius, rooms, .. } => write!(f, " {radius} of plate {plate:?}, {rooms}"),
            Call::Short { plate, room, .. } => write!(f, " of plate {}, {room} bytes of room", hex(plate)),
        }?;
        write!(f, ", image of {} bytes {}", self.image().len(), hex(self.image()))
    }
}

impl fmt::Display for Rooms {
    fn fmt(&self, f: &mut fmt::Formatter) -> fmt::Result {
        write!(f, "{} places for codes and {} for distances", self.codes, self.distances)
    }
}

pub fn hex(bytes: &[u8]) -> String {
    bytes.iter().map(|byte| format!("{byte:02x}")).collect()
}
