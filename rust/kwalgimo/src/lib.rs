//! The proved matching library of a water-room reader, for programs in Rust.
//!
//! A library holds up to 1,024 strains, each a code and a profile of 1 to 16 wells, in one image. [`Library`] owns its image and is what a
//! tool works with. The functions are the same calls on memory that is lent to them, as `include/kwalgimo.h` has them for C.
#![deny(unsafe_code)]

mod answer;
#[allow(unsafe_code)]
mod door;
mod fields;
mod lent;
mod library;
mod refusal;
mod search;

pub use fields::{Header, Record, EDITIONS, MOST_BYTES};
pub use lent::{add, check, file, list, short, sitting, start, within, Inside, LISTING_BYTES};
pub use library::{Library, Metric, Strain};
pub use refusal::{Place, Reason, Refusal};
pub use search::{Match, Near, Sitting, MOST_DISTANCE, MOST_NEIGHBOURS, MOST_PLATES};
