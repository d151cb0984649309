//! Document 01 in plain Rust: every strain is measured, and nothing is clever. It shares no code with the proved library, which is held to
//! the same answers. Each rule of the document stands in one place. Beside the rules: made-up libraries and plates to try them on, and
//! memory to lend.
mod build;
mod check;
pub mod data;
pub mod distance;
pub mod images;
pub mod layout;
pub mod lent;
pub mod level;
mod listing;
pub mod near;
pub mod plates;
mod search;
mod short;
pub mod verdict;

pub use build::{add, file, start};
pub use check::check;
pub use listing::{list, listing, LISTING_BYTES};
pub use search::{sitting, within};
pub use short::short;
