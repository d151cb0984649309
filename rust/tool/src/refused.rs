//! A refusal as one line by which its cause can be mended: its number, its name, where, and the figures that show it.
mod as_read;
mod asked;
mod image;
#[cfg(test)]
mod tests;

pub use as_read::as_read;
pub use asked::{add, neighbours, plate, start};
pub use image::image;

use kwalgimo::Reason;

/// The metrics that there are, as sentences have them.
const METRICS: &str = "there are 1 (city block) and 2 (largest difference)";

fn line(reason: Reason, figures: &str) -> String {
    format!("refused: {} {}: {figures}", reason.number(), reason.name())
}
