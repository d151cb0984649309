//! The short call for a host program in C.
use crate::{check::checked, layout::values_of, verdict::Verdict};

/// The neighbours that it asks for, and the bytes that it writes for each.
const NEIGHBOURS: usize = 5;
const ROOM: usize = 8 * NEIGHBOURS;

/// Answers with 0 or the refusal number; no place is told.
pub fn short(image: &[u8], plate: &[u8], out: &mut [u8]) -> Verdict {
    match written(image, plate, out) {
        Ok(()) => Verdict::ACCEPTED,
        Err(refusal) => Verdict::nowhere(refusal.number() as u64),
    }
}

fn written(image: &[u8], plate: &[u8], out: &mut [u8]) -> Result<(), Verdict> {
    let image = checked(image)?;
    Verdict::refuse(14, plate.len() != 2 * image.wells)?;
    Verdict::refuse(16, out.len() < ROOM)?;
    let nearest = image.nearest(&values_of(plate.as_chunks().0), NEIGHBOURS);
    for (place, (distance, code)) in out.chunks_exact_mut(8).zip(nearest) {
        place[..4].copy_from_slice(&code.to_le_bytes());
        place[4..].copy_from_slice(&distance.to_le_bytes());
    }
    Ok(())
}

#[cfg(test)]
mod tests {
    use super::short;
    use crate::{images::example, verdict::Verdict};

    #[test]
    fn five_places_of_code_and_distance_and_the_rest_stays() {
        let mut out = [9; 42];
        assert_eq!(short(&example().bytes(), &[7, 0], &mut out), Verdict::ACCEPTED);
        let numbers: Vec<_> = out[..40].as_chunks().0.iter().map(|bytes| u32::from_le_bytes(*bytes)).collect();
        assert_eq!(numbers, [103, 3, 102, 4, 104, 4, 101, 7, 0, 0]);
        assert_eq!(out[40..], [9, 9]);
    }

    #[test]
    fn a_refusal_tells_no_place() {
        let mut damaged = example();
        damaged.records[1].level = 0;
        assert_eq!(short(&damaged.bytes(), &[7, 0], &mut [0; 40]), Verdict::nowhere(12));
    }
}
