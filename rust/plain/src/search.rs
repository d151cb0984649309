//! The searches: every strain is measured and all are sorted. The tree serves only to say what a walk would have measured.
use crate::{check::checked, distance, layout::Image, level, verdict::Verdict};
use std::iter::successors;

pub fn sitting(image: &[u8], plates: &[i16], k: u32, codes: &mut [u32], distances: &mut [u32]) -> Verdict {
    served(image, plates, k as usize, codes, distances).map_or_else(|refusal| refusal, |filled| Verdict::told(filled, 0))
}

pub fn within(image: &[u8], plate: &[i16], radius: u32, codes: &mut [u32], distances: &mut [u32]) -> Verdict {
    gathered(image, plate, radius, codes, distances).map_or_else(|refusal| refusal, |(strains, measured)| Verdict::told(strains, measured))
}

/// How many of each plate's places hold a strain.
fn served(image: &[u8], plates: &[i16], k: usize, codes: &mut [u32], distances: &mut [u32]) -> Result<usize, Verdict> {
    let image = checked(image)?;
    let count = plates.len() / image.wells;
    Verdict::refuse(14, !plates.len().is_multiple_of(image.wells) || !(1..=64).contains(&count))?;
    Verdict::refuse(15, !(1..=32).contains(&k))?;
    Verdict::refuse(16, codes.len().min(distances.len()) < count * k)?;
    for (j, plate) in plates.chunks_exact(image.wells).enumerate() {
        put(&image.nearest(plate, k), &mut codes[j * k..], &mut distances[j * k..]);
    }
    Ok(k.min(image.n()))
}

/// How many strains lie within the radius, and how many profiles are measured.
fn gathered(image: &[u8], plate: &[i16], radius: u32, codes: &mut [u32], distances: &mut [u32]) -> Result<(usize, usize), Verdict> {
    let image = checked(image)?;
    Verdict::refuse(14, plate.len() != image.wells)?;
    Verdict::refuse(16, codes.len().min(distances.len()) < image.n())?;
    let all = image.measure(plate);
    let mut near = image.ranked(&all);
    near.retain(|(distance, _)| *distance <= radius);
    put(&near, codes, distances);
    Ok((near.len(), image.measured(&all, radius)))
}

/// Writes distances and codes to the front of both slices.
fn put(found: &[(u32, u32)], codes: &mut [u32], distances: &mut [u32]) {
    for (place, (distance, code)) in found.iter().enumerate() {
        codes[place] = *code;
        distances[place] = *distance;
    }
}

impl Image<'_> {
    /// The nearest k strains of a plate, each by distance and code. Places that no strain takes hold 0 and 0.
    pub fn nearest(&self, plate: &[i16], k: usize) -> Vec<(u32, u32)> {
        let mut nearest = self.ranked(&self.measure(plate));
        nearest.resize(k, (0, 0));
        nearest
    }

    /// Every strain's distance, in file order.
    fn measure(&self, plate: &[i16]) -> Vec<u32> {
        self.records().map(|(_, profile)| distance::plate(self.metric, profile, plate)).collect()
    }

    /// Every strain's distance and code, in ascending order.
    fn ranked(&self, all: &[u32]) -> Vec<(u32, u32)> {
        let mut ranked: Vec<_> = self.records().zip(all).map(|((v, _), distance)| (*distance, v.code)).collect();
        ranked.sort_unstable();
        ranked
    }

    /// How many profiles are measured: a record is, when the way up from it meets none further than the radius and that one's reach.
    fn measured(&self, all: &[u32], radius: u32) -> usize {
        let up = |record: &usize| (*record != self.root).then(|| self.node(*record).parent);
        // the radius and a reach may have more than 32 bits
        let opens = |record: usize| all[record] as u64 <= radius as u64 + level::reach(self.node(record).level) as u64;
        (0..self.n()).filter(|record| successors(Some(*record), up).skip(1).all(opens)).count()
    }
}
