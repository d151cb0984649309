//! Searches in plain Rust as one would write them for speed: a scan of all strains with no tree, the best k kept as it goes.
use plain::{
    check,
    distance::{plate, Wells},
    layout::Image,
    verdict::Verdict,
};

/// A strain found, as one number: by distance, then code.
type Key = u64;

/// The check, then the scan.
pub fn sitting(image: &[u8], plates: &[i16], k: usize, codes: &mut [u32], distances: &mut [u32]) {
    assert_eq!(check(image), Verdict::ACCEPTED);
    nearest(image, plates, k, codes, distances);
}

/// The short call: five neighbours, in bytes.
pub fn short(image: &[u8], plate: &[u8], out: &mut [u8]) {
    let (mut codes, mut distances) = ([0; 5], [0; 5]);
    let plate: Vec<i16> = plate.as_chunks().0.iter().map(|well| i16::from_le_bytes(*well)).collect();
    sitting(image, &plate, 5, &mut codes, &mut distances);
    for (place, number) in out.as_chunks_mut().0.iter_mut().zip(codes.into_iter().zip(distances).flat_map(<[u32; 2]>::from)) {
        *place = number.to_le_bytes();
    }
}

/// The nearest k of each plate, k being 32 at most, in an image that is right. Places that no strain takes become 0.
pub fn nearest(image: &[u8], plates: &[i16], k: usize, codes: &mut [u32], distances: &mut [u32]) {
    let image = Image::read(image).expect("the image is right");
    for (j, wells) in plates.chunks_exact(image.wells).enumerate() {
        // two copies of the loop, each with its metric built in
        let best = if image.metric == 1 { best(&image, k, |p| plate(1, p, wells)) } else { best(&image, k, |p| plate(2, p, wells)) };
        for (place, key) in best[..k].iter().enumerate() {
            // a place that no strain took
            let key = if *key == Key::MAX { 0 } else { *key };
            (codes[j * k + place], distances[j * k + place]) = (key as u32, (key >> 32) as u32);
        }
    }
}

/// The first k are the best, in ascending order.
fn best(image: &Image, k: usize, distance: impl Fn(&Wells) -> u32) -> [Key; 32] {
    let (mut best, mut kept) = ([Key::MAX; 32], 0);
    for (v, p) in image.records() {
        let new = (distance(p) as Key) << 32 | v.code as Key;
        if new < best[k - 1] {
            kept = k.min(kept + 1);
            insert(&mut best[..kept], new);
        }
    }
    best
}

/// Puts a number before those that are larger, and the last place is lost.
fn insert(best: &mut [Key], new: Key) {
    let mut place = best.len() - 1;
    while place > 0 && best[place - 1] > new {
        best[place] = best[place - 1];
        place -= 1;
    }
    best[place] = new;
}
