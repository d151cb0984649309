//! The same in plain C (plain.c, plain_check.c, plain_search.c).
use plain::verdict::Verdict;

/// Image, plates, the neighbours asked for or the radius, codes and distances. A slice passes as pointer and length.
type Search = unsafe extern "C" fn(*const u8, usize, *const i16, usize, u32, *mut u32, usize, *mut u32, usize) -> u64;

mod door {
    extern "C" {
        pub fn plain_plate_row(metric: u8, profiles: *const u8, plate: *const i16, wells: usize, count: usize, limit: u32) -> u32;
        pub fn plain_pair_row(metric: u8, one: *const u8, profiles: *const u8, wells: usize, count: usize, limit: u32) -> u32;
        pub fn plain_check(image: *const u8, image_len: usize) -> u64;
        pub fn plain_nearest(image: *const u8, plates: *const i16, count: usize, k: usize, codes: *mut u32, distances: *mut u32);
        pub fn plain_sitting(
            image: *const u8,
            image_len: usize,
            plates: *const i16,
            plates_len: usize,
            k: u32,
            codes: *mut u32,
            codes_len: usize,
            distances: *mut u32,
            distances_len: usize,
        ) -> u64;
        pub fn plain_within(
            image: *const u8,
            image_len: usize,
            plate: *const i16,
            plate_len: usize,
            radius: u32,
            codes: *mut u32,
            codes_len: usize,
            distances: *mut u32,
            distances_len: usize,
        ) -> u64;
        pub fn plain_short(image: *const u8, image_len: usize, plate: *const u8, plate_len: usize, out: *mut u8, out_len: usize) -> u32;
    }
}

pub fn plate_row(metric: u8, image: &[u8], from: usize, plate: &[i16], count: usize, limit: u32) -> u32 {
    let profiles = &image[from..from + count * 2 * plate.len()];
    // SAFETY: the slices hold all that is read. So they do in each function below.
    unsafe { door::plain_plate_row(metric, profiles.as_ptr(), plate.as_ptr(), plate.len(), count, limit) }
}

pub fn pair_row(metric: u8, image: &[u8], at: usize, from: usize, wells: usize, count: usize, limit: u32) -> u32 {
    let (one, profiles) = (&image[at..at + 2 * wells], &image[from..from + count * 2 * wells]);
    unsafe { door::plain_pair_row(metric, one.as_ptr(), profiles.as_ptr(), wells, count, limit) }
}

pub fn check(image: &[u8]) -> Verdict {
    Verdict(unsafe { door::plain_check(image.as_ptr(), image.len()) })
}

/// The nearest k of each plate, k being 32 at most, in an image that is right.
pub fn nearest(image: &[u8], plates: &[i16], k: usize, codes: &mut [u32], distances: &mut [u32]) {
    let count = plates.len() / image[2] as usize;
    assert!(k <= 32 && codes.len().min(distances.len()) >= count * k);
    unsafe { door::plain_nearest(image.as_ptr(), plates.as_ptr(), count, k, codes.as_mut_ptr(), distances.as_mut_ptr()) }
}

pub fn sitting(image: &[u8], plates: &[i16], k: u32, codes: &mut [u32], distances: &mut [u32]) -> Verdict {
    search(door::plain_sitting, image, plates, k, codes, distances)
}

pub fn within(image: &[u8], plate: &[i16], radius: u32, codes: &mut [u32], distances: &mut [u32]) -> Verdict {
    search(door::plain_within, image, plate, radius, codes, distances)
}

pub fn short(image: &[u8], plate: &[u8], out: &mut [u8]) {
    let refusal = unsafe { door::plain_short(image.as_ptr(), image.len(), plate.as_ptr(), plate.len(), out.as_mut_ptr(), out.len()) };
    assert_eq!(refusal, 0);
}

/// Any bytes, numbers and lengths will do.
fn search(door: Search, image: &[u8], plates: &[i16], number: u32, codes: &mut [u32], distances: &mut [u32]) -> Verdict {
    let (codes, codes_len, distances, distances_len) = (codes.as_mut_ptr(), codes.len(), distances.as_mut_ptr(), distances.len());
    Verdict(unsafe { door(image.as_ptr(), image.len(), plates.as_ptr(), plates.len(), number, codes, codes_len, distances, distances_len) })
}
