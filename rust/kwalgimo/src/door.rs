//! The doors of the proved archive, as `include/kwalgimo.h` declares them. All that is unsafe in this crate stands here.
//!
//! The header asks that a pointer is never null and is aligned, also where the length is 0, and that what is lent to be written overlaps
//! nothing else. A slice's pointer is so, and `&mut` shuts out the overlap. Any bytes, numbers and lengths will do.

mod c {
    extern "C" {
        pub fn kw_check(image: *const u8, image_len: usize) -> u64;
        pub fn kw_start(
            wells: u32,
            metric: u32,
            code: u32,
            profile: *const i16,
            profile_len: usize,
            buffer: *mut u8,
            buffer_len: usize,
        ) -> u64;
        pub fn kw_add(buffer: *mut u8, buffer_len: usize, image_len: usize, code: u32, profile: *const i16, profile_len: usize) -> u64;
        pub fn kw_file(image: *const u8, image_len: usize, buffer: *mut u8, buffer_len: usize) -> u64;
        pub fn kw_list(image: *const u8, image_len: usize, buffer: *mut u8, buffer_len: usize) -> u64;
        pub fn kw_sitting(
            image: *const u8,
            image_len: usize,
            plates: *const i16,
            plates_len: usize,
            neighbours: u32,
            codes: *mut u32,
            codes_len: usize,
            distances: *mut u32,
            distances_len: usize,
        ) -> u64;
        pub fn kw_within(
            image: *const u8,
            image_len: usize,
            plate: *const i16,
            plate_len: usize,
            radius: u32,
            codes: *mut u32,
            codes_len: usize,
            distances: *mut u32,
            distances_len: usize,
        ) -> u64;
        pub fn kw_short(image: *const u8, image_len: usize, plate: *const u8, plate_len: usize, out: *mut u8, out_len: usize) -> u32;
    }
}

pub fn check(image: &[u8]) -> u64 {
    // SAFETY: the slice is lent for the call. So are the slices in each function below.
    unsafe { c::kw_check(image.as_ptr(), image.len()) }
}

pub fn start(wells: u32, metric: u32, code: u32, profile: &[i16], buffer: &mut [u8]) -> u64 {
    unsafe { c::kw_start(wells, metric, code, profile.as_ptr(), profile.len(), buffer.as_mut_ptr(), buffer.len()) }
}

pub fn add(buffer: &mut [u8], image_len: usize, code: u32, profile: &[i16]) -> u64 {
    unsafe { c::kw_add(buffer.as_mut_ptr(), buffer.len(), image_len, code, profile.as_ptr(), profile.len()) }
}

pub fn file(image: &[u8], buffer: &mut [u8]) -> u64 {
    unsafe { c::kw_file(image.as_ptr(), image.len(), buffer.as_mut_ptr(), buffer.len()) }
}

pub fn list(image: &[u8], buffer: &mut [u8]) -> u64 {
    unsafe { c::kw_list(image.as_ptr(), image.len(), buffer.as_mut_ptr(), buffer.len()) }
}

pub fn sitting(image: &[u8], plates: &[i16], neighbours: u32, codes: &mut [u32], distances: &mut [u32]) -> u64 {
    search(c::kw_sitting, image, plates, neighbours, codes, distances)
}

pub fn within(image: &[u8], plate: &[i16], radius: u32, codes: &mut [u32], distances: &mut [u32]) -> u64 {
    search(c::kw_within, image, plate, radius, codes, distances)
}

pub fn short(image: &[u8], plate: &[u8], out: &mut [u8]) -> u32 {
    unsafe { c::kw_short(image.as_ptr(), image.len(), plate.as_ptr(), plate.len(), out.as_mut_ptr(), out.len()) }
}

/// Image, plates, the neighbours asked for or the radius, codes and distances.
type Search = unsafe extern "C" fn(*const u8, usize, *const i16, usize, u32, *mut u32, usize, *mut u32, usize) -> u64;

fn search(door: Search, image: &[u8], plates: &[i16], number: u32, codes: &mut [u32], distances: &mut [u32]) -> u64 {
    let (codes, codes_len, distances, distances_len) = (codes.as_mut_ptr(), codes.len(), distances.as_mut_ptr(), distances.len());
    unsafe { door(image.as_ptr(), image.len(), plates.as_ptr(), plates.len(), number, codes, codes_len, distances, distances_len) }
}
