//! Doors to the library's inside, which are no part of the product. Each function here sees to what its contract requires.

mod door {
    extern "C" {
        pub fn kwb_level(d: u32) -> i32;
        pub fn kwb_lists(metric: u8, a: *const i16, a_len: usize, b: *const i16, b_len: usize) -> u32;
        pub fn kwb_plate_row(
            metric: u8,
            image: *const u8,
            image_len: usize,
            from: usize,
            plate: *const i16,
            plate_len: usize,
            count: usize,
            limit: u32,
        ) -> u32;
        pub fn kwb_pair_row(
            metric: u8,
            image: *const u8,
            image_len: usize,
            at: usize,
            from: usize,
            wells: usize,
            count: usize,
            limit: u32,
        ) -> u32;
    }
}

pub fn level(d: u32) -> i32 {
    assert!(d > 0);
    // SAFETY: what the contract requires was tested, and slices are lent for the call. So it is in each function below.
    unsafe { door::kwb_level(d) }
}

pub fn lists(metric: u8, a: &[i16], b: &[i16]) -> u32 {
    assert!(a.len() <= 16 && b.len() == a.len());
    unsafe { door::kwb_lists(metric, a.as_ptr(), a.len(), b.as_ptr(), b.len()) }
}

pub fn plate_row(metric: u8, image: &[u8], from: usize, plate: &[i16], count: usize, limit: u32) -> u32 {
    assert!(plate.len() <= 16 && from + count * 2 * plate.len() <= image.len());
    unsafe { door::kwb_plate_row(metric, image.as_ptr(), image.len(), from, plate.as_ptr(), plate.len(), count, limit) }
}

pub fn pair_row(metric: u8, image: &[u8], at: usize, from: usize, wells: usize, count: usize, limit: u32) -> u32 {
    assert!(wells <= 16 && at + 2 * wells <= image.len() && from + count * 2 * wells <= image.len());
    unsafe { door::kwb_pair_row(metric, image.as_ptr(), image.len(), at, from, wells, count, limit) }
}
