//! Who answers a call: the proved library, or plain Rust.
use plain::verdict::Verdict;

/// One function for each call.
pub struct Calls {
    pub check: fn(&[u8]) -> Verdict,
    pub start: fn(u32, u32, u32, &[i16], &mut [u8]) -> Verdict,
    pub add: fn(&mut [u8], usize, u32, &[i16]) -> Verdict,
    pub file: fn(&[u8], &mut [u8]) -> Verdict,
    pub list: fn(&[u8], &mut [u8]) -> Verdict,
    pub sitting: Search,
    pub within: Search,
    pub short: fn(&[u8], &[u8], &mut [u8]) -> Verdict,
}

type Search = fn(&[u8], &[i16], u32, &mut [u32], &mut [u32]) -> Verdict;

pub const PROVED: Calls = Calls {
    check: proved::check,
    start: proved::start,
    add: proved::add,
    file: proved::file,
    list: proved::list,
    sitting: proved::sitting,
    within: proved::within,
    short: proved::short,
};

pub const PLAIN: Calls = Calls {
    check: plain::check,
    start: plain::start,
    add: plain::add,
    file: plain::file,
    list: plain::list,
    sitting: plain::sitting,
    within: plain::within,
    short: plain::short,
};
