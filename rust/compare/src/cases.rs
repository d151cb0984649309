//! The listing of document 01's example and C1 to C12, each by name, as the document says them and by nothing else. Plain Rust is held to them too.
use crate::calls::{Calls, PLAIN, PROVED};
use plain::{images::example, level, verdict::Verdict, LISTING_BYTES};

type Case = (&'static str, fn(&Calls) -> Result<(), String>);

const CASES: [Case; 11] = [
    ("the listing", listed),
    ("C1", |by| nearest(by, 3, &[103, 102, 104], &[3, 4, 4])),
    ("C2", |by| nearest(by, 2, &[103, 102], &[3, 4])),
    ("C3", |by| nearest(by, 5, &[103, 102, 104, 101, 0], &[3, 4, 4, 7, 0])),
    ("C4", |by| within(by, 7, 4, &[103, 102, 104], 4)),
    ("C5", |by| within(by, -31, 0, &[], 3)),
    ("C6", |by| within(by, -40, 0, &[], 1)),
    ("C7", can_take),
    ("C8", held),
    ("C11", backwards),
    ("C12", uncovered),
];

/// The levels of C9 and C10.
const LEVELS: [(&str, u32, i32); 6] = [("C9", 1, -1), ("C9", 2, 0), ("C9", 3, 1), ("C9", 4, 1), ("C9", 5, 2), ("C10", 1_048_560, 19)];

pub fn compare() -> Result<(), String> {
    for (who, by) in [("the library", PROVED), ("plain Rust", PLAIN)] {
        for (name, case) in CASES {
            case(&by).map_err(|what| format!("{name}, by {who}: {what}"))?;
        }
    }
    for (who, fitting) in [("the library", proved::level as fn(u32) -> i32), ("plain Rust", level::fitting)] {
        for (name, d, right) in LEVELS {
            is(fitting(d), right).map_err(|what| format!("{name}, by {who}: of {d} {what}"))?;
        }
    }
    Ok(())
}

fn is<T: PartialEq + std::fmt::Debug>(told: T, right: T) -> Result<(), String> {
    if told == right {
        Ok(())
    } else {
        Err(format!("{told:?}, where {right:?} is right"))
    }
}

fn listed(by: &Calls) -> Result<(), String> {
    let lines = "wells 1 metric 1 count 4 root 101\n101 101 4 0\n102 101 1 3\n103 101 3 10\n104 103 -1 11\n";
    let mut room = vec![9; LISTING_BYTES];
    is((by.list)(&example().bytes(), &mut room), Verdict::made(lines.len()))?;
    is(&room[..lines.len()], lines.as_bytes())?;
    is(room[lines.len()], 9)
}

/// C1 to C3: the nearest of plate 7.
fn nearest(by: &Calls, k: usize, codes: &[u32], distances: &[u32]) -> Result<(), String> {
    let (mut all_codes, mut all_distances) = ([9; 6], [9; 6]);
    let answer = (by.sitting)(&example().bytes(), &[7], k as u32, &mut all_codes, &mut all_distances);
    is(answer, Verdict::told(k.min(4), 0))?;
    is((&all_codes[..k], &all_distances[..k]), (codes, distances))?;
    is((all_codes[k], all_distances[k]), (9, 9))
}

/// C4 to C6.
fn within(by: &Calls, plate: i16, radius: u32, codes: &[u32], measured: usize) -> Result<(), String> {
    let (mut all_codes, mut all_distances) = ([9; 4], [9; 4]);
    let answer = (by.within)(&example().bytes(), &[plate], radius, &mut all_codes, &mut all_distances);
    is(answer, Verdict::told(codes.len(), measured))?;
    is(&all_codes[..codes.len()], codes)?;
    is(all_codes[codes.len()], 9)
}

/// C7: 104 is nearer but cannot take it.
fn can_take(by: &Calls) -> Result<(), String> {
    let mut buffer = room_for_one_more();
    is((by.add)(&mut buffer, 56, 105, &[12]), Verdict::made(66))?;
    is(node(&buffer, 4), (105, 2, 0))
}

/// C8.
fn held(by: &Calls) -> Result<(), String> {
    is((by.add)(&mut room_for_one_more(), 56, 105, &[10]), Verdict::at_record(19, 2))
}

/// C11.
fn backwards(by: &Calls) -> Result<(), String> {
    let mut image = vec![0; 56];
    let mut length = 0;
    for (code, value) in [(104, 11), (103, 10), (102, 3), (101, 0)] {
        let made = if length == 0 { (by.start)(1, 1, code, &[value], &mut image) } else { (by.add)(&mut image, length, code, &[value]) };
        is(made, Verdict::made(if length == 0 { 26 } else { length + 10 }))?;
        length = made.length();
    }
    let nodes: Vec<_> = (0..4).map(|record| node(&image, record)).collect();
    is(nodes, vec![(104, 0, 3), (103, 0, -1), (102, 0, 2), (101, 2, 1)])?;
    let mut form = vec![0; 56];
    is((by.file)(&image, &mut form), Verdict::made(56))?;
    is(form, example().bytes())
}

/// C12: 3 > 2.
fn uncovered(by: &Calls) -> Result<(), String> {
    let mut image = example().bytes();
    image[16 + 8 + 6] = 1;
    is((by.check)(&image), Verdict::at_record(12, 1))
}

fn room_for_one_more() -> Vec<u8> {
    [example().bytes(), vec![0; 10]].concat()
}

/// A node's code, its parent's record number and its level, as its bytes stand in an image.
fn node(image: &[u8], record: usize) -> (u32, u16, i32) {
    let bytes = &image[16 + 8 * record..];
    let code = u32::from_le_bytes([bytes[0], bytes[1], bytes[2], bytes[3]]);
    (code, u16::from_le_bytes([bytes[4], bytes[5]]), bytes[6] as i32 - 1)
}
