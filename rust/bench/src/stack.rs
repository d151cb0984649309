//! The stack that a call uses. It is made on a piece of memory painted beforehand, and the deepest byte that is no longer paint tells.
use plain::{
    data::{bytes_of, Random},
    images::{deepest, made, Data, Kind, Library, Order},
    layout::{growth, length},
    LISTING_BYTES,
};
use std::arch::asm;

/// No call may use more.
const MOST: usize = 16_384;
const ROOM: usize = 1 << 20;
const PAINT: u8 = 0xa5;

const CALLS: [&str; 8] = ["check", "start", "add", "filing", "list", "sitting", "within", "short"];

/// Prints the most stack that each call uses, in full libraries of every width and metric and in the deepest.
pub fn measure(random: &mut Random) -> Result<(), String> {
    let mut most = [0; CALLS.len()];
    let kinds =
        (1..=16).flat_map(|wells| [1, 2].map(|metric| Kind { strains: 1024, wells, metric, data: Data::Species, codes: Order::Random }));
    let full: Vec<_> = kinds.map(|kind| made(kind, random)).collect();
    for tree in full.into_iter().chain([deepest()]) {
        for (most, used) in most.iter_mut().zip(in_library(tree, random)) {
            *most = used.max(*most);
        }
    }
    for (call, used) in CALLS.iter().zip(most) {
        println!("stack of one call, {call}: {used} bytes of at most {MOST}");
    }
    match CALLS.iter().zip(most).find(|(_, used)| *used > MOST) {
        Some((call, used)) => Err(format!("{call} uses {used} bytes of stack, more than {MOST}")),
        None => Ok(()),
    }
}

/// Each call once, in that order. The add puts back the library's last strain.
fn in_library(mut tree: Library, random: &mut Random) -> [usize; CALLS.len()] {
    let (image, wells, metric) = (tree.bytes(), tree.wells(), tree.metric);
    let new = tree.records.pop().expect("a library has a strain");
    let (mut buffer, stated) = (tree.bytes(), image.len() - growth(wells));
    buffer.resize(image.len(), 0);
    let plates: Vec<i16> = (0..64 * wells).map(|_| random.well()).collect();
    let (mut lone, mut form, mut room) = (vec![0; length(1, wells)], vec![0; image.len()], vec![0; LISTING_BYTES]);
    let (mut codes, mut distances, mut out) = (vec![0; 64 * 32], vec![0; 64 * 32], [0; 40]);
    [
        used(&mut || assert!(!proved::check(&image).refused())),
        used(&mut || assert!(!proved::start(wells as u32, metric as u32, new.code, &new.profile, &mut lone).refused())),
        used(&mut || assert!(!proved::add(&mut buffer, stated, new.code, &new.profile).refused())),
        used(&mut || assert!(!proved::file(&image, &mut form).refused())),
        used(&mut || assert!(!proved::list(&image, &mut room).refused())),
        used(&mut || assert!(!proved::sitting(&image, &plates, 32, &mut codes, &mut distances).refused())),
        used(&mut || assert!(!proved::within(&image, &plates[..wells], u32::MAX, &mut codes, &mut distances).refused())),
        used(&mut || assert!(!proved::short(&image, &bytes_of(&plates[..wells]), &mut out).refused())),
    ]
}

/// The bytes of stack that a call uses, with the few that lead to it.
fn used(call: &mut dyn FnMut()) -> usize {
    let mut stack = vec![PAINT; ROOM];
    let top = (stack.as_mut_ptr() as usize + ROOM) & !15;
    let mut call: &mut dyn FnMut() = call;
    // SAFETY: the stack is large enough and aligned, nothing else uses it, and `enter` gets what it takes, for as long as it runs.
    unsafe {
        asm!(
            "mov r12, rsp",
            "mov rsp, {top}",
            "call {enter}",
            "mov rsp, r12",
            top = in(reg) top,
            enter = in(reg) enter as extern "C" fn(*mut &mut dyn FnMut()),
            in("rdi") &mut call as *mut &mut dyn FnMut(),
            out("r12") _,
            clobber_abi("C"),
        );
    }
    let untouched = stack.iter().take_while(|byte| **byte == PAINT).count();
    top - (stack.as_ptr() as usize + untouched)
}

extern "C" fn enter(call: *mut &mut dyn FnMut()) {
    // SAFETY: `used` lends it.
    unsafe { (*call)() }
}

#[cfg(test)]
mod tests {
    use super::used;
    use std::hint::black_box;

    #[test]
    fn what_a_call_writes_is_seen() {
        let mut call = || _ = black_box([1u8; 5000]);
        assert!((5000..5500).contains(&used(&mut call)));
    }
}
