//! Memory to lend that lies against pages which may not be touched: a call that reads or writes one byte too far crashes.
use std::{mem, ptr, slice};

const PAGE: usize = 4096;

/// The bytes that can be lent, 40 pages: enough for any listing.
pub const ROOM: usize = 40 * PAGE;

mod c {
    pub const NO_ACCESS: i32 = 0;
    pub const READ_AND_WRITE: i32 = 3;
    pub const PRIVATE_AND_EMPTY: i32 = 0x22;

    extern "C" {
        pub fn mmap(at: *mut u8, length: usize, access: i32, kind: i32, file: i32, offset: i64) -> *mut u8;
        pub fn mprotect(at: *mut u8, length: usize, access: i32) -> i32;
    }
}

/// The numbers that are lent. Any bits are one of them, and a page's edge is aligned for them.
pub trait Number: Copy {}
impl Number for u8 {}
impl Number for i16 {}
impl Number for u32 {}

/// The page that a slice lies against: the one before it, or the one behind it.
#[derive(Clone, Copy)]
pub enum Side {
    Before,
    Behind,
}

/// Pages that may be used, between two that may not. They stay until the program ends.
pub struct Guarded {
    room: *mut u8,
    side: Side,
}

impl Guarded {
    pub fn new() -> Self {
        // SAFETY: the pages are new, so that nothing else uses them, and the room lies inside them.
        let (room, opened) = unsafe {
            let pages = c::mmap(ptr::null_mut(), PAGE + ROOM + PAGE, c::NO_ACCESS, c::PRIVATE_AND_EMPTY, -1, 0);
            assert!(pages as isize != -1, "no memory for guarded pages");
            let room = pages.add(PAGE);
            (room, c::mprotect(room, ROOM, c::READ_AND_WRITE))
        };
        assert!(opened == 0, "the pages between the guards cannot be used");
        Guarded { room, side: Side::Before }
    }

    /// From now on slices lie against this page.
    pub fn turn(&mut self, side: Side) {
        self.side = side;
    }

    /// A slice with this content. It has the page's edge as its place also where it is empty.
    pub fn lend<T: Number>(&mut self, content: &[T]) -> &mut [T] {
        let size = mem::size_of_val(content);
        assert!(size <= ROOM, "{size} bytes cannot be lent");
        // SAFETY: the slice lies inside the room, which is borrowed as long as the slice is. It is aligned, since the room begins and ends
        // at a page's edge and the size is a multiple of the number's.
        unsafe {
            let at = match self.side {
                Side::Before => self.room,
                Side::Behind => self.room.add(ROOM - size),
            };
            let slice = slice::from_raw_parts_mut(at.cast::<T>(), content.len());
            slice.copy_from_slice(content);
            slice
        }
    }
}

#[cfg(test)]
mod tests {
    use super::*;
    use std::{env, os::unix::process::ExitStatusExt, process::Command};

    const TOUCH: &str = "FUZZ_TEST_TOUCHES_A_GUARD";
    const SEGMENTATION_FAULT: i32 = 11;

    #[test]
    fn slices_lie_at_the_edges() {
        let mut guarded = Guarded::new();
        let room = guarded.room as usize;
        assert_eq!(guarded.lend(&[1u32, 2, 3]).as_ptr() as usize, room);
        guarded.turn(Side::Behind);
        assert_eq!(guarded.lend(&[1u32, 2, 3]).as_ptr() as usize, room + ROOM - 12);
        assert_eq!(guarded.lend(&[-1i16; 5]), [-1; 5]);
        assert_eq!(guarded.lend::<u32>(&[]).as_ptr() as usize, room + ROOM);
    }

    /// Runs itself again, as a program that reads one byte too far.
    #[test]
    fn a_byte_too_far_crashes() {
        if let Ok(side) = env::var(TOUCH) {
            let mut guarded = Guarded::new();
            guarded.turn(if side == "before" { Side::Before } else { Side::Behind });
            let lent = guarded.lend(&[7u8; 3]).as_ptr();
            // SAFETY: none, which is the point.
            unsafe { if side == "before" { lent.sub(1) } else { lent.add(3) }.read_volatile() };
            return;
        }
        for side in ["before", "behind"] {
            let mut again = Command::new(env::current_exe().expect("this program"));
            let ended = again.args(["--exact", "guard::tests::a_byte_too_far_crashes"]).env(TOUCH, side).output().expect("it runs");
            assert_eq!(ended.status.signal(), Some(SEGMENTATION_FAULT), "{side}");
        }
    }
}
