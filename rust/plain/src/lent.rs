//! Memory lent to a call.
use crate::data::Random;

/// Memory of more than `LONG` numbers, which only a room for a listing takes, repeats as many as `DRAWN`: drawing takes its time.
const LONG: usize = 65_536;
const DRAWN: usize = 4_093;

/// A slice at any place of a larger piece of memory, bytes at an odd place too. All of it is random before something is put there.
#[derive(Clone, PartialEq)]
pub struct Lent<T> {
    memory: Vec<T>,
    from: usize,
    to: usize,
}

impl<T: Copy + PartialEq> Lent<T> {
    pub fn new(room: usize, any: impl Fn(&mut Random) -> T, random: &mut Random) -> Self {
        let from = 1 + random.below(16);
        let length = from + room + 16;
        let drawn = if length > LONG { DRAWN } else { length };
        let mut memory: Vec<T> = (0..drawn).map(|_| any(random)).collect();
        while memory.len() < length {
            memory.extend_from_within(..drawn.min(length - memory.len()));
        }
        Lent { memory, from, to: from + room }
    }

    /// With as much of this at its front as there is room for.
    pub fn holding(mut self, front: &[T]) -> Self {
        let held = front.len().min(self.to - self.from);
        self.slice()[..held].copy_from_slice(&front[..held]);
        self
    }

    pub fn slice(&mut self) -> &mut [T] {
        &mut self.memory[self.from..self.to]
    }

    pub fn front(&self, length: usize) -> &[T] {
        &self.memory[self.from..self.to][..length]
    }

    /// Whether the two are alike but for so many places at the front of the slice.
    pub fn alike_behind(&self, front: usize, other: &Self) -> bool {
        let behind = self.from + front;
        self.memory[..self.from] == other.memory[..self.from] && self.memory[behind..] == other.memory[behind..]
    }
}

/// The places to lend where `needed` are needed: just enough, one too few, any number too few, one too many, or more.
pub fn any_room(needed: usize, random: &mut Random) -> usize {
    match random.below(12) {
        0 => needed.saturating_sub(1),
        1 => random.below(needed + 1),
        2 | 3 => needed,
        4 => needed + 1,
        _ => needed + random.below(64),
    }
}
