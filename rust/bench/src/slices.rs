//! The two slices that the timed searches write to.
use std::cell::RefCell;

pub struct Slices(RefCell<[Vec<u32>; 2]>);

impl Slices {
    pub fn new(room: usize) -> Self {
        Slices(RefCell::new([vec![0; room], vec![0; room]]))
    }

    /// Done before each run, so that no way of searching passes off what another wrote.
    pub fn wipe(&self) {
        self.0.borrow_mut().iter_mut().for_each(|slice| slice.fill(0));
    }

    /// The sum of what a search writes, which tells in how many places of each slice.
    pub fn sum_after(&self, search: impl FnOnce(&mut [u32], &mut [u32]) -> usize) -> u64 {
        let [codes, distances] = &mut *self.0.borrow_mut();
        let places = search(codes, distances);
        codes[..places].iter().chain(&distances[..places]).map(|x| *x as u64).sum()
    }
}
