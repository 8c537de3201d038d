//! Slots by document 02's rule (K4): the free ones are one queue, at first 0, 1, 2 and so on, and freed slots join it at the
//! back. The original hands out the slot that was freed last, so its slot numbers are not compared: which slot a key is bound
//! in is followed here from the calls.

use std::collections::{HashMap, VecDeque};

pub struct Slots {
    capacity: usize,
    free: VecDeque<usize>,
    bound: HashMap<u64, usize>,
}

impl Slots {
    pub fn new(capacity: usize) -> Self {
        Slots { capacity, free: (0..capacity).collect(), bound: HashMap::new() }
    }

    pub fn of(&self, key: u64) -> usize {
        self.bound[&key]
    }

    pub fn bind(&mut self, key: u64) {
        let slot = self.free.pop_front().expect("a slot is free");
        self.bound.insert(key, slot);
    }

    pub fn release(&mut self, key: u64) {
        let slot = self.bound.remove(&key).expect("the key is bound");
        self.free.push_back(slot);
    }

    pub fn clear(&mut self) {
        *self = Slots::new(self.capacity);
    }
}
