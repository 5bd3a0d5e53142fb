//! Numbers that look random and follow from a seed.
use std::cell::Cell;

pub struct Random(Cell<u64>);

impl Random {
    pub fn new(seed: u64) -> Random {
        Random(Cell::new(seed))
    }

    /// The next 64 bits: a counter, mixed (splitmix64).
    pub fn bits(&self) -> u64 {
        let mut x = self.0.get().wrapping_add(0x9e37_79b9_7f4a_7c15);
        self.0.set(x);
        x = (x ^ (x >> 30)).wrapping_mul(0xbf58_476d_1ce4_e5b9);
        x = (x ^ (x >> 27)).wrapping_mul(0x94d0_49bb_1331_11eb);
        x ^ (x >> 31)
    }

    /// A number below n.
    pub fn below(&self, n: usize) -> usize {
        (self.bits() % n as u64) as usize
    }

    /// A number from a to b, both included.
    pub fn between(&self, a: u32, b: u32) -> u32 {
        a + (self.bits() % (b as u64 - a as u64 + 1)) as u32
    }

    /// True once in n times.
    pub fn once_in(&self, n: usize) -> bool {
        self.below(n) == 0
    }

    pub fn one_of<T: Copy>(&self, list: &[T]) -> T {
        list[self.below(list.len())]
    }

    pub fn shuffle<T>(&self, list: &mut [T]) {
        for k in (1..list.len()).rev() {
            list.swap(k, self.below(k + 1));
        }
    }
}
