//! Averages of states with any count: around the counts from which a float has gaps, and at ties of rounding both ways.
use super::random::Random;
use super::sparse;
use super::values::{value, KINDS};
use crate::text::Sparse;

/// From 2^24 on there are gaps between floats, and each power of two doubles them.
const POWERS: [u32; 6] = [24, 25, 26, 53, 63, 64];

/// A count of at least 1. Most lie around a power of two, or halfway between two floats, or beside that.
fn count(r: &Random) -> u64 {
    let near = |r: &Random| (r.between(0, 16) as u64).wrapping_sub(8);
    let count = match r.below(8) {
        0 => r.bits() >> r.below(64),
        1..=3 => {
            let power = r.one_of(&POWERS);
            (if power == 64 { 0 } else { 1u64 << power }).wrapping_add(near(r))
        }
        4 => u64::MAX - r.between(0, 3) as u64,
        _ => {
            // 24 digits of a float, then the digit that makes a tie; and sometimes one more or one less.
            let shift = r.between(1, 40);
            let float = 1 << 23 | r.bits() >> 41;
            let tie = float << shift | 1 << (shift - 1);
            tie.wrapping_add(r.one_of(&[0, 0, 1, u64::MAX]))
        }
    };
    count.max(1)
}

/// A count and the vector that the state holds.
pub fn average(r: &Random) -> String {
    let dims = sparse::dims(r);
    let n = sparse::length(r, dims).min(8).min(dims as usize);
    let indexes = sparse::indexes(r, dims, n);
    let kind = r.one_of(&KINDS);
    let values = indexes.iter().map(|_| value(r, kind)).collect();
    format!("{} | {}", count(r), Sparse { dims, indexes, values }.request())
}
