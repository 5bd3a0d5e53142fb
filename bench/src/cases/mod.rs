//! The cases: every side gets the same data, and the answers are compared before anything is timed.
mod allocating;
mod bits;
pub mod growth;
mod sparse;
mod states;

pub use bits::Two;
#[cfg(eigen)]
pub use sparse::{in_turn, same};

use crate::allocations;
use crate::results::{Allocations, Measured, Results};
use crate::targets::{Build, Target};
use crate::timing::{Rounds, Side, OURS, OWNED, RUST};
use std::hint::black_box;

pub struct Bench {
    build: Build,
    /// Only cases whose name has this in it.
    only: String,
    results: Results,
    /// Calls of ours that were watched, and the allocations that they made.
    watched: (u64, u64),
}

/// A whole number with a comma before each three digits.
pub fn grouped(n: u64) -> String {
    let digits = n.to_string();
    let groups = digits.as_bytes().rchunks(3).rev();
    groups.map(|group| String::from_utf8_lossy(group)).collect::<Vec<_>>().join(",")
}

/// Copies a list to another of its length, and does nothing else. They begin half a page apart: where both begin at
/// nearly the same place of a page, the C library's copy took some 30 times as long on one processor.
fn copying<T: Copy>(list: &[T]) -> impl FnMut() {
    let (n, page) = (list.len(), 4096 / std::mem::size_of::<T>());
    let start = n.next_multiple_of(page) + page / 2;
    let mut both = vec![list[0]; start + n];
    both[..n].copy_from_slice(list);
    move || {
        let (from, to) = black_box(&mut both).split_at_mut(start);
        to.copy_from_slice(&from[..n]);
    }
}

impl Bench {
    /// What holds in this build, of what holds in each.
    fn by_build<T>(&self, plain: T, native: T) -> T {
        match self.build {
            Build::Plain => plain,
            Build::Native => native,
        }
    }

    fn wants(&self, name: &str) -> bool {
        name.contains(&self.only)
    }

    /// A case: ours, the Rust, and whoever else there is; and what is to be reached, of one side at most once.
    fn case<'a, T>(&mut self, name: &str, targets: T, sides: impl FnOnce() -> Vec<Side<'a>>)
    where
        T: IntoIterator<Item = Target>,
    {
        if !self.wants(name) {
            return;
        }
        let mut sides = sides();
        self.watched.0 += 1;
        self.watched.1 += allocations::of(|| sides[0].once());
        self.timed(name, targets, &mut sides);
    }

    /// A case in which ours grows, and so allocates.
    fn case_that_grows<'a>(&mut self, name: &str, target: Option<Target>, sides: impl FnOnce() -> Vec<Side<'a>>) {
        if self.wants(name) {
            self.timed(name, target, &mut sides());
        }
    }

    fn timed(&mut self, name: &str, targets: impl IntoIterator<Item = Target>, sides: &mut [Side]) {
        let targets: Vec<Target> = targets.into_iter().collect();
        let rounds = Rounds::of(sides);
        assert!(sides[0].name == OURS && sides[1].name == RUST);
        for k in 1..sides.len() {
            // Peers, the copy and the twin are others of ours. Where ours owns its answer, the other is the Rust.
            let (side, other) = if sides[k].name == OWNED { (k, 1) } else { (0, k) };
            let measured = Measured {
                case: name.into(),
                target: targets.iter().copied().find(|target| target.of.side() == sides[k].name),
                side: sides[side].name.into(),
                other: sides[other].name.into(),
                ns: rounds.median(side),
                other_ns: rounds.median(other),
                ratio: rounds.ratio(side, other),
            };
            eprintln!("{name}: {} by {}: {:.3}", measured.side, measured.other, measured.ratio.median);
            self.results.measured.push(measured);
        }
    }
}

/// Runs the cases whose names have a text in them; of all of them, if it is empty.
pub fn run(build: Build, only: &str) -> Results {
    allocations::warm();
    let mut bench = Bench { build, only: only.into(), results: Results::default(), watched: (0, 0) };
    sparse::run(&mut bench);
    bits::run(&mut bench);
    states::run(&mut bench);
    growth::run(&mut bench);
    let (calls, made) = bench.watched;
    let calls = format!("{calls} calls, one in each case but that in which the state grows");
    bench.results.allocations.push(Allocations { calls, made });
    bench.results.allocations.push(allocating::every_call());
    bench.results
}
