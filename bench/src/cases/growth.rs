//! How the cost of an entry grows with the number of entries.
use super::sparse::{add, check, dot, merged, same};
use super::{states, Bench};
use crate::data::Maker;
use crate::results::Growth;
use crate::timing::{Rounds, Side, OURS, RUST};
use pgrx::datum::reset;
use std::hint::black_box;
use vectors::datatype::aggregate_svecf32::probe;

/// A vector has at most 1,048,575 places, so that a million entries nearly fill it.
pub const SIZES: [usize; 5] = [100, 1_000, 10_000, 100_000, 1_000_000];

/// The average of a state with one row: the Rust's divides the state itself, and so does not change it.
fn average(maker: &mut Maker, n: usize) -> Vec<Side<'static>> {
    let first = maker.whole_vector(n);
    let (state, its) = (states::ours_with(&first), states::rust_with(&first));
    let (mut indexes, mut values) = (vec![0; n], vec![0.0; n]);
    let answer = state.average_into(&mut indexes, &mut values).expect("a state");
    let its_answer = probe::average(its).expect("a state");
    same((answer.indexes(), answer.values()), (its_answer.indexes(), its_answer.values()));
    vec![
        Side::new(OURS, move || {
            black_box(black_box(&state).average_into(&mut indexes, &mut values).expect("a state"));
        }),
        Side::new(RUST, move || {
            black_box(probe::average(black_box(its)).expect("a state"));
        }),
    ]
}

/// The nanoseconds of an entry on both sides.
fn for_an_entry(mut sides: Vec<Side>, entries: usize) -> [f64; 2] {
    let rounds = Rounds::of(&mut sides[..2]);
    [0, 1].map(|k| rounds.median(k) / entries as f64)
}

/// A call, and how it is timed for a number of entries.
type Call = (&'static str, fn(&mut Maker, usize) -> [f64; 2]);

const CALLS: [Call; 5] = [
    ("add, entries of both vectors, overlap 10%", |maker, n| for_an_entry(merged(&maker.pairs(n / 2, 10), add()), n)),
    ("dot, entries of both vectors, overlap 10%", |maker, n| for_an_entry(dot(&maker.pairs(n / 2, 10)), n)),
    ("check", |maker, n| for_an_entry(check(&maker.vectors(n)), n)),
    ("row of 100, entries of the state and the row", |maker, n| {
        let first = maker.whole_vector(n);
        let rows = states::rows(maker, &first, 100);
        for_an_entry(states::row(&first, &rows), n + 100)
    }),
    ("average", |maker, n| for_an_entry(average(maker, n), n)),
];

pub fn run(bench: &mut Bench) {
    for (call, timed) in CALLS {
        if !bench.wants(&format!("growth of {call}")) {
            continue;
        }
        let mut maker = Maker::new(10);
        let found = SIZES.map(|n| timed(&mut maker, n));
        for (k, side) in [OURS, RUST].into_iter().enumerate() {
            let ns: Vec<f64> = found.iter().map(|sides| sides[k]).collect();
            eprintln!("growth of {call}: {side}: {ns:.3?}");
            bench.results.growth.push(Growth { call: call.into(), side: side.into(), ns });
        }
        // SAFETY: no side is used any more.
        unsafe { reset() };
    }
}
