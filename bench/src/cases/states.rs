//! States of an aggregate: a row, a combine, an average.
use super::sparse::{in_turn, ours, rust, same, Ours};
use super::{grouped, Bench};
use crate::data::{Maker, Pair, Sparse, DIMS};
use crate::targets::{of_rust, of_twin};
use crate::timing::{Side, OURS, RUST, TWIN};
use oxlanyard::{capacity, Aggregate, Header, State};
use pgrx::datum::{reset, Internal};
use std::hint::black_box;
use vectors::datatype::aggregate_svecf32::{probe, SVecf32AggregateAvgSumStype as Theirs};

const VALID: &str = "valid vectors";

/// A state of each side with one row.
pub fn ours_with(first: &Sparse) -> Aggregate {
    let mut state = Aggregate::new();
    state.row(ours(first)).expect(VALID);
    state
}

pub fn rust_with(first: &Sparse) -> Internal {
    probe::row(Internal::NULL, rust(first))
}

fn same_states(ours: &Aggregate, rust: Internal) {
    let (sum, its) = (ours.sum().expect("a state"), probe::sum(rust).expect("a state"));
    same((sum.indexes(), sum.values()), (its.indexes(), its.values()));
    let its = unsafe { rust.get_mut::<Theirs>() }.expect("a state");
    assert_eq!((ours.capacity(), ours.count()), (its.capacity() as usize, its.count()));
}

/// Rows of n whole numbers, each followed by its negation: after two calls the state is as it was. Long rows are fewer.
pub fn rows(maker: &mut Maker, first: &Sparse, n: usize) -> Vec<Sparse> {
    let rows: Vec<Sparse> = (0..(40_000 / n).min(32)).map(|_| maker.row(first, n)).collect();
    rows.into_iter().flat_map(|row| [row.negated(), row]).collect()
}

/// Rows in turn. Values are added to, put in and taken out. All of it is timed, and nothing else.
pub fn row<'a>(first: &Sparse, rows: &'a [Sparse]) -> Vec<Side<'a>> {
    let (mut state, mut its) = (ours_with(first), rust_with(first));
    for row in rows {
        state.row(ours(row)).expect(VALID);
        its = probe::row(its, rust(row));
        same_states(&state, its);
    }
    let ours_rows: Vec<Ours> = rows.iter().map(ours).collect();
    let (mut turn, mut its_turn) = (in_turn(ours_rows), in_turn(rows.iter().map(rust).collect()));
    vec![
        Side::new(OURS, move || {
            black_box(state.row(black_box(turn())).expect(VALID));
        }),
        Side::new(RUST, move || its = probe::row(its, black_box(its_turn()))),
    ]
}

/// A second state goes into the first, which has room. Its negation puts the first back, which is not timed. Doing both
/// once before makes the first grow.
fn combine(pair: &Pair) -> Vec<Side<'static>> {
    let negated = pair.b.negated();
    let (mut state, second, back) = (ours_with(&pair.a), ours_with(&pair.b), ours_with(&negated));
    let (mut its, its_second, its_back) = (rust_with(&pair.a), rust_with(&pair.b), rust_with(&negated));
    for (other, its_other) in [(&second, its_second), (&back, its_back)] {
        state.combine(other).expect(VALID);
        its = probe::combine(its, its_other);
        same_states(&state, its);
    }
    let taken = move |state: &mut Aggregate, other: &Aggregate| {
        black_box(state.combine(black_box(other)).expect(VALID));
    };
    let its_taken = move |state: &mut Internal, other: Internal| *state = probe::combine(*state, black_box(other));
    vec![
        Side::undone(OURS, state, move |s| taken(s, &second), move |s| taken(s, &back)),
        Side::undone(RUST, its, move |s| its_taken(s, its_second), move |s| its_taken(s, its_back)),
    ]
}

/// A state that `reset` does not free: another thread has made it.
fn lasting(first: &Sparse) -> Internal {
    struct Sent(Internal);
    // SAFETY: no one else has the state.
    unsafe impl Send for Sent {}
    std::thread::scope(|s| s.spawn(|| Sent(rust_with(first))).join().expect("a state")).0
}

/// A second state goes into the first, which must grow. Both sides allocate the grown state; giving it back, and on our
/// side copying the first anew, is not timed.
fn combine_and_grow(pair: &Pair) -> Vec<Side<'static>> {
    let (state, second) = (ours_with(&pair.a), ours_with(&pair.b));
    let (its, its_second) = (lasting(&pair.a), lasting(&pair.b));
    let mut first = state.clone();
    first.combine(&second).expect(VALID);
    same_states(&first, probe::combine(its, its_second));
    let grown = move |first: &mut Aggregate| {
        black_box(first.combine(black_box(&second)).expect(VALID));
    };
    vec![
        Side::undone(OURS, state.clone(), grown, move |first| *first = state.clone()),
        Side::undone(
            RUST,
            (),
            move |()| {
                black_box(probe::combine(black_box(its), black_box(its_second)));
            },
            // SAFETY: what was made since is used by no one.
            |()| unsafe { reset() },
        ),
    ]
}

/// The average of a state of ours that holds a vector, with any count.
fn average_of(name: &'static str, held: &Sparse, count: u64) -> Side<'static> {
    let (n, room) = (held.indexes.len(), capacity(DIMS, held.indexes.len()));
    let (mut indexes, mut values) = (vec![0; room], vec![0.0; room]);
    State::new(&mut indexes, &mut values).row(ours(held)).expect(VALID);
    let header = Header([0, room as u64, 1, DIMS as u64, n as u64, room as u64, count]);
    // The state's lists last as long as the program.
    let state = State::resume(header, indexes.leak(), values.leak()).expect("a state");
    let (mut oi, mut ov) = (vec![0; n], vec![0.0; n]);
    let answer = state.average_into(&mut oi, &mut ov).expect("a state");
    let its = probe::average(probe::state(count, rust(held))).expect("a state");
    same((answer.indexes(), answer.values()), (its.indexes(), its.values()));
    Side::new(name, move || {
        black_box(black_box(&state).average_into(&mut oi, &mut ov).expect("a state"));
    })
}

/// An average by one count, and by another as its twin. The Rust's divides its state; that it is made anew after each
/// call is not timed.
fn average(held: &Sparse, count: u64, twin: u64) -> Vec<Side<'_>> {
    let (ours, twin) = (average_of(OURS, held, count), average_of(TWIN, held, twin));
    let anew = move || probe::state(count, rust(held));
    let its = Side::undone(
        RUST,
        anew(),
        |its| {
            black_box(probe::average(black_box(*its)).expect("a state"));
        },
        move |its| {
            // SAFETY: what was made since is used by no one.
            unsafe { reset() };
            *its = anew();
        },
    );
    vec![ours, its, twin]
}

pub fn run(bench: &mut Bench) {
    let mut maker = Maker::new(9);
    let first = maker.whole_vector(100_000);
    for (n, at_most) in [(100, 0.3), (1_000, 0.5), (10_000, 0.5)] {
        let rows = rows(&mut maker, &first, n);
        let name = format!("row of {} into a state of 100,000", grouped(n as u64));
        bench.case(&name, of_rust(at_most), || row(&first, &rows));
    }
    for (count, twin) in [(1, u64::MAX), (u64::MAX, 1)] {
        let name = format!("average of 100,000, count {}", grouped(count));
        bench.case(&name, of_twin(1.02), || average(&first, count, twin));
    }
    let pair = maker.whole_pair(100_000, 10);
    bench.case("combine, two states of 100,000", of_rust(0.55), || combine(&pair));
    bench.case_that_grows("combine, two states of 100,000, and grow", of_rust(0.6), || combine_and_grow(&pair));
}
