//! A second reading of document 01, as far as the Rust has no answer of its own: the refusal that a request is due, and
//! an aggregate's run where a combine keeps the first state and an average leaves it; and the run as the Rust's text has
//! it. Entries are added by the Rust's `operator_add`, and capacities are the Rust's.
use crate::rust;
use crate::text::{self, Bits, Sparse, Step};
use base::vector::{SVectBorrowed, SVectOwned, VectorBorrowed, VectorOwned};
use std::ops::Bound;

/// A number of document 01's table, and the place that it carries.
#[derive(Clone, Copy, PartialEq)]
pub struct Refusal {
    pub number: u32,
    pub place: u64,
}

impl Refusal {
    pub fn shown(self) -> String {
        format!("refused {} {}", self.number, self.place)
    }
}

fn refused<T>(number: u32, place: u64) -> Result<T, Refusal> {
    Err(Refusal { number, place })
}

/// DIMS, LENGTH, ORDER, INDEX, ZERO, in this order.
fn check_sparse(v: &Sparse) -> Result<(), Refusal> {
    if v.dims < 1 || v.dims > 1_048_575 {
        return refused(1, 0);
    }
    if v.indexes.len() != v.values.len() {
        return refused(2, 0);
    }
    if let Some(k) = (1..v.indexes.len()).find(|&k| v.indexes[k] <= v.indexes[k - 1]) {
        return refused(3, k as u64);
    }
    if v.indexes.last().is_some_and(|&last| last >= v.dims) {
        return refused(4, v.indexes.len() as u64 - 1);
    }
    match v.values.iter().position(|&x| x == 0.0) {
        Some(k) => refused(5, k as u64),
        None => Ok(()),
    }
}

/// DIMS, LENGTH, PADDING, in this order.
fn check_bits(v: &Bits) -> Result<(), Refusal> {
    if v.dims < 1 || v.dims > 65_535 {
        return refused(1, 0);
    }
    if v.words.len() != v.dims.div_ceil(64) as usize {
        return refused(2, 0);
    }
    let last = v.words.len() - 1;
    let is_padding = |bit: u32| last as u32 * 64 + bit >= v.dims;
    if (0..64).any(|bit| is_padding(bit) && v.words[last] >> bit & 1 == 1) {
        return refused(6, last as u64);
    }
    Ok(())
}

fn check_bounds(dims: u32, (start, end): (Bound<u32>, Bound<u32>)) -> Result<(), Refusal> {
    let start = match start {
        Bound::Included(n) => n as u64,
        Bound::Excluded(n) => n as u64 + 1,
        Bound::Unbounded => 0,
    };
    let end = match end {
        Bound::Included(n) => n as u64 + 1,
        Bound::Excluded(n) => n as u64,
        Bound::Unbounded => dims as u64,
    };
    if start >= end || end > dims as u64 {
        return refused(8, 0);
    }
    Ok(())
}

fn check_equal(name: &str, left: u32, right: u32) -> Result<(), Refusal> {
    if left != right && name != "eq" && name != "order" {
        return refused(7, 0);
    }
    Ok(())
}

fn check_svect(name: &str, fields: &[&str]) -> Result<(), Refusal> {
    if name == "zero" {
        let dims = text::number(fields[0]);
        return check_sparse(&Sparse { dims, indexes: vec![], values: vec![] });
    }
    let left = Sparse::read(fields[0]);
    check_sparse(&left)?;
    match name {
        "check" => Ok(()),
        "part" => check_bounds(left.dims, text::bounds(fields[1])),
        _ => {
            let right = Sparse::read(fields[1]);
            check_sparse(&right)?;
            check_equal(name, left.dims, right.dims)
        }
    }
}

fn check_bvect(name: &str, fields: &[&str]) -> Result<(), Refusal> {
    if name == "zero" {
        let dims = text::number(fields[0]);
        return if (1..=65_535).contains(&dims) { Ok(()) } else { refused(1, 0) };
    }
    let left = Bits::read(fields[0]);
    check_bits(&left)?;
    match name {
        "check" | "one" => Ok(()),
        "part" => check_bounds(left.dims, text::bounds(fields[1])),
        "get" => match text::number(fields[1]) {
            index if index >= left.dims => refused(4, index as u64),
            _ => Ok(()),
        },
        _ => {
            let right = Bits::read(fields[1]);
            check_bits(&right)?;
            check_equal(name, left.dims, right.dims)
        }
    }
}

/// The refusal that a request is due, if any. An aggregate's run has its own.
pub fn due(call: &str, fields: &[&str]) -> Option<Refusal> {
    match call.split_once(' ') {
        Some(("svect", name)) => check_svect(name, fields).err(),
        Some(("bvect" | "bit", name)) => check_bvect(name, fields).err(),
        _ => None,
    }
}

/// A state with rows.
struct State {
    entries: SVectOwned<f32>,
    capacity: u32,
    count: u64,
}

/// Whose run it is.
#[derive(Clone, Copy, PartialEq)]
pub enum Ways {
    /// A combine keeps the first state, and an average leaves it.
    Paper,
    /// A combine goes on with the state of larger capacity, the second where both are equal; a first state without rows
    /// becomes the second itself. An average divides the state and drops its zeros.
    Rust,
}

/// The answer to a step, and what happened up to it.
pub struct Field {
    pub text: String,
    /// There was an average before.
    pub averaged: bool,
    /// All values of both states were finite, in this step and before.
    pub finite: bool,
}

/// Entries come to a state: those of a row, with count 1, or those of a second state.
fn take(state: &mut Option<State>, more: SVectBorrowed<'_, f32>, count: u64) -> Result<(), Refusal> {
    let Some(s) = state else {
        *state = Some(State { entries: more.own(), capacity: rust::capacity(more.dims(), more.len()), count });
        return Ok(());
    };
    let old = s.entries.as_borrowed();
    if old.dims() != more.dims() {
        return refused(7, 0);
    }
    if s.capacity != old.dims() && s.capacity - old.len() < more.len() {
        s.capacity = rust::capacity(old.dims(), old.len() + more.len());
    }
    let sum = old.operator_add(more);
    s.entries = sum;
    s.count += count;
    Ok(())
}

fn row(state: &mut Option<State>, row: &Sparse) -> Result<String, Refusal> {
    check_sparse(row)?;
    take(state, row.checked().expect("the Rust finds it valid too"), 1)?;
    Ok(shown(state))
}

fn shown(state: &Option<State>) -> String {
    match state {
        None => text::state_shown(0, 0, 0, 0),
        Some(s) => {
            let v = s.entries.as_borrowed();
            text::state_shown(v.dims(), v.len(), s.capacity, s.count)
        }
    }
}

fn combine(first: &mut Option<State>, second: &mut Option<State>, ways: Ways) -> Result<String, Refusal> {
    let capacity = |state: &Option<State>| state.as_ref().map(|s| s.capacity);
    if ways == Ways::Rust && second.is_some() && capacity(first) <= capacity(second) {
        std::mem::swap(first, second);
    }
    if let Some(s) = second.take() {
        take(first, s.entries.as_borrowed(), s.count)?;
    }
    Ok(shown(first))
}

fn average(s: &mut State, ways: Ways) -> String {
    let divided = s.entries.values().iter().map(|x| x / s.count as f32);
    let kept = s.entries.indexes().iter().copied().zip(divided).filter(|&(_, x)| x != 0.0);
    let (indexes, values): (Vec<u32>, Vec<f32>) = kept.unzip();
    let quotients = SVectOwned::new(s.entries.as_borrowed().dims(), indexes, values);
    let text = text::sparse_shown(quotients.as_borrowed());
    if ways == Ways::Rust {
        s.entries = quotients;
    }
    text
}

fn answered(step: &Step, first: &mut Option<State>, second: &mut Option<State>, ways: Ways) -> Result<String, Refusal> {
    match step {
        Step::First(v) => row(first, v),
        Step::Second(v) => row(second, v),
        Step::Combine => combine(first, second, ways),
        Step::Sum => match first {
            Some(s) => Ok(text::sparse_shown(s.entries.as_borrowed())),
            None => refused(12, 0),
        },
        Step::Average => match first {
            Some(s) => Ok(average(s, ways)),
            None => refused(12, 0),
        },
    }
}

fn is_finite(state: &Option<State>) -> bool {
    state.iter().all(|s| s.entries.values().iter().all(|x| x.is_finite()))
}

/// The answers to the steps of a run, up to the first that is refused.
pub fn run(steps: &[&str], ways: Ways) -> Vec<Field> {
    let (mut first, mut second) = (None, None);
    let (mut averaged, mut finite) = (false, true);
    let mut fields = vec![];
    for text in steps {
        let step = Step::read(text);
        let answer = answered(&step, &mut first, &mut second, ways);
        finite &= is_finite(&first) && is_finite(&second);
        let is_last = answer.is_err();
        let text = answer.unwrap_or_else(Refusal::shown);
        fields.push(Field { text, averaged, finite });
        averaged |= matches!(step, Step::Average);
        if is_last {
            break;
        }
    }
    fields
}
