//! Random runs of an aggregate, and capacities.
use super::damage::damage_sparse;
use super::random::Random;
use super::sparse;
use super::values::{value, whole, Kind};
use crate::text::Sparse;
use std::collections::BTreeSet;

const EDGES: [u32; 16] = [1, 2, 15, 16, 17, 31, 32, 33, 63, 64, 65, 127, 128, 129, 1000, 1_048_575];

/// An output of the program has 512 entries. Some are left for rows that are damaged.
const OUTPUT: usize = 500;

/// A state of the program has so many entries.
const REGION: usize = 1024;

pub fn capacity(r: &Random) -> String {
    let dims = if r.once_in(3) { r.one_of(&EDGES) } else { sparse::dims(r) };
    let n = match r.below(4) {
        0 => r.between(0, 70),
        1 => (1 << r.below(21)) + r.between(0, 2) - 1,
        2 => super::place(r, dims).min(dims),
        _ => r.one_of(&[0, 1, 16, 17, 1_048_575, 1_048_576, 1_048_577, 2_097_150, 1 << 31]),
    };
    format!("{dims} {n}")
}

/// What the values of a run are.
#[derive(Clone, Copy)]
enum Values {
    /// Of one kind. Sums stay finite.
    Finite(Kind),
    /// So large that some rows more would pass the largest float.
    Large,
    /// Infinities, NaN, the largest float, and whole numbers from 1 on, so that no sum is zero.
    NotFinite,
}

/// A run while it is made. The rows fit the program.
struct Run {
    dims: u32,
    values: Values,
    union: BTreeSet<u32>,
    entries: usize,
    rows: Vec<Sparse>,
    steps: Vec<String>,
    /// Rows come to both states.
    two_states: bool,
    /// The rows of one state are longer, so that the capacities differ.
    longer: Option<&'static str>,
}

pub fn steps(r: &Random) -> String {
    let dims = match r.below(10) {
        0..=4 => r.one_of(&EDGES),
        5..=7 => r.between(1, 80),
        _ => r.between(1, 1_048_575),
    };
    let values = match r.below(24) {
        0 => Values::NotFinite,
        1 | 2 => Values::Large,
        3 | 4 => Values::Finite(Kind::Subnormal),
        5..=8 => Values::Finite(Kind::Fraction),
        _ => Values::Finite(Kind::Whole),
    };
    let two_states = r.once_in(2);
    let longer = r.one_of(&[None, Some("first"), Some("second"), Some("second")]);
    let (union, rows, steps) = (BTreeSet::new(), vec![], vec![]);
    let mut run = Run { dims, values, union, entries: 0, rows, steps, two_states, longer };
    let rows = r.below(if r.once_in(8) { 14 } else { 6 }) + !r.once_in(30) as usize;
    for _ in 0..rows {
        run.row(r);
        if r.once_in(10) {
            let step = r.one_of(&["sum", "sum", "sum", "average", "combine", "combine"]);
            run.steps.push(step.into());
        }
    }
    run.end(r);
    run.steps.join(" | ")
}

impl Run {
    /// One row more, to either state. A long one is sometimes taken back, so that a large capacity is left.
    fn row(&mut self, r: &Random) {
        let state = if self.two_states && r.once_in(2) { "second" } else { "first" };
        let row = self.fresh_row(r, state);
        let is_long = row.indexes.len() > 8;
        self.give(r, state, row);
        if is_long && r.once_in(3) {
            if let Some(row) = self.rows.last() {
                let row = self.negated(r, row);
                self.give(r, state, row);
            }
        }
    }

    /// Gives a row to a state, if it fits the program. Seldom it has other dims or is damaged.
    fn give(&mut self, r: &Random, state: &str, mut row: Sparse) {
        self.entries += row.indexes.len();
        self.union.extend(&row.indexes);
        if self.union.len() > OUTPUT || self.entries > REGION {
            return;
        }
        self.rows.push(row.clone());
        if r.once_in(150) {
            row.dims += 1;
        }
        if r.once_in(100) {
            damage_sparse(r, &mut row);
        }
        self.steps.push(format!("{state} {}", row.request()));
    }

    fn fresh_row(&self, r: &Random, state: &str) -> Sparse {
        match r.below(12) {
            0 => Sparse { dims: self.dims, indexes: vec![], values: vec![] },
            1 if self.dims <= 130 => self.row_of(r, (0..self.dims).collect()),
            2 | 3 if !self.rows.is_empty() => self.negated(r, self.old_row(r)),
            4 if !self.rows.is_empty() => self.row_of(r, self.old_row(r).indexes.clone()),
            _ => {
                let is_long = self.two_states && self.longer == Some(state);
                let n = if is_long { r.one_of(&[15, 16, 17, 31, 32, 33]) } else { sparse::length(r, self.dims) };
                self.row_of(r, sparse::indexes(r, self.dims, n.min(self.dims as usize)))
            }
        }
    }

    fn row_of(&self, r: &Random, indexes: Vec<u32>) -> Sparse {
        let values = indexes.iter().map(|_| self.value(r)).collect();
        Sparse { dims: self.dims, indexes, values }
    }

    fn old_row(&self, r: &Random) -> &Sparse {
        &self.rows[r.below(self.rows.len())]
    }

    /// A row, whole or in part, with the other sign. Its entries cancel.
    fn negated(&self, r: &Random, row: &Sparse) -> Sparse {
        if matches!(self.values, Values::NotFinite) {
            return row.clone();
        }
        let keep_all = r.once_in(2);
        let kept = row.indexes.iter().zip(&row.values).filter(|_| keep_all || r.once_in(2));
        let (indexes, values) = kept.map(|(&i, &x)| (i, -x)).unzip();
        Sparse { dims: self.dims, indexes, values }
    }

    fn value(&self, r: &Random) -> f32 {
        match self.values {
            Values::Finite(kind) => value(r, kind),
            // There are at most 32 rows, and each value is at most a 32nd of the largest float.
            Values::Large => f32::from_bits(r.between(0x7c80_0000, 0x7cff_ffff) | (r.bits() as u32 & 1) << 31),
            Values::NotFinite => match r.below(12) {
                0 => f32::INFINITY,
                1 => f32::NEG_INFINITY,
                2 => f32::NAN,
                3 => f32::MAX,
                _ => whole(r, 9).abs(),
            },
        }
    }

    fn end(&mut self, r: &Random) {
        if self.two_states && !r.once_in(10) {
            self.steps.push("combine".into());
            if r.once_in(4) {
                self.row(r);
            }
        }
        let end: &[&str] = match r.below(16) {
            0..=3 => &["sum"],
            4 | 5 => &["average"],
            6 => &["average", "sum"],
            7 => &["average", "average"],
            _ => &["sum", "average"],
        };
        self.steps.extend(end.iter().map(|s| s.to_string()));
        if r.once_in(10) {
            self.row(r);
            self.steps.push("sum".into());
        }
    }
}
