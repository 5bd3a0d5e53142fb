//! Random sparse vectors, one or two, for each call of svect.rs.
use super::damage::damage_sparse;
use super::random::Random;
use super::values::{partner, value, whole, Kind, KINDS};
use crate::text::Sparse;
use std::collections::BTreeSet;

const EDGES: [u32; 20] =
    [1, 2, 15, 16, 17, 31, 32, 33, 63, 64, 65, 127, 128, 129, 1000, 65_534, 65_535, 65_536, 1_048_574, 1_048_575];

const ENDS: [u32; 10] = [0, 1, 2, 65_535, 65_536, 1_048_574, 1_048_575, 1_048_576, u32::MAX - 1, u32::MAX];

/// The most entries that the program reads.
pub const MOST: usize = 256;

/// Dot and L2 are exact in every order up to here.
const EXACT: f64 = 16_777_216.0;

/// What follows the call in a request.
pub fn operands(r: &Random, name: &str) -> String {
    match name {
        "zero" => if r.once_in(2) { r.one_of(&ENDS) } else { dims(r) }.to_string(),
        "check" => damaged_once_in(r, vector(r), 2).request(),
        "part" => {
            let v = damaged_once_in(r, vector(r), 15);
            format!("{} | {}", v.request(), super::bounds(r, v.dims))
        }
        _ => {
            let (left, right) = two(r, name);
            format!("{} | {}", left.request(), right.request())
        }
    }
}

fn two(r: &Random, name: &str) -> (Sparse, Sparse) {
    let (left, mut right) = match name {
        "dot" | "l2" => whole_pair(r, name == "l2"),
        "eq" | "order" if r.once_in(2) => alike(r),
        _ => pair(r),
    };
    if r.once_in(14) {
        right.dims = if r.once_in(2) { right.dims + 1 } else { dims(r) };
        let below = right.indexes.partition_point(|&i| i < right.dims);
        right.indexes.truncate(below);
        right.values.truncate(below);
    }
    if !r.once_in(3) {
        return (left, right);
    }
    let damaged = (damaged_once_in(r, left.clone(), 8), damaged_once_in(r, right.clone(), 6));
    // Damaged twice, a vector can be a good one with other terms.
    let is_good = damaged.0.checked().is_some() && damaged.1.checked().is_some();
    let is_beyond = |is_l2| is_good && terms(&damaged.0, &damaged.1, is_l2) > EXACT;
    match name {
        "dot" if is_beyond(false) => (left, right),
        "l2" if is_beyond(true) => (left, right),
        _ => damaged,
    }
}

fn damaged_once_in(r: &Random, mut v: Sparse, n: usize) -> Sparse {
    if r.once_in(n) {
        damage_sparse(r, &mut v);
        if r.once_in(3) {
            damage_sparse(r, &mut v);
        }
    }
    v
}

pub fn dims(r: &Random) -> u32 {
    match r.below(10) {
        0..=4 => r.between(1, 40),
        5..=7 => r.one_of(&EDGES),
        _ => r.between(1, 1_048_575),
    }
}

/// A number of entries, at most dims.
pub fn length(r: &Random, dims: u32) -> usize {
    let n = match r.below(60) {
        0 => r.one_of(&[64, 127, 128, 129, 255, MOST]),
        1..=9 => r.one_of(&[15, 16, 17, 31, 32, 33]),
        _ => r.below(9),
    };
    n.min(dims as usize)
}

/// So many indexes below dims: all in a block at either end, or spread.
pub fn indexes(r: &Random, dims: u32, n: usize) -> Vec<u32> {
    let n = n as u32;
    match r.below(6) {
        0 => (0..n).collect(),
        1 => (dims - n..dims).collect(),
        _ if dims <= 4 * n => {
            let mut all: Vec<u32> = (0..dims).collect();
            r.shuffle(&mut all);
            all.truncate(n as usize);
            all.sort();
            all
        }
        _ => {
            let mut chosen = BTreeSet::new();
            while chosen.len() < n as usize {
                chosen.insert(r.between(0, dims - 1));
            }
            chosen.into_iter().collect()
        }
    }
}

pub fn vector(r: &Random) -> Sparse {
    let dims = dims(r);
    let n = length(r, dims);
    let kind = r.one_of(&KINDS);
    vector_of(r, dims, n, kind)
}

pub fn vector_of(r: &Random, dims: u32, n: usize, kind: Kind) -> Sparse {
    let indexes = indexes(r, dims, n);
    let values = indexes.iter().map(|_| value(r, kind)).collect();
    Sparse { dims, indexes, values }
}

/// Where two vectors of such dims have entries: (left, right) at each index. The overlap goes from none to all.
fn sides(r: &Random, dims: u32) -> Vec<(u32, bool, bool)> {
    let (left, right) = (length(r, dims), length(r, dims));
    let least = (left + right).saturating_sub(dims as usize);
    let most = left.min(right);
    let both = match r.below(4) {
        0 => least,
        1 => most,
        _ => least + r.below(most - least + 1),
    };
    let mut sides = vec![(true, true); both];
    sides.extend(vec![(true, false); left - both]);
    sides.extend(vec![(false, true); right - both]);
    match r.below(8) {
        0 => (),
        1 => sides.reverse(),
        _ => r.shuffle(&mut sides),
    }
    let indexes = indexes(r, dims, sides.len());
    indexes.into_iter().zip(sides).map(|(i, (l, r))| (i, l, r)).collect()
}

fn empty(dims: u32) -> Sparse {
    Sparse { dims, indexes: vec![], values: vec![] }
}

fn push(v: &mut Sparse, index: u32, value: f32) {
    v.indexes.push(index);
    v.values.push(value);
}

fn pair(r: &Random) -> (Sparse, Sparse) {
    let dims = dims(r);
    let kind = r.one_of(&KINDS);
    let (mut left, mut right) = (empty(dims), empty(dims));
    for (index, in_left, in_right) in sides(r, dims) {
        let x = value(r, kind);
        if in_left {
            push(&mut left, index, x);
        }
        if in_right {
            let y = partner(r, x, kind);
            push(&mut right, index, y);
        }
    }
    (left, right)
}

/// Two vectors that are the same, or the same up to some entry.
fn alike(r: &Random) -> (Sparse, Sparse) {
    let left = vector(r);
    let mut right = left.clone();
    let n = right.indexes.len();
    let k = r.below(n.max(1));
    match r.below(5) {
        _ if n == 0 => (),
        0 => right.values[k] = partner(r, left.values[k], Kind::Mixed),
        1 => {
            right.indexes.remove(k);
            right.values.remove(k);
        }
        2 => {
            right.indexes.truncate(k);
            right.values.truncate(k);
        }
        3 if k + 1 == n || right.indexes[k] + 1 < right.indexes[k + 1] => {
            right.indexes[k] = (right.indexes[k] + 1).min(right.dims - 1);
        }
        _ => (),
    }
    if r.once_in(2) {
        (left, right)
    } else {
        (right, left)
    }
}

/// The magnitudes of the terms of dot or L2, added up.
fn terms(left: &Sparse, right: &Sparse, is_l2: bool) -> f64 {
    let at = |v: &Sparse, index| v.indexes.binary_search(&index).map_or(0.0, |k| v.values[k] as f64);
    let all: BTreeSet<u32> = left.indexes.iter().chain(&right.indexes).copied().collect();
    let term = |index| {
        let (x, y) = (at(left, index), at(right, index));
        if is_l2 {
            (x - y) * (x - y)
        } else {
            (x * y).abs()
        }
    };
    all.into_iter().map(term).sum()
}

/// Two vectors of whole numbers whose terms add up to at most 16,777,216.
fn whole_pair(r: &Random, is_l2: bool) -> (Sparse, Sparse) {
    let dims = dims(r);
    let sides = sides(r, dims);
    let mut most = r.one_of(&[1, 8, 100, 4096, 16_777_216]);
    loop {
        let (mut left, mut right) = (empty(dims), empty(dims));
        for &(index, in_left, in_right) in &sides {
            let x = whole(r, most);
            if in_left {
                push(&mut left, index, x);
            }
            if in_right {
                let y = if in_left && r.once_in(3) { x } else { whole(r, most) };
                push(&mut right, index, y);
            }
        }
        fill_up(r, &mut left, &mut right, is_l2);
        if terms(&left, &right, is_l2) <= EXACT {
            return (left, right);
        }
        most = (most / 2).max(1);
    }
}

/// Sometimes one term more, which brings the sum to its limit or near it.
fn fill_up(r: &Random, left: &mut Sparse, right: &mut Sparse, is_l2: bool) {
    let next = left.indexes.last().max(right.indexes.last()).map_or(0, |&i| i + 1);
    let rest = EXACT - terms(left, right, is_l2);
    if next >= left.dims || left.indexes.len().max(right.indexes.len()) >= MOST || rest < 1.0 || !r.once_in(4) {
        return;
    }
    if is_l2 {
        push(left, next, rest.sqrt().floor() as f32);
    } else {
        push(left, next, -rest as f32);
        push(right, next, 1.0);
    }
}
