//! The cases: first the short ones, all of them; then random ones around every boundary, and damaged copies.
mod bits;
mod counts;
mod damage;
mod random;
mod runs;
mod short;
mod sparse;
mod values;

use random::Random;
use std::ops::Bound;

/// The calls of random cases, each as often as its share.
const SHARES: [(&str, usize); 31] = [
    ("svect check", 6),
    ("svect zero", 1),
    ("svect add", 9),
    ("svect sub", 9),
    ("svect mul", 8),
    ("svect dot", 6),
    ("svect l2", 6),
    ("svect eq", 6),
    ("svect order", 8),
    ("svect part", 8),
    ("bvect check", 5),
    ("bvect zero", 1),
    ("bvect get", 3),
    ("bvect and", 5),
    ("bvect or", 4),
    ("bvect xor", 4),
    ("bvect dot", 4),
    ("bvect hamming", 4),
    ("bvect jaccard", 3),
    ("bvect jaccard_or_nan", 5),
    ("bvect eq", 4),
    ("bvect order", 5),
    ("bvect part", 8),
    ("bit one", 2),
    ("bit counts", 4),
    ("bit and", 3),
    ("bit or", 2),
    ("bit xor", 2),
    ("aggregate capacity", 3),
    ("aggregate average", 23),
    ("aggregate run", 25),
];

/// So many cases, by a seed. At most a third of them are short ones, evenly chosen.
pub struct Cases {
    random: Random,
    short: Vec<String>,
    given: usize,
    left: u64,
    calls: Vec<&'static str>,
}

impl Cases {
    pub fn new(seed: u64, cases: u64) -> Cases {
        let all = short::all();
        let most = (cases / 3) as usize;
        let short = if all.len() <= most { all } else { spread(&all, most) };
        let calls = SHARES.iter().flat_map(|&(call, share)| vec![call; share]).collect();
        Cases { random: Random::new(seed), short, given: 0, left: cases, calls }
    }

    /// How many of the cases are short ones.
    pub fn short(&self) -> usize {
        self.short.len()
    }
}

/// So many of a list, at even distances.
pub fn spread(list: &[String], n: usize) -> Vec<String> {
    (0..n.min(list.len())).map(|k| list[k * list.len() / n.min(list.len())].clone()).collect()
}

impl Iterator for Cases {
    type Item = String;

    fn next(&mut self) -> Option<String> {
        if self.left == 0 {
            return None;
        }
        self.left -= 1;
        if self.given < self.short.len() {
            self.given += 1;
            return Some(std::mem::take(&mut self.short[self.given - 1]));
        }
        let call = self.random.one_of(&self.calls);
        Some(random_case(&self.random, call))
    }
}

fn random_case(r: &Random, call: &str) -> String {
    let (file, name) = call.split_once(' ').expect("a call has a file and a name");
    let rest = match (file, name) {
        ("svect", _) => sparse::operands(r, name),
        ("aggregate", "run") => runs::steps(r),
        ("aggregate", "average") => counts::average(r),
        ("aggregate", _) => runs::capacity(r),
        _ => bits::operands(r, name),
    };
    format!("{call} | {rest}")
}

pub fn bound_shown(bound: Bound<u32>) -> String {
    match bound {
        Bound::Included(n) => format!("={n}"),
        Bound::Excluded(n) => format!("!{n}"),
        Bound::Unbounded => "*".into(),
    }
}

/// Two bounds of a slice: mostly good ones, of all nine kinds.
fn bounds(r: &Random, dims: u32) -> String {
    let (a, b) = (place(r, dims), place(r, dims));
    let (start, end) = if r.once_in(12) { (a, b) } else { (a.min(b), a.max(b)) };
    let start = match r.below(3) {
        0 => Bound::Included(start),
        1 => Bound::Excluded(if start == 0 { 0 } else { start - 1 }),
        _ => Bound::Unbounded,
    };
    let end = match r.below(3) {
        0 => Bound::Included(if end == 0 { 0 } else { end - 1 }),
        1 => Bound::Excluded(end),
        _ => Bound::Unbounded,
    };
    format!("{} {}", bound_shown(start), bound_shown(end))
}

/// A place of a vector of such dims, often at an edge, seldom beyond.
fn place(r: &Random, dims: u32) -> u32 {
    match r.below(20) {
        0 => 0,
        1 => 1.min(dims),
        2 => dims.saturating_sub(1),
        3 => dims,
        4 => r.one_of(&[63, 64, 65, 127, 128]).min(dims),
        5 if r.once_in(4) => r.one_of(&[dims.saturating_add(1), u32::MAX - 1, u32::MAX]),
        _ => r.between(0, dims),
    }
}
