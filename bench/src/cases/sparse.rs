//! Sparse vectors: add, sub, mul, dot, L2, three sums, check, slice.
use super::{copying, grouped, Bench};
use crate::data::{Maker, Pair, Sparse, DIMS};
use crate::peers::{self, Eigen};
use crate::targets::{of_better, of_rust};
use crate::timing::{Side, COPY, OURS, OWNED, RUST};
use base::scalar::ScalarLike;
use base::vector::{SVectBorrowed, SVectOwned, VectorBorrowed};
use oxlanyard::ThreeSums;
use std::hint::black_box;

pub type Ours<'a> = oxlanyard::SVectBorrowed<'a>;
pub type Rust<'a> = SVectBorrowed<'a, f32>;

pub fn ours(v: &Sparse) -> Ours<'_> {
    Ours::new_checked(DIMS, &v.indexes, &v.values).expect("a valid vector")
}

pub fn rust(v: &Sparse) -> Rust<'_> {
    Rust::new(DIMS, &v.indexes, &v.values)
}

pub fn same(ours: (&[u32], &[f32]), rust: (&[u32], &[f32])) {
    assert!(ours.0 == rust.0, "the indexes differ");
    let bits = |v: &[f32]| v.iter().map(|x| x.to_bits()).collect::<Vec<_>>();
    assert!(bits(ours.1) == bits(rust.1), "the values differ");
}

/// Gives the things in turn, again and again.
pub fn in_turn<T: Clone>(things: Vec<T>) -> impl FnMut() -> T {
    let mut at = things.len();
    move || {
        at = if at + 1 >= things.len() { 0 } else { at + 1 };
        things[at].clone()
    }
}

/// Both vectors of each pair, as a side has them.
fn both<'a, T>(pairs: &'a [Pair], of: fn(&'a Sparse) -> T) -> Vec<(T, T)> {
    pairs.iter().map(|p| (of(&p.a), of(&p.b))).collect()
}

/// The three ways of a call that makes a vector: ours to lent lists, ours with lists of its own, and the Rust's.
pub struct Merge<'a> {
    /// The room that a pair asks for.
    pub room: fn(&Pair) -> usize,
    pub lent: for<'o> fn(Ours<'a>, Ours<'a>, &'o mut [u32], &'o mut [f32]) -> Ours<'o>,
    pub owned: fn(Ours<'a>, Ours<'a>) -> oxlanyard::SVectOwned,
    pub rust: fn(Rust<'a>, Rust<'a>) -> SVectOwned<f32>,
}

macro_rules! merge {
    ($room:ident, $lent:ident, $owned:ident) => {
        Merge {
            room: $room,
            lent: |a, b, i, v| a.$lent(b, i, v).expect("valid vectors").vector,
            owned: |a, b| a.$owned(b).expect("valid vectors"),
            rust: |a, b| a.$owned(b),
        }
    };
}

fn of_both(pair: &Pair) -> usize {
    (pair.a.indexes.len() + pair.b.indexes.len()).min(DIMS as usize)
}

fn of_the_shorter(pair: &Pair) -> usize {
    pair.a.indexes.len().min(pair.b.indexes.len())
}

pub fn add<'a>() -> Merge<'a> {
    merge!(of_both, operator_add_into, operator_add)
}

fn sub<'a>() -> Merge<'a> {
    merge!(of_both, operator_sub_into, operator_sub)
}

fn mul<'a>() -> Merge<'a> {
    merge!(of_the_shorter, operator_mul_into, operator_mul)
}

pub fn merged<'a>(pairs: &'a [Pair], merge: Merge<'a>) -> Vec<Side<'a>> {
    let room = pairs.iter().map(merge.room).max().unwrap_or(0);
    let (mut indexes, mut values) = (vec![0; room], vec![0.0; room]);
    for pair in pairs {
        let its = (merge.rust)(rust(&pair.a), rust(&pair.b));
        let lent = (merge.lent)(ours(&pair.a), ours(&pair.b), &mut indexes, &mut values);
        same((lent.indexes(), lent.values()), (its.indexes(), its.values()));
        let owned = (merge.owned)(ours(&pair.a), ours(&pair.b));
        same((owned.indexes(), owned.values()), (its.indexes(), its.values()));
    }
    let (mut lent, mut owned, mut its) =
        (in_turn(both(pairs, ours)), in_turn(both(pairs, ours)), in_turn(both(pairs, rust)));
    vec![
        Side::new(OURS, move || {
            let (a, b) = lent();
            black_box((merge.lent)(black_box(a), black_box(b), &mut indexes, &mut values));
        }),
        Side::new(RUST, move || {
            let (a, b) = its();
            black_box((merge.rust)(black_box(a), black_box(b)));
        }),
        Side::new(OWNED, move || {
            let (a, b) = owned();
            black_box((merge.owned)(black_box(a), black_box(b)));
        }),
    ]
}

/// A call that makes one number or more.
fn folded<'a, const N: usize>(
    pairs: &'a [Pair],
    fold: fn(Ours<'a>, Ours<'a>) -> [f32; N],
    rust_fold: fn(Rust<'a>, Rust<'a>) -> [f32; N],
) -> Vec<Side<'a>> {
    for pair in pairs {
        let its = rust_fold(rust(&pair.a), rust(&pair.b));
        assert_eq!(fold(ours(&pair.a), ours(&pair.b)).map(f32::to_bits), its.map(f32::to_bits));
    }
    let (mut turn, mut its) = (in_turn(both(pairs, ours)), in_turn(both(pairs, rust)));
    vec![
        Side::new(OURS, move || {
            let (a, b) = turn();
            black_box(fold(black_box(a), black_box(b)));
        }),
        Side::new(RUST, move || {
            let (a, b) = its();
            black_box(rust_fold(black_box(a), black_box(b)));
        }),
    ]
}

pub fn dot(pairs: &[Pair]) -> Vec<Side<'_>> {
    folded(pairs, |a, b| [a.operator_dot(b).expect("valid vectors")], |a, b| [a.operator_dot(b).to_f32()])
}

fn l2(pairs: &[Pair]) -> Vec<Side<'_>> {
    folded(pairs, |a, b| [a.operator_l2(b).expect("valid vectors")], |a, b| [a.operator_l2(b).to_f32()])
}

/// The Rust has no call for the three sums. This is how its cosine takes them.
fn rust_three_sums(a: Rust, b: Rust) -> [f32; 3] {
    let xy = f32::reduce_sum_of_sparse_xy(a.indexes(), a.values(), b.indexes(), b.values());
    [xy, f32::reduce_sum_of_x2(a.values()), f32::reduce_sum_of_x2(b.values())]
}

fn three_sums(pairs: &[Pair]) -> Vec<Side<'_>> {
    let fold = |a: Ours, b| {
        let ThreeSums { xy, x2, y2 } = a.three_sums(b).expect("valid vectors");
        [xy, x2, y2]
    };
    folded(pairs, fold, |a, b| rust_three_sums(a, b))
}

pub fn check(vectors: &[Sparse]) -> Vec<Side<'_>> {
    let (mut turn, mut its) = (in_turn(vectors.iter().collect()), in_turn(vectors.iter().collect()));
    vec![
        Side::new(OURS, move || {
            black_box(ours(black_box(turn())));
        }),
        Side::new(RUST, move || {
            black_box(rust(black_box(its())));
        }),
    ]
}

fn slice(v: &Sparse) -> Vec<Side<'_>> {
    let bounds = || DIMS / 4..DIMS / 4 * 3;
    let room = v.indexes.len();
    let (mut indexes, mut values) = (vec![0; room], vec![0.0; room]);
    let its = rust(v).subvector(bounds()).expect("good bounds");
    let lent = ours(v).subvector_into(bounds(), &mut indexes, &mut values).expect("good bounds");
    same((lent.indexes(), lent.values()), (its.indexes(), its.values()));
    let (mut copy_indexes, mut copy_values) = (copying(its.indexes()), copying(its.values()));
    let (a, b) = (ours(v), rust(v));
    vec![
        Side::new(OURS, move || {
            black_box(black_box(a).subvector_into(bounds(), &mut indexes, &mut values).expect("good bounds"));
        }),
        Side::new(RUST, move || {
            black_box(black_box(b).subvector(bounds()).expect("good bounds"));
        }),
        Side::new(OWNED, move || {
            black_box(black_box(a).subvector(bounds()).expect("good bounds"));
        }),
        Side::new(COPY, move || {
            copy_indexes();
            copy_values();
        }),
    ]
}

fn with<'a>(mut sides: Vec<Side<'a>>, peer: Option<Side<'a>>) -> Vec<Side<'a>> {
    sides.extend(peer);
    sides
}

/// The calls on pairs of n entries each.
fn on_pairs(bench: &mut Bench, pairs: &[Pair], n: usize, percent: usize) {
    let name = |call: &str| format!("{call}, {} entries each, overlap {percent}%", grouped(n as u64));
    let peer = |call| peers::eigen(pairs, call);
    let target = bench.by_build(of_rust(if percent < 90 { 0.6 } else { 0.75 }), of_rust(0.9));
    bench.case(&name("add"), target, || with(merged(pairs, add()), peer(Eigen::Add)));
    bench.case(&name("sub"), target, || with(merged(pairs, sub()), peer(Eigen::Sub)));
    let target = of_better(if percent < 90 { 0.8 } else { 1.0 });
    bench.case(&name("mul"), target, || with(merged(pairs, mul()), peer(Eigen::Mul)));
    bench.case(&name("dot"), target, || with(dot(pairs), peer(Eigen::Dot)));
    bench.case(&name("L2"), target, || with(l2(pairs), peer(Eigen::L2)));
    bench.case(&name("three sums"), target, || with(three_sums(pairs), peer(Eigen::ThreeSums)));
}

pub fn run(bench: &mut Bench) {
    let mut maker = Maker::new(7);
    for n in [1_000, 100_000] {
        for percent in [10, 50, 90] {
            on_pairs(bench, &maker.pairs(n, percent), n, percent);
        }
    }
    let vectors = [maker.vector(100_000), maker.vector(100_000)];
    bench.case("check, 100,000 entries", of_rust(0.4), || check(&vectors));
    let target = bench.by_build(of_rust(0.9), None);
    bench.case("sparse slice, half of 100,000 entries", target, || slice(&vectors[0]));
}
