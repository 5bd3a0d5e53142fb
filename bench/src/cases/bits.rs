//! Bit vectors of 65,535 bits: AND, OR, XOR, counts, slice.
use super::{copying, Bench};
use crate::data::{Maker, BITS};
use crate::peers::{self, Roaring};
use crate::targets::{of_copy, of_rust, of_twin};
use crate::timing::{Side, COPY, OURS, OWNED, RUST, TWIN};
use base::scalar::bit;
use base::vector::{BVectBorrowed, BVectOwned, VectorBorrowed, VectorOwned};
use std::hint::black_box;

type Ours<'a> = oxlanyard::BVectBorrowed<'a>;
type Rust<'a> = BVectBorrowed<'a>;

fn ours(words: &[u64]) -> Ours<'_> {
    Ours::new_checked(BITS, words).expect("a valid vector")
}

/// The words of two vectors.
pub type Two = [Vec<u64>; 2];

/// The three ways of a call that makes a vector: ours to a lent list, ours with a list of its own, and the Rust's.
struct Words<'a> {
    lent: for<'o> fn(Ours<'a>, Ours<'a>, &'o mut [u64]) -> Ours<'o>,
    owned: fn(Ours<'a>, Ours<'a>) -> oxlanyard::BVectOwned,
    rust: fn(Rust<'a>, Rust<'a>) -> BVectOwned,
}

fn words<'a>(two: &'a Two, words: Words<'a>, peer: Roaring) -> Vec<Side<'a>> {
    let (a, b) = (ours(&two[0]), ours(&two[1]));
    let (x, y) = (Rust::new(BITS, &two[0]), Rust::new(BITS, &two[1]));
    let mut out = vec![0; two[0].len()];
    let its = (words.rust)(x, y);
    assert!((words.lent)(a, b, &mut out).data() == its.as_borrowed().data(), "the words differ");
    assert!((words.owned)(a, b).data() == its.as_borrowed().data(), "the words differ");
    let mut sides = vec![
        Side::new(OURS, move || {
            black_box((words.lent)(black_box(a), black_box(b), &mut out));
        }),
        Side::new(RUST, move || {
            black_box((words.rust)(black_box(x), black_box(y)));
        }),
        Side::new(OWNED, move || {
            black_box((words.owned)(black_box(a), black_box(b)));
        }),
        Side::new(COPY, copying(its.as_borrowed().data())),
    ];
    sides.extend(peers::roaring(two, peer));
    sides
}

type Count<T> = fn(T, T) -> f32;

fn count<'a>(two: &'a Two, count: Count<Ours<'a>>, rust_count: Count<Rust<'a>>, peer: Roaring) -> Vec<Side<'a>> {
    let (a, b) = (ours(&two[0]), ours(&two[1]));
    let (x, y) = (Rust::new(BITS, &two[0]), Rust::new(BITS, &two[1]));
    assert_eq!(count(a, b).to_bits(), rust_count(x, y).to_bits());
    let mut sides = vec![
        Side::new(OURS, move || {
            black_box(count(black_box(a), black_box(b)));
        }),
        Side::new(RUST, move || {
            black_box(rust_count(black_box(x), black_box(y)));
        }),
    ];
    sides.extend(peers::roaring(two, peer));
    sides
}

/// One of the two calls of Jaccard, and the other as its twin.
fn jaccard<'a>(two: &'a Two, call: Count<Ours<'a>>, twin: Count<Ours<'a>>) -> Vec<Side<'a>> {
    let (a, b) = (ours(&two[0]), ours(&two[1]));
    assert_eq!(call(a, b).to_bits(), twin(a, b).to_bits());
    let mut sides = count(two, call, |a, b| a.operator_jaccard(b).to_f32(), Roaring::Jaccard);
    sides.push(Side::new(TWIN, move || {
        black_box(twin(black_box(a), black_box(b)));
    }));
    sides
}

fn slice(words: &[u64], start: u32) -> Vec<Side<'_>> {
    let bounds = move || start..start + 65_000;
    let (a, x) = (ours(words), Rust::new(BITS, words));
    let mut out = vec![0; words.len()];
    let its = x.subvector(bounds()).expect("good bounds");
    let lent = a.subvector_into(bounds(), &mut out).expect("good bounds");
    assert!(lent.data() == its.as_borrowed().data(), "the words differ");
    vec![
        Side::new(OURS, move || {
            black_box(black_box(a).subvector_into(bounds(), &mut out).expect("good bounds"));
        }),
        Side::new(RUST, move || {
            black_box(black_box(x).subvector(bounds()).expect("good bounds"));
        }),
        Side::new(OWNED, move || {
            black_box(black_box(a).subvector(bounds()).expect("good bounds"));
        }),
        Side::new(COPY, copying(its.as_borrowed().data())),
    ]
}

macro_rules! words {
    ($lent:ident, $owned:ident, $rust:expr) => {
        Words {
            lent: |a, b, out| a.$lent(b, out).expect("valid vectors"),
            owned: |a, b| a.$owned(b).expect("valid vectors"),
            rust: $rust,
        }
    };
}

/// The Rust's operator_and reads its left side twice. This is what it would be, by its own vector_and.
fn rust_and(a: Rust, b: Rust) -> BVectOwned {
    assert_eq!(a.dims(), b.dims());
    BVectOwned::new(a.dims(), bit::vector_and(a.data(), b.data()))
}

macro_rules! count {
    ($two:expr, $name:ident, $peer:expr) => {
        count($two, |a, b| a.$name(b).expect("valid vectors"), |a, b| a.$name(b).to_f32(), $peer)
    };
}

pub fn run(bench: &mut Bench) {
    let mut maker = Maker::new(8);
    let two = [maker.bits(), maker.bits()];
    let and = words!(operator_and_into, operator_and, |a, b| rust_and(a, b));
    let or = words!(operator_or_into, operator_or, |a, b| a.operator_or(b));
    let xor = words!(operator_xor_into, operator_xor, |a, b| a.operator_xor(b));
    let target = bench.by_build(of_rust(0.9), None);
    bench.case("AND, 65,535 bits", target, || words(&two, and, Roaring::And));
    bench.case("OR, 65,535 bits", target, || words(&two, or, Roaring::Or));
    bench.case("XOR, 65,535 bits", target, || words(&two, xor, Roaring::Xor));
    let target = of_rust(0.9);
    bench.case("ones of AND, 65,535 bits", target, || count!(&two, operator_dot, Roaring::OnesOfAnd));
    bench.case("Hamming, 65,535 bits", target, || count!(&two, operator_hamming, Roaring::Hamming));
    let by_default: Count<Ours> = |a, b| a.operator_jaccard(b).expect("valid vectors");
    let or_nan: Count<Ours> = |a, b| a.operator_jaccard_or_nan(b).expect("valid vectors");
    let targets = || target.into_iter().chain(of_twin(1.05));
    bench.case("Jaccard, 65,535 bits", targets(), || jaccard(&two, by_default, or_nan));
    bench.case("Jaccard or NaN, 65,535 bits", targets(), || jaccard(&two, or_nan, by_default));
    for start in [0, 3, 63, 64] {
        let targets = [of_rust(0.003), of_copy(2.0)].into_iter().flatten();
        bench.case(&format!("bit slice, 65,000 bits from bit {start}"), targets, || slice(&two[0], start));
    }
}
