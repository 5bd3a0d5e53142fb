//! Bit vectors through the safe types. Figures are of document 01 and crates/test_bits/stdout.

use oxlanyard::{BVectBorrowed, BVectOwned, Reason, Refusal};
use std::cmp::Ordering;
use std::ops::Bound::{self, Excluded, Included, Unbounded};

const OLD: u64 = 0xeeee_eeee_eeee_eeee;

fn refused<T: std::fmt::Debug>(answer: Result<T, Refusal>) -> (Reason, usize) {
    let refusal = answer.unwrap_err();
    (refusal.reason, refusal.place)
}

fn bits(dims: u32, words: &[u64]) -> BVectBorrowed<'_> {
    BVectBorrowed::new_checked(dims, words).unwrap()
}

/// P5, and the lines `check`.
#[test]
fn constructors_check() {
    assert_eq!(refused(BVectBorrowed::new_checked(65, &[0, 2])), (Reason::Padding, 1));
    assert_eq!(bits(65, &[0, 1]).data(), [0, 1]);
    assert_eq!(refused(BVectOwned::new_checked(130, vec![0, 0, 4])), (Reason::Padding, 2));
    assert_eq!(refused(BVectOwned::new_checked(65, vec![0])), (Reason::Length, 0));
    assert_eq!(refused(BVectOwned::new_checked(65, vec![])), (Reason::Length, 0));
    for dims in [0, 65_536, u32::MAX] {
        assert_eq!(refused(BVectBorrowed::new_checked(dims, &[0])), (Reason::Dims, 0));
        assert_eq!(refused(BVectOwned::zero(dims)), (Reason::Dims, 0));
        assert_eq!(refused(BVectBorrowed::zero_into(dims, &mut [0])), (Reason::Dims, 0));
    }
    let full = BVectOwned::new_checked(64, vec![u64::MAX]).unwrap();
    assert_eq!((full.dims(), full.data(), full.clone().into_data()), (64, &[u64::MAX][..], vec![u64::MAX]));
    assert_eq!(BVectBorrowed::from(&full).own(), full);
}

/// The lines `zero dims 65 room ..`.
#[test]
fn zero() {
    assert_eq!(BVectOwned::zero(65).unwrap().data(), [0, 0]);
    assert_eq!(BVectOwned::zero(65_535).unwrap().data(), [0; 1024]);
    let mut out = [OLD; 3];
    assert_eq!(refused(BVectBorrowed::zero_into(65, &mut out[..1])), (Reason::Room, 2));
    assert_eq!(out, [OLD; 3]);
    assert_eq!(BVectBorrowed::zero_into(65, &mut out).unwrap().data(), [0, 0]);
    assert_eq!(out, [0, 0, OLD]);
}

#[test]
fn get() {
    let vector = bits(130, &[1 << 63, 1, 2]);
    let set: Vec<u32> = (0..130).filter(|&index| vector.get(index).unwrap()).collect();
    assert_eq!(set, [63, 64, 129]);
    assert_eq!(refused(vector.get(130)), (Reason::Index, 130));
    assert_eq!(refused(vector.get(u32::MAX)), (Reason::Index, u32::MAX as usize));
}

/// P8 and P9.
#[test]
fn distances() {
    let (a, b, none) = (bits(4, &[12]), bits(4, &[10]), bits(4, &[0]));
    assert_eq!(a.operator_dot(b).unwrap().to_bits(), 0xbf80_0000);
    assert_eq!(a.operator_hamming(b).unwrap().to_bits(), 0x4000_0000);
    assert_eq!(a.operator_jaccard(b).unwrap().to_bits(), 0x3f2a_aaaa);
    assert_eq!(a.operator_jaccard_or_nan(b).unwrap().to_bits(), 0x3f2a_aaaa);
    assert_eq!(none.operator_dot(none).unwrap().to_bits(), 0x8000_0000);
    assert_eq!(none.operator_hamming(none).unwrap().to_bits(), 0);
    assert_eq!(none.operator_jaccard(none).unwrap().to_bits(), 0);
    assert!(none.operator_jaccard_or_nan(none).unwrap().is_nan());
    let other = bits(5, &[12]);
    assert_eq!(refused(a.operator_dot(other)), (Reason::Differ, 0));
    assert_eq!(refused(a.operator_hamming(other)), (Reason::Differ, 0));
    assert_eq!(refused(a.operator_jaccard(other)), (Reason::Differ, 0));
    assert_eq!(refused(a.operator_jaccard_or_nan(other)), (Reason::Differ, 0));
}

/// Both calls of Jaccard on every two vectors of up to 5 bits: they differ for two without ones, and for no others.
#[test]
fn jaccard_of_short_vectors() {
    for dims in 1..=5 {
        for (a, b) in (0..1_u64 << dims).flat_map(|a| (0..1 << dims).map(move |b| (a, b))) {
            let (x, y) = ([a], [b]);
            let by_default = bits(dims, &x).operator_jaccard(bits(dims, &y)).unwrap();
            let or_nan = bits(dims, &x).operator_jaccard_or_nan(bits(dims, &y)).unwrap();
            if a | b == 0 {
                assert!(by_default.to_bits() == 0 && or_nan.is_nan());
            } else {
                let due = 1.0 - (a & b).count_ones() as f32 / (a | b).count_ones() as f32;
                assert_eq!(
                    [by_default.to_bits(), or_nan.to_bits()],
                    [due.to_bits(); 2],
                    "{dims} bits, {a:b} and {b:b}"
                );
            }
        }
    }
}

/// Vectors without ones, around the ends of words and at the limit; and what a single one changes.
#[test]
fn jaccard_without_ones() {
    for dims in [1_u32, 63, 64, 65, 127, 128, 129, 65_534, 65_535] {
        let words = vec![0; dims.div_ceil(64) as usize];
        let none = bits(dims, &words);
        assert_eq!(none.operator_jaccard(none).unwrap().to_bits(), 0);
        assert!(none.operator_jaccard_or_nan(none).unwrap().is_nan());
        for at in [0, dims / 2, dims - 1] {
            let mut words = words.clone();
            words[at as usize / 64] |= 1 << (at % 64);
            let one = bits(dims, &words);
            for (a, b, due) in [(one, none, 1.0_f32), (none, one, 1.0), (one, one, 0.0)] {
                assert_eq!(a.operator_jaccard(b).unwrap().to_bits(), due.to_bits());
                assert_eq!(a.operator_jaccard_or_nan(b).unwrap().to_bits(), due.to_bits());
            }
        }
    }
}

/// P8. The Rust's `operator_and` would answer 12.
#[test]
fn operations() {
    let (a, b, other) = (bits(4, &[12]), bits(4, &[10]), bits(5, &[10]));
    assert_eq!(a.operator_and(b).unwrap().data(), [8]);
    assert_eq!(a.operator_or(b).unwrap().data(), [14]);
    assert_eq!(a.operator_xor(b).unwrap().data(), [6]);
    assert_eq!(refused(a.operator_and(other)), (Reason::Differ, 0));
    assert_eq!(refused(a.operator_or(other)), (Reason::Differ, 0));
    assert_eq!(refused(a.operator_xor(other)), (Reason::Differ, 0));

    let mut out = [OLD; 2];
    assert_eq!(refused(a.operator_and_into(b, &mut [])), (Reason::Room, 1));
    assert_eq!(refused(a.operator_or_into(b, &mut [])), (Reason::Room, 1));
    assert_eq!(refused(a.operator_xor_into(b, &mut [])), (Reason::Room, 1));
    assert_eq!(refused(a.operator_xor_into(other, &mut out)), (Reason::Differ, 0));
    assert_eq!(out, [OLD; 2]);
    assert_eq!(a.operator_and_into(b, &mut out).unwrap(), bits(4, &[8]));
    assert_eq!(out, [8, OLD]);
    assert_eq!(a.operator_or_into(b, &mut out).unwrap(), bits(4, &[14]));
    assert_eq!(out, [14, OLD]);
    assert_eq!(a.operator_xor_into(b, &mut out).unwrap(), bits(4, &[6]));
    assert_eq!(out, [6, OLD]);
}

/// Start: n, n + 1, 0. End: n + 1, n, dims.
#[test]
fn bounds_of_all_nine_kinds() {
    let vector = bits(130, &[1 << 63, 1, 2]);
    let starts = [(Included(63), 63), (Excluded(63), 64), (Unbounded, 0)];
    let ends = [(Included(129), 130), (Excluded(129), 129), (Unbounded, 130)];
    for (from, start) in starts {
        for (to, end) in ends {
            let part = vector.subvector((from, to)).unwrap();
            let set: Vec<u32> = (0..end - start).filter(|&index| part.as_borrowed().get(index).unwrap()).collect();
            let expected: Vec<u32> = [63, 64, 129].into_iter().filter(|i| (start..end).contains(i)).collect();
            assert_eq!(part.dims(), end - start, "{from:?} {to:?}");
            assert_eq!(set, expected.iter().map(|i| i - start).collect::<Vec<_>>(), "{from:?} {to:?}");
        }
    }
}

#[test]
fn bad_bounds_and_room() {
    let vector = bits(130, &[1 << 63, 1, 2]);
    let bad: [(Bound<u32>, Bound<u32>); 6] = [
        (Included(3), Excluded(3)),
        (Included(4), Excluded(3)),
        (Unbounded, Excluded(131)),
        (Unbounded, Included(130)),
        (Excluded(u32::MAX), Unbounded),
        (Unbounded, Included(u32::MAX)),
    ];
    let mut out = [OLD; 3];
    for range in bad {
        assert_eq!(refused(vector.subvector(range)), (Reason::Bounds, 0));
        assert_eq!(refused(vector.subvector_into(range, &mut out)), (Reason::Bounds, 0));
    }
    assert_eq!(refused(vector.subvector_into(.., &mut out[..2])), (Reason::Room, 3));
    assert_eq!(out, [OLD; 3]);
    assert_eq!(vector.subvector_into(63..65, &mut out).unwrap().data(), [3]);
    assert_eq!(out, [3, OLD, OLD]);
}

/// The words of the bits of a part, read one by one.
fn bit_by_bit(vector: BVectBorrowed<'_>, start: u32, len: u32) -> Vec<u64> {
    let mut words = vec![0; len.div_ceil(64) as usize];
    for i in (0..len).filter(|i| vector.get(start + i).unwrap()) {
        words[i as usize / 64] |= 1 << (i % 64);
    }
    words
}

/// A part is held to its bits. What is lent behind its words stays.
fn expect_part(vector: BVectBorrowed<'_>, start: u32, len: u32) {
    let mut out = vec![OLD; len.div_ceil(64) as usize + 2];
    let part = vector.subvector_into(start..start + len, &mut out).unwrap();
    assert_eq!(part.dims(), len, "{start} {len}");
    let mut expected = bit_by_bit(vector, start, len);
    expected.extend([OLD; 2]);
    assert_eq!(out, expected, "{start} {len}");
}

#[test]
fn parts_of_every_start_and_length() {
    let words = [0x9e37_79b9_7f4a_7c15, 0xf39c_c060_5ced_c834, 0x1082_276b_f3a2_7251, 0xf86c_6a11_d0c1_8e95, 0xb];
    let vector = bits(260, &words);
    for start in 0..=130 {
        for len in 1..=130 {
            expect_part(vector, start, len);
        }
    }
}

#[test]
fn the_end_of_the_longest_vector() {
    let mut words: Vec<u64> = (1..=1024).map(|i: u64| i.wrapping_mul(0x9e37_79b9_7f4a_7c15)).collect();
    words[1023] >>= 1;
    let vector = bits(65_535, &words);
    for len in [1, 63, 64, 65, 65_535] {
        expect_part(vector, 65_535 - len, len);
    }
}

/// P10, and dims that differ.
#[test]
fn equality_and_order() {
    let (one, two, other) = (bits(4, &[1]), bits(4, &[2]), bits(5, &[1]));
    assert_eq!(one.partial_cmp(&two), Some(Ordering::Greater));
    assert_eq!(two.partial_cmp(&one), Some(Ordering::Less));
    assert_eq!(one.partial_cmp(&one), Some(Ordering::Equal));
    assert_eq!(one.partial_cmp(&other), None);
    assert!(one == one && one != two && one != other && one > two);
    assert!(one.own() == one.own() && one.own() > two.own() && one.own() != other.own());
}
