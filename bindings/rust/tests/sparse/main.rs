//! Sparse vectors through the safe types. Figures are of document 01 and crates/test_sparse/stdout.

mod order;
mod room;

use oxlanyard::{Reason, Refusal, SVectBorrowed, SVectOwned, ThreeSums};
use std::cmp::Ordering;
use std::ops::Bound::{self, Excluded, Included, Unbounded};

const INF: f32 = f32::INFINITY;

fn refused<T: std::fmt::Debug>(answer: Result<T, Refusal>) -> (Reason, usize) {
    let refusal = answer.unwrap_err();
    (refusal.reason, refusal.place)
}

fn sparse(dims: u32, entries: &[(u32, f32)]) -> SVectOwned {
    let (indexes, values) = entries.iter().copied().unzip();
    SVectOwned::new_checked(dims, indexes, values).unwrap()
}

fn entries(vector: SVectBorrowed<'_>) -> Vec<(u32, f32)> {
    vector.indexes().iter().copied().zip(vector.values().iter().copied()).collect()
}

fn a() -> SVectOwned {
    sparse(8, &[(1, 1.0), (4, -2.0)])
}

fn b() -> SVectOwned {
    sparse(8, &[(4, 2.0), (6, 0.5)])
}

/// P4, and the lines `check`.
#[test]
fn constructors_check() {
    for dims in [0, 1_048_576, u32::MAX] {
        assert_eq!(refused(SVectBorrowed::new_checked(dims, &[], &[])), (Reason::Dims, 0));
        assert_eq!(refused(SVectOwned::new_checked(dims, vec![], vec![])), (Reason::Dims, 0));
        assert_eq!(refused(SVectBorrowed::zero(dims)), (Reason::Dims, 0));
        assert_eq!(refused(SVectOwned::zero(dims)), (Reason::Dims, 0));
    }
    assert!(SVectBorrowed::new_checked(1_048_575, &[], &[]).unwrap().is_empty());
    assert_eq!(refused(SVectBorrowed::new_checked(8, &[1, 4], &[1.0])), (Reason::Length, 0));
    assert_eq!(refused(SVectBorrowed::new_checked(8, &[1, 4, 4], &[1.0; 3])), (Reason::Order, 2));
    assert_eq!(refused(SVectBorrowed::new_checked(8, &[1, 8], &[1.0; 2])), (Reason::Index, 1));
    assert_eq!(refused(SVectBorrowed::new_checked(8, &[1, 4], &[1.0, 0.0])), (Reason::Zero, 1));
    assert_eq!(refused(SVectBorrowed::new_checked(8, &[1, 4], &[-0.0, 1.0])), (Reason::Zero, 0));
    let tiny = f32::from_bits(1);
    let odd = [f32::NAN, INF, -INF, tiny, -tiny, f32::MAX];
    assert_eq!(SVectBorrowed::new_checked(6, &[0, 1, 2, 3, 4, 5], &odd).unwrap().len(), 6);
}

#[test]
fn parts_of_a_vector() {
    let vector = a();
    assert_eq!((vector.dims(), vector.len(), vector.is_empty()), (8, 2, false));
    assert_eq!((vector.indexes(), vector.values()), (&[1, 4][..], &[1.0, -2.0][..]));
    assert_eq!(SVectBorrowed::from(&vector).own(), vector);
    assert_eq!(vector.into_lists(), (vec![1, 4], vec![1.0, -2.0]));
    let zero = SVectOwned::zero(8).unwrap();
    assert_eq!((zero.dims(), zero.len(), zero.is_empty()), (8, 0, true));
    assert_eq!(zero.as_borrowed(), SVectBorrowed::zero(8).unwrap());
}

/// P1, P2, P3.
#[test]
fn merges() {
    let (a, b, other) = (a(), b(), SVectOwned::zero(9).unwrap());
    let (a, b, other) = (a.as_borrowed(), b.as_borrowed(), other.as_borrowed());
    assert_eq!(entries(a.operator_add(b).unwrap().as_borrowed()), [(1, 1.0), (6, 0.5)]);
    assert_eq!(entries(a.operator_sub(b).unwrap().as_borrowed()), [(1, 1.0), (4, -4.0), (6, -0.5)]);
    assert_eq!(entries(a.operator_mul(b).unwrap().as_borrowed()), [(4, -4.0)]);
    assert_eq!(refused(a.operator_add(other)), (Reason::Differ, 0));
    assert_eq!(refused(a.operator_sub(other)), (Reason::Differ, 0));
    assert_eq!(refused(a.operator_mul(other)), (Reason::Differ, 0));

    let (mut i, mut v) = ([7; 5], [7.5; 5]);
    assert_eq!(refused(a.operator_add_into(b, &mut i[..3], &mut v)), (Reason::Room, 4));
    assert_eq!(refused(a.operator_sub_into(b, &mut i, &mut v[..3])), (Reason::Room, 4));
    assert_eq!(refused(a.operator_mul_into(b, &mut i[..1], &mut v)), (Reason::Room, 2));
    assert_eq!(refused(a.operator_mul_into(other, &mut i, &mut v)), (Reason::Differ, 0));
    assert_eq!((i, v), ([7; 5], [7.5; 5]));
    let sum = a.operator_add_into(b, &mut i, &mut v).unwrap();
    assert_eq!((entries(sum.vector), sum.turns), (vec![(1, 1.0), (6, 0.5)], 3));
    assert_eq!((i, v), ([1, 6, 7, 7, 7], [1.0, 0.5, 7.5, 7.5, 7.5]));
    let less = a.operator_sub_into(b, &mut i, &mut v).unwrap();
    assert_eq!((less.vector.dims(), less.vector.len(), less.turns), (8, 3, 3));
    assert_eq!((i, v), ([1, 4, 6, 7, 7], [1.0, -4.0, -0.5, 7.5, 7.5]));
    let times = a.operator_mul_into(b, &mut i, &mut v).unwrap();
    assert_eq!((times.vector.dims(), times.vector.len(), times.turns), (8, 1, 2));
    assert_eq!((i, v), ([4, 4, 6, 7, 7], [-4.0, -4.0, -0.5, 7.5, 7.5]));
}

/// One-sided values pass untouched. What cancels or underflows to a zero of either sign is dropped.
#[test]
fn odd_values() {
    let tiny = f32::from_bits(1);
    let left = sparse(8, &[(0, INF), (1, INF), (2, tiny), (3, tiny), (4, f32::NAN)]);
    let right = sparse(8, &[(1, -INF), (2, -tiny), (3, 0.5), (5, -INF)]);
    let (left, right) = (left.as_borrowed(), right.as_borrowed());
    let sum = left.operator_add(right).unwrap();
    assert_eq!(sum.indexes(), [0, 1, 3, 4, 5]);
    let values = sum.values();
    assert_eq!((values[0], values[2], values[4]), (INF, 0.5, -INF));
    assert!(values[1].is_nan() && values[3].is_nan());
    // tiny * -tiny and tiny * 0.5 round to zero, the latter as a tie to even.
    assert_eq!(entries(left.operator_mul(right).unwrap().as_borrowed()), [(1, -INF)]);
    let none = SVectBorrowed::zero(8).unwrap();
    assert!(none.operator_add(none).unwrap().is_empty());
    assert_eq!(entries(none.operator_sub(right).unwrap().as_borrowed())[0], (1, INF));
    assert_eq!(none.operator_dot(none).unwrap().to_bits(), 0x8000_0000);
    assert_eq!(none.operator_l2(none).unwrap().to_bits(), 0);
}

/// The lines `dot A and B`, `l2 A and B`, `three A and B`.
#[test]
fn sums() {
    let (a, b, other) = (a(), b(), SVectOwned::zero(9).unwrap());
    let (a, b, other) = (a.as_borrowed(), b.as_borrowed(), other.as_borrowed());
    assert_eq!(a.operator_dot(b).unwrap().to_bits(), 0x4080_0000);
    assert_eq!(a.operator_l2(b).unwrap().to_bits(), 0x418a_0000);
    assert_eq!(a.three_sums(b).unwrap(), ThreeSums { xy: -4.0, x2: 5.0, y2: 4.25 });
    assert_eq!(refused(a.operator_dot(other)), (Reason::Differ, 0));
    assert_eq!(refused(a.operator_l2(other)), (Reason::Differ, 0));
    assert_eq!(refused(a.three_sums(other)), (Reason::Differ, 0));
}

/// Each step is rounded once: the square of 1 + 2^-12 rounds to 1 + 2^-11, so that the sum is +0. Fused with the
/// addition it would leave 2^-24.
#[test]
fn no_step_is_fused() {
    let x = sparse(2, &[(0, -1.0), (1, 1.000_244_1)]);
    let y = sparse(2, &[(0, 1.000_488_3), (1, 1.000_244_1)]);
    assert_eq!((x.values()[1].to_bits(), y.values()[0].to_bits()), (0x3f80_0800, 0x3f80_1000));
    let sums = x.as_borrowed().three_sums(y.as_borrowed()).unwrap();
    assert_eq!(sums.xy.to_bits(), 0);
    assert_eq!(x.as_borrowed().operator_dot(y.as_borrowed()).unwrap().to_bits(), 0x8000_0000);
}

/// Start: n, n + 1, 0. End: n + 1, n, dims.
#[test]
fn bounds_of_all_nine_kinds() {
    let all = [(0, 1.0), (3, 2.0), (4, 3.0), (9, 4.0)];
    let vector = sparse(10, &all);
    let starts = [(Included(3), 3), (Excluded(3), 4), (Unbounded, 0)];
    let ends = [(Included(9), 10), (Excluded(9), 9), (Unbounded, 10)];
    for (from, start) in starts {
        for (to, end) in ends {
            let part = vector.as_borrowed().subvector((from, to)).unwrap();
            let kept = all.into_iter().filter(|(i, _)| (start..end).contains(i));
            let expected: Vec<(u32, f32)> = kept.map(|(i, x)| (i - start, x)).collect();
            assert_eq!(part.dims(), end - start, "{from:?} {to:?}");
            assert_eq!(entries(part.as_borrowed()), expected, "{from:?} {to:?}");
        }
    }
}

/// P6 and P7, and the ends of u32.
#[test]
fn bad_bounds_and_room() {
    let vector = a();
    let vector = vector.as_borrowed();
    let bad: [(Bound<u32>, Bound<u32>); 6] = [
        (Included(3), Excluded(3)),
        (Included(4), Excluded(3)),
        (Unbounded, Excluded(9)),
        (Unbounded, Included(8)),
        (Excluded(u32::MAX), Unbounded),
        (Unbounded, Included(u32::MAX)),
    ];
    let (mut i, mut v) = ([7; 2], [7.5; 2]);
    for range in bad {
        assert_eq!(refused(vector.subvector(range)), (Reason::Bounds, 0));
        assert_eq!(refused(vector.subvector_into(range, &mut i, &mut v)), (Reason::Bounds, 0));
    }
    assert_eq!(refused(vector.subvector_into(.., &mut i, &mut v[..1])), (Reason::Room, 2));
    assert_eq!((i, v), ([7; 2], [7.5; 2]));
    let part = vector.subvector_into(4.., &mut i, &mut v).unwrap();
    assert_eq!((part.dims(), entries(part)), (4, vec![(0, -2.0)]));
    assert_eq!((i, v), ([0, 7], [-2.0, 7.5]));
}

/// P10, dims that differ, and NaN.
#[test]
fn equality_and_order() {
    let (less, none, nan) = (sparse(4, &[(1, -1.0)]), sparse(4, &[]), sparse(4, &[(1, f32::NAN)]));
    assert_eq!(less.partial_cmp(&none), Some(Ordering::Less));
    assert_eq!(none.partial_cmp(&less), Some(Ordering::Greater));
    assert_eq!(less.partial_cmp(&less), Some(Ordering::Equal));
    assert_eq!(nan.partial_cmp(&nan), None);
    assert_eq!(nan.partial_cmp(&none), None);
    assert_eq!(none.partial_cmp(&sparse(5, &[])), None);
    assert!(less == less.clone() && less != none && none != sparse(5, &[]));
    assert!(nan != nan.clone());
}
