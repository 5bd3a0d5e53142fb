//! The raw calls on what no safe type holds. The cases of the replay go further for sparse vectors and states.

use oxlanyard::ffi::*;
use std::ptr::{null, null_mut};

/// What stands in slots before a call.
const OLD: u32 = 7;

/// A vector of 66 bits with ones at 63, 64 and 65, cut with bounds of any kind.
fn slice(from: (u32, u32), to: (u32, u32), room: usize) -> (u32, u32, usize, usize, [u64; 2]) {
    let (words, mut out) = ([1 << 63, 3], [u64::MAX; 2]);
    let (mut dims, mut len, mut place) = (OLD, 7, 7);
    let (w, o) = (words.as_ptr(), out.as_mut_ptr());
    // SAFETY: the lists are arrays of our own, not shorter than is said, and so are the slots.
    let number =
        unsafe { oxl_bvect_subvector(66, w, 2, from.0, from.1, to.0, to.1, o, room, &mut dims, &mut len, &mut place) };
    (number, dims, len, place, out)
}

#[test]
fn kinds_of_bounds() {
    assert_eq!(slice((0, 63), (1, 66), 2), (0, 3, 1, 0, [7, u64::MAX]));
    assert_eq!(slice((1, 62), (0, 65), 2), (0, 3, 1, 0, [7, u64::MAX]));
    // The number of an unbounded one is not looked at.
    assert_eq!(slice((0, 63), (2, 1), 2), (0, 3, 1, 0, [7, u64::MAX]));
    assert_eq!(slice((2, u32::MAX), (2, u32::MAX), 2), (0, 66, 2, 0, [1 << 63, 3]));
    for kind in [3, 4, u32::MAX] {
        assert_eq!(slice((kind, 0), (2, 0), 2), (8, 0, 0, 0, [u64::MAX; 2]));
        assert_eq!(slice((2, 0), (kind, 66), 2), (8, 0, 0, 0, [u64::MAX; 2]));
        // BOUNDS comes before ROOM.
        assert_eq!(slice((kind, 0), (2, 0), 0), (8, 0, 0, 0, [u64::MAX; 2]));
    }
    assert_eq!(slice((2, 0), (2, 0), 1), (9, 0, 0, 2, [u64::MAX; 2]));
}

/// The vector {1: 1.0, 4: -2.0} of dims 8, cut with bounds of any kind.
fn cut(from: (u32, u32), to: (u32, u32), room: usize) -> (u32, u32, usize, usize, [u32; 2]) {
    let (indexes, values, mut oi, mut ov) = ([1, 4], [1.0, -2.0], [OLD; 2], [7.5; 2]);
    let (mut dims, mut len, mut place) = (OLD, 7, 7);
    let (i, v, o, p) = (indexes.as_ptr(), values.as_ptr(), oi.as_mut_ptr(), ov.as_mut_ptr());
    let slots = (&mut dims, &mut len, &mut place);
    // SAFETY: the lists are arrays of our own, not shorter than is said, and so are the slots.
    let number = unsafe {
        oxl_svect_subvector(8, i, 2, v, 2, from.0, from.1, to.0, to.1, o, room, p, room, slots.0, slots.1, slots.2)
    };
    (number, dims, len, place, oi)
}

/// P6 and P7, and kinds that there are none of.
#[test]
fn kinds_of_bounds_of_sparse_vectors() {
    assert_eq!(cut((0, 4), (2, 0), 2), (0, 4, 1, 0, [0, OLD]));
    assert_eq!(cut((1, 0), (0, 4), 2), (0, 4, 2, 0, [0, 3]));
    assert_eq!(cut((0, 3), (1, 3), 2), (8, 0, 0, 0, [OLD; 2]));
    for kind in [3, 4, u32::MAX] {
        assert_eq!(cut((kind, 0), (2, 0), 2), (8, 0, 0, 0, [OLD; 2]));
        assert_eq!(cut((2, 0), (kind, 8), 2), (8, 0, 0, 0, [OLD; 2]));
        assert_eq!(cut((2, 0), (kind, 8), 0), (8, 0, 0, 0, [OLD; 2]));
    }
    assert_eq!(cut((2, 0), (2, 0), 1), (9, 0, 0, 2, [OLD; 2]));
}

/// Refusals of two bit vectors in order: left, right, DIFFER, ROOM.
#[test]
fn refusals_of_two_bit_vectors() {
    let call = |dims_a: u32, a: &[u64], dims_b: u32, b: &[u64], room: usize| {
        let (mut out, mut dims, mut len, mut place) = ([u64::MAX; 2], OLD, 7, 7);
        let (left, right, o) = (a.as_ptr(), b.as_ptr(), out.as_mut_ptr());
        let slots = (&mut dims, &mut len, &mut place);
        // SAFETY: the lists are slices, or arrays of our own that are not shorter than is said; the slots are ours.
        let number = unsafe {
            oxl_bvect_operator_and(dims_a, left, a.len(), dims_b, right, b.len(), o, room, slots.0, slots.1, slots.2)
        };
        assert_eq!((dims, len, out), (0, 0, [u64::MAX; 2]));
        (number, place)
    };
    assert_eq!(call(0, &[], 0, &[0], 0), (1, 0));
    assert_eq!(call(65, &[0], 0, &[0], 0), (2, 0));
    assert_eq!(call(65, &[0, 2], 0, &[0], 0), (6, 1));
    assert_eq!(call(65, &[0, 1], 0, &[0], 0), (1, 0));
    assert_eq!(call(65, &[0, 1], 66, &[0], 0), (2, 0));
    assert_eq!(call(65, &[0, 1], 1, &[2], 0), (6, 0));
    assert_eq!(call(65, &[0, 1], 66, &[0, 1], 0), (7, 0));
    assert_eq!(call(65, &[0, 1], 65, &[0, 1], 1), (9, 2));
}

/// A float slot is left as it was by a refusal; the place is set.
#[test]
fn floats_beside_a_refusal() {
    let jaccards = [oxl_bvect_operator_jaccard, oxl_bvect_operator_jaccard_or_nan];
    for call in [oxl_bvect_operator_dot, oxl_bvect_operator_hamming].into_iter().chain(jaccards) {
        let (words, mut value, mut place) = ([1_u64], -7.5, 7);
        // SAFETY: the lists are an array of our own, and so are the slots.
        let number = unsafe { call(1, words.as_ptr(), 1, 2, words.as_ptr(), 1, &mut value, &mut place) };
        assert_eq!((number, value, place), (7, -7.5, 0));
    }
}

/// A list without entries may be null.
#[test]
fn null_for_no_entries() {
    let (mut dims, mut len, mut turns, mut place) = (OLD, 7, 7, 7);
    let (i, v) = (null(), null());
    // SAFETY: all lists are empty, and the slots are ours.
    unsafe {
        assert_eq!(oxl_bvect_new_checked(1, null(), 0, &mut place), 2);
        assert_eq!(oxl_bvect_zero(64, null_mut(), 0, &mut dims, &mut len, &mut place), 9);
        assert_eq!((dims, len, place), (0, 0, 1));
        assert_eq!(oxl_svect_new_checked(8, i, 0, v, 0, &mut place), 0);
        let (oi, ov) = (null_mut(), null_mut());
        let (d, l, t, p) = (&mut dims, &mut len, &mut turns, &mut place);
        assert_eq!(oxl_svect_operator_add(8, i, 0, v, 0, 8, i, 0, v, 0, oi, 0, ov, 0, d, l, t, p), 0);
        assert_eq!((dims, len, turns, place), (8, 0, 0, 0));
        let mut h = [7; 7];
        oxl_aggregate_fresh(0, 0, h.as_mut_ptr());
        assert_eq!(oxl_aggregate_check(h.as_ptr(), i, 0, v, 0, &mut place), 0);
        assert_eq!(oxl_aggregate_row(h.as_mut_ptr(), oi, 0, ov, 0, 8, i, 0, v, 0, &mut turns, &mut place), 9);
        assert_eq!((h, turns, place), ([0; 7], 0, 8));
    }
}

/// The state {1: 1.0} of dims 8 in eight places, and one without rows, each with a number that no header has; or a count
/// that a header without rows does not have, or one with rows.
fn headers() -> Vec<[u64; 7]> {
    let (begun, fresh) = ([0, 8, 1, 8, 1, 8, 1], [0, 8, 0, 0, 0, 0, 0]);
    let wide = 1 << 32;
    let changes = [
        (begun, 2, 2),
        (begun, 3, 8 + wide),
        (begun, 6, 0),
        (fresh, 2, 2),
        (fresh, 2, u64::MAX),
        (fresh, 3, wide),
        (fresh, 6, wide),
    ];
    let changed = changes.map(|(mut h, at, number)| {
        h[at] = number;
        h
    });
    changed.to_vec()
}

/// Numbers that no header has are an inconsistent header in every call, and the header stays as it was.
#[test]
fn numbers_that_no_header_has() {
    let good = [0, 8, 1, 8, 1, 8, 1];
    let mut old = [9; 16];
    old[0] = 1;
    for h in headers() {
        let (mut i, mut v) = ([1, 2, 2, 2, 2, 2, 2, 2], [1.0; 8]);
        let (mut oi, mut ov) = (old, [9.5; 16]);
        let (mut mine, mut first) = (h, good);
        let (mut dims, mut len, mut turns, mut place) = (OLD, 7, 7, 7);
        let (a, x, c, y) = (i.as_mut_ptr(), v.as_mut_ptr(), oi.as_mut_ptr(), ov.as_mut_ptr());
        let (t, p, hp) = (&mut turns, &mut place, mine.as_mut_ptr());
        let (ones, is) = ([1, 2], [1.0; 2]);
        let (bi, bv) = (ones.as_ptr(), is.as_ptr());
        // SAFETY: the lists are arrays of our own as long as is said, nothing overlaps, and the slots are ours.
        unsafe {
            assert_eq!(oxl_aggregate_check(h.as_ptr(), a, 8, x, 8, p), 13);
            assert_eq!(oxl_aggregate_row(hp, a, 8, x, 8, 8, bi, 2, bv, 2, t, p), 13);
            assert_eq!(oxl_aggregate_combine(hp, a, 8, x, 8, good.as_ptr(), c, 16, y, 16, t, p), 13);
            assert_eq!(oxl_aggregate_combine(first.as_mut_ptr(), c, 16, y, 16, h.as_ptr(), a, 8, x, 8, t, p), 13);
            assert_eq!(oxl_aggregate_move_to(hp, a, 8, x, 8, 8, c, 16, y, 16, 0, 16, t, p), 13);
            assert_eq!(oxl_aggregate_sum(h.as_ptr(), a, 8, x, 8, c, 16, y, 16, &mut dims, &mut len, p), 13);
            assert_eq!((dims, len), (0, 0));
            assert_eq!(oxl_aggregate_average(h.as_ptr(), a, 8, x, 8, c, 16, y, 16, &mut dims, &mut len, p), 13);
            // The row comes before the state, and the region before the header.
            assert_eq!(oxl_aggregate_row(hp, a, 8, x, 8, 0, bi, 2, bv, 2, t, p), 1);
            assert_eq!(oxl_aggregate_row(hp, a, 7, x, 8, 8, bi, 2, bv, 2, t, p), 9);
        }
        assert_eq!((mine, first, turns, place), (h, good, 0, 8));
        assert_eq!((i, v, oi, ov), ([1, 2, 2, 2, 2, 2, 2, 2], [1.0; 8], old, [9.5; 16]));
    }
}
