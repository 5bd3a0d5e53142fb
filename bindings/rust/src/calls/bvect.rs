//! The calls on bit vectors. A vector is its dims and its words.

use super::{bounds, ordering, told};
use crate::{ffi, Refusal};
use std::cmp::Ordering;
use std::ops::RangeBounds;

pub(crate) type Bits<'a> = (u32, &'a [u64]);

#[derive(Clone, Copy)]
pub(crate) enum Distance {
    Dot,
    Hamming,
    Jaccard,
    JaccardOrNan,
}

#[derive(Clone, Copy)]
pub(crate) enum Operation {
    And,
    Or,
    Xor,
}

#[inline]
pub(crate) fn new_checked((dims, words): Bits<'_>) -> Result<(), Refusal> {
    let mut place = 0;
    // SAFETY: the list is a slice and the slot is ours.
    let number = unsafe { ffi::oxl_bvect_new_checked(dims, words.as_ptr(), words.len(), &mut place) };
    told(number, place)
}

/// Answers the dims and the number of words that were written.
#[inline]
pub(crate) fn zero(dims: u32, out: &mut [u64]) -> Result<(u32, usize), Refusal> {
    let (mut d, mut len, mut place) = (0, 0, 0);
    // SAFETY: the list is a slice that is lent to be written, and the slots are ours.
    let number = unsafe { ffi::oxl_bvect_zero(dims, out.as_mut_ptr(), out.len(), &mut d, &mut len, &mut place) };
    told(number, place)?;
    Ok((d, len))
}

#[inline]
pub(crate) fn get((dims, words): Bits<'_>, index: u32) -> Result<bool, Refusal> {
    let (mut yes, mut place) = (0, 0);
    // SAFETY: the list is a slice and the slots are ours.
    let number = unsafe { ffi::oxl_bvect_get(dims, words.as_ptr(), words.len(), index, &mut yes, &mut place) };
    told(number, place)?;
    Ok(yes == 1)
}

#[inline]
pub(crate) fn distance(which: Distance, (da, a): Bits<'_>, (db, b): Bits<'_>) -> Result<f32, Refusal> {
    let call = match which {
        Distance::Dot => ffi::oxl_bvect_operator_dot,
        Distance::Hamming => ffi::oxl_bvect_operator_hamming,
        Distance::Jaccard => ffi::oxl_bvect_operator_jaccard,
        Distance::JaccardOrNan => ffi::oxl_bvect_operator_jaccard_or_nan,
    };
    let (mut value, mut place) = (0.0, 0);
    // SAFETY: the lists are slices and the slots are ours.
    let number = unsafe { call(da, a.as_ptr(), a.len(), db, b.as_ptr(), b.len(), &mut value, &mut place) };
    told(number, place)?;
    Ok(value)
}

/// Answers the dims and the number of words that were written.
#[inline]
pub(crate) fn operation(
    which: Operation,
    (da, a): Bits<'_>,
    (db, b): Bits<'_>,
    out: &mut [u64],
) -> Result<(u32, usize), Refusal> {
    let call = match which {
        Operation::And => ffi::oxl_bvect_operator_and,
        Operation::Or => ffi::oxl_bvect_operator_or,
        Operation::Xor => ffi::oxl_bvect_operator_xor,
    };
    let (mut dims, mut len, mut place) = (0, 0, 0);
    let (left, right) = (a.as_ptr(), b.as_ptr());
    let (o, room) = (out.as_mut_ptr(), out.len());
    // SAFETY: the lists are slices, the one that is written is lent to be written, and the slots are ours.
    let number = unsafe { call(da, left, a.len(), db, right, b.len(), o, room, &mut dims, &mut len, &mut place) };
    told(number, place)?;
    Ok((dims, len))
}

/// Answers the dims and the number of words that were written.
#[inline]
pub(crate) fn subvector(
    (dims, words): Bits<'_>,
    range: &impl RangeBounds<u32>,
    out: &mut [u64],
) -> Result<(u32, usize), Refusal> {
    let ((from_kind, from), (to_kind, to)) = bounds(range);
    let (mut d, mut len, mut place) = (0, 0, 0);
    // SAFETY: the lists are slices, the one that is written is lent to be written, and the slots are ours.
    let number = unsafe {
        ffi::oxl_bvect_subvector(
            dims,
            words.as_ptr(),
            words.len(),
            from_kind,
            from,
            to_kind,
            to,
            out.as_mut_ptr(),
            out.len(),
            &mut d,
            &mut len,
            &mut place,
        )
    };
    told(number, place)?;
    Ok((d, len))
}

#[inline]
pub(crate) fn eq((da, a): Bits<'_>, (db, b): Bits<'_>) -> Result<bool, Refusal> {
    let (mut yes, mut place) = (0, 0);
    // SAFETY: the lists are slices and the slots are ours.
    let number = unsafe { ffi::oxl_bvect_eq(da, a.as_ptr(), a.len(), db, b.as_ptr(), b.len(), &mut yes, &mut place) };
    told(number, place)?;
    Ok(yes == 1)
}

#[inline]
pub(crate) fn partial_cmp((da, a): Bits<'_>, (db, b): Bits<'_>) -> Result<Option<Ordering>, Refusal> {
    let (mut order, mut place) = (0, 0);
    // SAFETY: the lists are slices and the slots are ours.
    let number =
        unsafe { ffi::oxl_bvect_partial_cmp(da, a.as_ptr(), a.len(), db, b.as_ptr(), b.len(), &mut order, &mut place) };
    told(number, place)?;
    Ok(ordering(order))
}
