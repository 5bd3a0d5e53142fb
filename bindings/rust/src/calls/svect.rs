//! The calls on sparse vectors. A vector is its dims, its indexes and its values.

use super::{bounds, ordering, told};
use crate::{ffi, Refusal, ThreeSums};
use std::cmp::Ordering;
use std::ops::RangeBounds;

pub(crate) type Sparse<'a> = (u32, &'a [u32], &'a [f32]);
pub(crate) type Out<'a> = (&'a mut [u32], &'a mut [f32]);

#[derive(Clone, Copy)]
pub(crate) enum Distance {
    Dot,
    L2,
}

#[derive(Clone, Copy)]
pub(crate) enum Operation {
    Add,
    Sub,
    Mul,
}

/// A call with the lists of two vectors, and what else it takes.
macro_rules! of_two {
    ($call:expr, $a:expr, $b:expr, $($more:expr),*) => {{
        let ((da, ia, va), (db, ib, vb)) = ($a, $b);
        $call(
            da, ia.as_ptr(), ia.len(), va.as_ptr(), va.len(),
            db, ib.as_ptr(), ib.len(), vb.as_ptr(), vb.len(),
            $($more),*
        )
    }};
}

#[inline]
pub(crate) fn new_checked((dims, i, v): Sparse<'_>) -> Result<(), Refusal> {
    let mut place = 0;
    // SAFETY: the lists are slices and the slot is ours.
    let number = unsafe { ffi::oxl_svect_new_checked(dims, i.as_ptr(), i.len(), v.as_ptr(), v.len(), &mut place) };
    told(number, place)
}

#[inline]
pub(crate) fn zero(dims: u32) -> Result<(), Refusal> {
    let (mut d, mut len, mut place) = (0, 0, 0);
    // SAFETY: the slots are ours.
    let number = unsafe { ffi::oxl_svect_zero(dims, &mut d, &mut len, &mut place) };
    told(number, place)
}

#[inline]
pub(crate) fn distance(which: Distance, a: Sparse<'_>, b: Sparse<'_>) -> Result<f32, Refusal> {
    let call = match which {
        Distance::Dot => ffi::oxl_svect_operator_dot,
        Distance::L2 => ffi::oxl_svect_operator_l2,
    };
    let (mut value, mut place) = (0.0, 0);
    // SAFETY: the lists are slices and the slots are ours.
    let number = unsafe { of_two!(call, a, b, &mut value, &mut place) };
    told(number, place)?;
    Ok(value)
}

#[inline]
pub(crate) fn three_sums(a: Sparse<'_>, b: Sparse<'_>) -> Result<ThreeSums, Refusal> {
    let (mut xy, mut x2, mut y2, mut place) = (0.0, 0.0, 0.0, 0);
    // SAFETY: the lists are slices and the slots are ours.
    let number = unsafe { of_two!(ffi::oxl_svect_three_sums, a, b, &mut xy, &mut x2, &mut y2, &mut place) };
    told(number, place)?;
    Ok(ThreeSums { xy, x2, y2 })
}

/// Answers the dims, the number of entries that were written, and the turns.
#[inline]
pub(crate) fn operation(
    which: Operation,
    a: Sparse<'_>,
    b: Sparse<'_>,
    (oi, ov): Out<'_>,
) -> Result<(u32, usize, usize), Refusal> {
    let call = match which {
        Operation::Add => ffi::oxl_svect_operator_add,
        Operation::Sub => ffi::oxl_svect_operator_sub,
        Operation::Mul => ffi::oxl_svect_operator_mul,
    };
    let (mut dims, mut len, mut turns, mut place) = (0, 0, 0, 0);
    let (i, n, v, m) = (oi.as_mut_ptr(), oi.len(), ov.as_mut_ptr(), ov.len());
    // SAFETY: the lists are slices, those that are written are lent to be written, and the slots are ours.
    let number = unsafe { of_two!(call, a, b, i, n, v, m, &mut dims, &mut len, &mut turns, &mut place) };
    told(number, place)?;
    Ok((dims, len, turns))
}

/// Answers the dims and the number of entries that were written.
#[inline]
pub(crate) fn subvector(
    (dims, i, v): Sparse<'_>,
    range: &impl RangeBounds<u32>,
    (oi, ov): Out<'_>,
) -> Result<(u32, usize), Refusal> {
    let ((from_kind, from), (to_kind, to)) = bounds(range);
    let (mut d, mut len, mut place) = (0, 0, 0);
    // SAFETY: the lists are slices, those that are written are lent to be written, and the slots are ours.
    let number = unsafe {
        ffi::oxl_svect_subvector(
            dims,
            i.as_ptr(),
            i.len(),
            v.as_ptr(),
            v.len(),
            from_kind,
            from,
            to_kind,
            to,
            oi.as_mut_ptr(),
            oi.len(),
            ov.as_mut_ptr(),
            ov.len(),
            &mut d,
            &mut len,
            &mut place,
        )
    };
    told(number, place)?;
    Ok((d, len))
}

#[inline]
pub(crate) fn eq(a: Sparse<'_>, b: Sparse<'_>) -> Result<bool, Refusal> {
    let (mut yes, mut place) = (0, 0);
    // SAFETY: the lists are slices and the slots are ours.
    let number = unsafe { of_two!(ffi::oxl_svect_eq, a, b, &mut yes, &mut place) };
    told(number, place)?;
    Ok(yes == 1)
}

#[inline]
pub(crate) fn partial_cmp(a: Sparse<'_>, b: Sparse<'_>) -> Result<Option<Ordering>, Refusal> {
    let (mut order, mut place) = (0, 0);
    // SAFETY: the lists are slices and the slots are ours.
    let number = unsafe { of_two!(ffi::oxl_svect_partial_cmp, a, b, &mut order, &mut place) };
    told(number, place)?;
    Ok(ordering(order))
}
