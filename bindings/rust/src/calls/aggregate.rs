//! The calls on aggregate states. A state is its header and a pair of lists.

use super::svect::{Out, Sparse};
use super::told;
use crate::{ffi, Refusal};

/// A header as the calls take it: start, length, begun, dims, len, capacity, count.
pub(crate) type Numbers = [u64; 7];

/// A state that is only read.
pub(crate) type Read<'a> = (&'a Numbers, &'a [u32], &'a [f32]);

/// A state that is written.
pub(crate) type Write<'a> = (&'a mut Numbers, &'a mut [u32], &'a mut [f32]);

#[derive(Clone, Copy)]
pub(crate) enum Finish {
    Sum,
    Average,
}

#[inline]
pub(crate) fn fresh(start: usize, length: usize) -> Numbers {
    let mut h = [0; 7];
    // SAFETY: the header is ours and has seven numbers.
    unsafe { ffi::oxl_aggregate_fresh(start, length, h.as_mut_ptr()) };
    h
}

#[inline]
pub(crate) fn capacity(dims: u32, n: usize) -> usize {
    // SAFETY: the call takes two numbers.
    unsafe { ffi::oxl_aggregate_capacity(dims, n) }
}

#[inline]
pub(crate) fn check((h, i, v): Read<'_>) -> Result<(), Refusal> {
    let mut place = 0;
    // SAFETY: the header has seven numbers, the lists are slices and the slot is ours.
    let number = unsafe { ffi::oxl_aggregate_check(h.as_ptr(), i.as_ptr(), i.len(), v.as_ptr(), v.len(), &mut place) };
    told(number, place)
}

/// Answers the turns.
#[inline]
pub(crate) fn row((h, i, v): Write<'_>, (dims, bi, bv): Sparse<'_>) -> Result<usize, Refusal> {
    let (mut turns, mut place) = (0, 0);
    // SAFETY: the header and the state's lists are lent to be written, the row's are slices, and the slots are ours.
    let number = unsafe {
        ffi::oxl_aggregate_row(
            h.as_mut_ptr(),
            i.as_mut_ptr(),
            i.len(),
            v.as_mut_ptr(),
            v.len(),
            dims,
            bi.as_ptr(),
            bi.len(),
            bv.as_ptr(),
            bv.len(),
            &mut turns,
            &mut place,
        )
    };
    told(number, place)?;
    Ok(turns)
}

/// Answers the turns.
#[inline]
pub(crate) fn combine((h, i, v): Write<'_>, (other, bi, bv): Read<'_>) -> Result<usize, Refusal> {
    let (mut turns, mut place) = (0, 0);
    // SAFETY: the first header and its lists are lent to be written, the second's are read, and the slots are ours.
    let number = unsafe {
        ffi::oxl_aggregate_combine(
            h.as_mut_ptr(),
            i.as_mut_ptr(),
            i.len(),
            v.as_mut_ptr(),
            v.len(),
            other.as_ptr(),
            bi.as_ptr(),
            bi.len(),
            bv.as_ptr(),
            bv.len(),
            &mut turns,
            &mut place,
        )
    };
    told(number, place)?;
    Ok(turns)
}

/// Moves the state to the whole of the new lists, and answers the header that it has there.
#[inline]
pub(crate) fn move_to((h, i, v): Read<'_>, more: usize, (ci, cv): Out<'_>) -> Result<Numbers, Refusal> {
    let mut new = *h;
    let length = ci.len().min(cv.len());
    let (mut turns, mut place) = (0, 0);
    // SAFETY: header and slots are ours, the new lists are lent to be written, and the old ones are slices.
    let number = unsafe {
        ffi::oxl_aggregate_move_to(
            new.as_mut_ptr(),
            i.as_ptr(),
            i.len(),
            v.as_ptr(),
            v.len(),
            more,
            ci.as_mut_ptr(),
            ci.len(),
            cv.as_mut_ptr(),
            cv.len(),
            0,
            length,
            &mut turns,
            &mut place,
        )
    };
    told(number, place)?;
    Ok(new)
}

/// Answers the dims and the number of entries that were written.
#[inline]
pub(crate) fn finish(which: Finish, (h, i, v): Read<'_>, (oi, ov): Out<'_>) -> Result<(u32, usize), Refusal> {
    let call = match which {
        Finish::Sum => ffi::oxl_aggregate_sum,
        Finish::Average => ffi::oxl_aggregate_average,
    };
    let (mut dims, mut len, mut place) = (0, 0, 0);
    // SAFETY: the header has seven numbers, the outputs are lent to be written, and the slots are ours.
    let number = unsafe {
        call(
            h.as_ptr(),
            i.as_ptr(),
            i.len(),
            v.as_ptr(),
            v.len(),
            oi.as_mut_ptr(),
            oi.len(),
            ov.as_mut_ptr(),
            ov.len(),
            &mut dims,
            &mut len,
            &mut place,
        )
    };
    told(number, place)?;
    Ok((dims, len))
}
