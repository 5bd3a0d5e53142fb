//! The calls of [`ffi`](crate::ffi) with slices for pointers and `Result` for numbers. All that is unsafe in this crate
//! is below this module.
//!
//! One reason makes every call here safe: pointers and lengths are those of slices or of slots of our own, and what is
//! written comes in as `&mut`, so that it overlaps nothing else. The calls ask nothing more of what they are given.

pub(crate) mod aggregate;
pub(crate) mod bvect;
pub(crate) mod svect;

use crate::{Reason, Refusal};
use std::cmp::Ordering;
use std::ops::{Bound, RangeBounds};

/// What a call returned: its number, and the place that it set.
#[inline]
fn told(number: u32, place: usize) -> Result<(), Refusal> {
    if number == 0 {
        return Ok(());
    }
    let reason = Reason::from_number(number).expect("a call returns 0 to 14");
    Err(Refusal { reason, place })
}

/// The kind and the number of a bound, as the calls take it.
#[inline]
fn bound(bound: Bound<&u32>) -> (u32, u32) {
    match bound {
        Bound::Included(n) => (0, *n),
        Bound::Excluded(n) => (1, *n),
        Bound::Unbounded => (2, 0),
    }
}

/// Both bounds of a slice.
#[inline]
fn bounds(range: &impl RangeBounds<u32>) -> ((u32, u32), (u32, u32)) {
    (bound(range.start_bound()), bound(range.end_bound()))
}

/// The order that a slot says: 1 less, 2 equal, 3 greater, 4 unordered.
#[inline]
fn ordering(order: u32) -> Option<Ordering> {
    match order {
        1 => Some(Ordering::Less),
        2 => Some(Ordering::Equal),
        3 => Some(Ordering::Greater),
        _ => None,
    }
}
