//! The calls as the archive has them, for those who want no layer above.
//!
//! `include/oxlanyard.h` says for each what it refuses with and what its slots hold. A list is a pointer and a length;
//! a header is seven `u64`. The number that a call returns is 0 if it was done, or that of a [`Reason`](crate::Reason).
//!
//! # Safety
//!
//! Of every call: a list's pointer is valid for as many entries as its length says, and so is a header's for seven; a
//! slot's pointer is valid; and nothing that the call writes overlaps anything else that is given to it. That is all:
//! no call asks anything of the numbers in the lists.

#![allow(clippy::too_many_arguments)]

mod aggregate;
mod bvect;
mod svect;

pub use aggregate::*;
pub use bvect::*;
pub use svect::*;
