//! Bit vectors, sparse vectors and aggregate states: the proved calls of Oxlanyard in safe Rust.
//!
//! Every call answers every input. It is done, or it is refused with a [`Refusal`] that says why and where, and has
//! then changed nothing. What each answers is stated in a contract, and a prover has checked that the code keeps it;
//! docs/PROMISES.md of the repository has a row for each. This crate adds types to that and no arithmetic.
//!
//! | type | what it is |
//! |---|---|
//! | [`BVectBorrowed`], [`BVectOwned`] | a bit vector: which listings a page may show |
//! | [`SVectBorrowed`], [`SVectOwned`] | a sparse vector of `f32`: what describes a seller |
//! | [`State`] | an aggregate state in lent lists: the sum and the average of sparse rows |
//! | [`Aggregate`] | an aggregate state that owns its lists and grows by itself |
//!
//! A value of these types is always valid: constructors check. Names are those of the Rust original. An operation that
//! makes a vector has two forms: one answers an owned vector, and one, whose name ends in `_into`, writes to the front
//! of lists that are lent and allocates nothing. Behind the answer such a list is as it was; after a refusal, all is.
//!
//! ```
//! use oxlanyard::{BVectBorrowed, Reason, Refusal};
//!
//! fn visible(page: &[u64], unsold: &[u64], out: &mut [u64]) -> Result<u32, Refusal> {
//!     let page = BVectBorrowed::new_checked(130, page)?;
//!     let unsold = BVectBorrowed::new_checked(130, unsold)?;
//!     page.operator_and_into(unsold, out)?;
//!     Ok(-page.operator_dot(unsold)? as u32)
//! }
//!
//! let mut out = [0; 3];
//! assert_eq!(visible(&[0b0110, 0, 1], &[0b0011, 0, 1], &mut out), Ok(2));
//! assert_eq!(out, [0b0010, 0, 1]);
//!
//! // Bit 130 and above are no bits of the vector, so they must be clear.
//! let refusal = visible(&[0b0110, 0, 1 << 2], &[0b0011, 0, 1], &mut out).unwrap_err();
//! assert_eq!(refusal, Refusal { reason: Reason::Padding, place: 2 });
//! assert_eq!(refusal.to_string(), "a bit at or above dims is set in the last word, word 2 (PADDING, 6)");
//! ```
//!
//! The calls share nothing, so that any threads may call at once. Floats are computed in the default rounding mode.

#![warn(missing_docs)]
#![deny(unsafe_code)]

mod aggregate;
mod bvect;
#[allow(unsafe_code)]
mod calls;
pub mod ffi;
mod reads;
mod refusal;
mod state;
mod svect;

pub use aggregate::Aggregate;
pub use bvect::{BVectBorrowed, BVectOwned, BVECTOR_WIDTH};
pub use refusal::{Reason, Refusal};
pub use state::{capacity, Header, State, StateBorrowed};
pub use svect::{Merged, SVectBorrowed, SVectOwned, ThreeSums};
