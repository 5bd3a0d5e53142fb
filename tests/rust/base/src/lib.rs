//! Stands for crates/base/src/lib.rs. It is ours, and no evidence about that file: the Rust's asks for features of an
//! unstable compiler and names modules that are not in the text. Declared here is what the ported files lean on.
#![allow(clippy::all)]
pub mod always_equal;
pub mod distance;
pub mod pod;
pub mod scalar;
pub mod search;
pub mod vector;
