//! Stands for the crate detect, which picks a version of a function for the processor. It is ours, and no evidence
//! about that crate: here a function has the one version that is written in plain Rust.
pub use standin_macros::{multiversion, target_cpu};
