//! Stands for the crate serde. It is ours, and no evidence about that crate: its two traits hold of everything, and the
//! derives make nothing.
pub use standin_macros::{Deserialize, Serialize};

pub trait Serialize {}
impl<T: ?Sized> Serialize for T {}

pub trait Deserialize<'de> {}
impl<'de, T> Deserialize<'de> for T {}
