//! Stands for the crate half. It is ours, and no evidence about that crate: a name for f16 that nothing computes with.
#[allow(non_camel_case_types)]
#[derive(Debug, Clone, Copy, Default, PartialEq, PartialOrd)]
#[repr(transparent)]
pub struct f16(pub u16);
