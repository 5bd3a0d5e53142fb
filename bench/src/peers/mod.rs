//! What a user would pick instead: Eigen's SparseVector, and CRoaring. peers.cpp has the calls. A peer that was not
//! installed when the bench was compiled has no side.

/// The calls of Eigen, by the numbers of peers.cpp.
#[derive(Clone, Copy)]
pub enum Eigen {
    Add,
    Sub,
    Mul,
    Dot,
    L2,
    ThreeSums,
}

/// The calls of CRoaring, by the numbers of peers.cpp.
#[derive(Clone, Copy, PartialEq)]
pub enum Roaring {
    And,
    Or,
    Xor,
    OnesOfAnd,
    Hamming,
    Jaccard,
}

#[cfg(eigen)]
mod of_eigen;
#[cfg(eigen)]
pub use of_eigen::eigen;
#[cfg(roaring)]
mod of_roaring;
#[cfg(roaring)]
pub use of_roaring::roaring;

#[cfg(not(eigen))]
pub fn eigen(_: &[crate::data::Pair], _: Eigen) -> Option<crate::timing::Side<'static>> {
    None
}

#[cfg(not(roaring))]
pub fn roaring(_: &crate::cases::Two, _: Roaring) -> Option<crate::timing::Side<'static>> {
    None
}
