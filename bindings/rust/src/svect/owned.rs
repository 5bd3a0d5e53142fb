//! Sparse vectors that own their lists; equality and order.

use super::{SVectBorrowed, SVectOwned};
use crate::calls::svect as calls;
use crate::Refusal;
use std::cmp::Ordering;

impl SVectOwned {
    /// Checks lists and takes them for a vector. Refuses with DIMS, LENGTH, ORDER, INDEX, ZERO.
    #[inline]
    pub fn new_checked(dims: u32, indexes: Vec<u32>, values: Vec<f32>) -> Result<Self, Refusal> {
        calls::new_checked((dims, &indexes, &values))?;
        Ok(Self { dims, indexes, values })
    }

    /// The vector without entries. Refuses with DIMS.
    #[inline]
    pub fn zero(dims: u32) -> Result<Self, Refusal> {
        calls::zero(dims)?;
        Ok(Self { dims, indexes: Vec::new(), values: Vec::new() })
    }

    /// The vector, lent.
    #[inline]
    pub fn as_borrowed(&self) -> SVectBorrowed<'_> {
        SVectBorrowed { dims: self.dims, indexes: &self.indexes, values: &self.values }
    }

    /// The number of places.
    #[inline]
    pub fn dims(&self) -> u32 {
        self.dims
    }

    /// The number of entries.
    #[inline]
    pub fn len(&self) -> u32 {
        self.as_borrowed().len()
    }

    /// Whether there is no entry: every place is zero.
    #[inline]
    pub fn is_empty(&self) -> bool {
        self.indexes.is_empty()
    }

    /// The indexes that hold a value, in rising order.
    #[inline]
    pub fn indexes(&self) -> &[u32] {
        &self.indexes
    }

    /// The values, in the order of the indexes.
    #[inline]
    pub fn values(&self) -> &[f32] {
        &self.values
    }

    /// The lists themselves, to be used again.
    #[inline]
    pub fn into_lists(self) -> (Vec<u32>, Vec<f32>) {
        (self.indexes, self.values)
    }
}

impl<'a> From<&'a SVectOwned> for SVectBorrowed<'a> {
    #[inline]
    fn from(vector: &'a SVectOwned) -> Self {
        vector.as_borrowed()
    }
}

/// Equal dims and equal entries. A NaN equals nothing.
impl PartialEq for SVectBorrowed<'_> {
    #[inline]
    fn eq(&self, other: &Self) -> bool {
        calls::eq(self.sparse(), other.sparse()).expect("vectors are valid")
    }
}

/// The order of the dense vectors: the lowest place at which they differ decides, absent values counting as zero. There
/// is no order if dims differ, or where what decides is a NaN, on either side. A NaN behind it changes nothing.
///
/// Turned round, the answer is mirrored. Vectors of equal dims without NaN are always in order, and can be sorted:
///
/// ```
/// use oxlanyard::SVectOwned;
///
/// let row = |index, value| SVectOwned::new_checked(8, vec![index], vec![value]).unwrap();
/// let mut rows = vec![row(5, 1.0), row(3, 2.0), row(3, -1.0)];
/// rows.sort_by(|a, b| a.partial_cmp(b).expect("equal dims, no NaN"));
/// assert_eq!(rows, [row(3, -1.0), row(5, 1.0), row(3, 2.0)]);
///
/// let nan = row(3, f32::NAN);
/// assert_eq!((nan.partial_cmp(&rows[1]), rows[1].partial_cmp(&nan)), (None, None));
/// ```
///
/// The Rust original answers `Greater` both ways round for that last pair, and so did this call before.
impl PartialOrd for SVectBorrowed<'_> {
    #[inline]
    fn partial_cmp(&self, other: &Self) -> Option<Ordering> {
        calls::partial_cmp(self.sparse(), other.sparse()).expect("vectors are valid")
    }
}

/// As for [`SVectBorrowed`].
impl PartialEq for SVectOwned {
    #[inline]
    fn eq(&self, other: &Self) -> bool {
        self.as_borrowed() == other.as_borrowed()
    }
}

/// As for [`SVectBorrowed`].
impl PartialOrd for SVectOwned {
    #[inline]
    fn partial_cmp(&self, other: &Self) -> Option<Ordering> {
        self.as_borrowed().partial_cmp(&other.as_borrowed())
    }
}
