//! Bit vectors.

use crate::calls::bvect::{self as calls, Bits, Distance, Operation};
use crate::Refusal;
use std::cmp::Ordering;
use std::ops::RangeBounds;

/// The number of bits in a word.
pub const BVECTOR_WIDTH: u32 = u64::BITS;

/// A bit vector in lent words. It has 1 to 65,535 bits; bit i is bit i % 64 of word i / 64.
///
/// ```
/// use oxlanyard::{BVectBorrowed, Refusal};
///
/// // The listings of a page, and those that are not sold.
/// let page = BVectBorrowed::new_checked(4, &[0b1100])?;
/// let unsold = BVectBorrowed::new_checked(4, &[0b1010])?;
/// assert_eq!(page.operator_and(unsold)?.data(), [0b1000]);
/// assert_eq!(page.operator_hamming(unsold)?, 2.0);
/// # Ok::<(), Refusal>(())
/// ```
#[derive(Clone, Copy, Debug)]
pub struct BVectBorrowed<'a> {
    dims: u32,
    data: &'a [u64],
}

/// A bit vector that owns its words.
#[derive(Clone, Debug)]
pub struct BVectOwned {
    dims: u32,
    data: Vec<u64>,
}

/// Writes to a list that is lent, and answers the vector that then stands in front of it.
#[inline]
fn lent(
    out: &mut [u64],
    write: impl FnOnce(&mut [u64]) -> Result<(u32, usize), Refusal>,
) -> Result<BVectBorrowed<'_>, Refusal> {
    let (dims, len) = write(out)?;
    Ok(BVectBorrowed { dims, data: &out[..len] })
}

/// Writes to a list of the length `room`, and answers the vector that owns it.
#[inline]
fn owned(room: usize, write: impl FnOnce(&mut [u64]) -> Result<(u32, usize), Refusal>) -> Result<BVectOwned, Refusal> {
    let mut data = vec![0; room];
    let (dims, len) = write(&mut data)?;
    data.truncate(len);
    Ok(BVectOwned { dims, data })
}

/// The words that so many bits take, or none if no vector has so many.
#[inline]
fn room(dims: u32) -> usize {
    if dims <= 65_535 {
        dims.div_ceil(BVECTOR_WIDTH) as usize
    } else {
        0
    }
}

impl<'a> BVectBorrowed<'a> {
    /// Checks words and takes them for a vector. Refuses with DIMS, LENGTH, PADDING.
    #[inline]
    pub fn new_checked(dims: u32, data: &'a [u64]) -> Result<Self, Refusal> {
        calls::new_checked((dims, data))?;
        Ok(Self { dims, data })
    }

    /// Writes a vector without ones to the front of `out`. Refuses with DIMS, ROOM.
    ///
    /// ```
    /// let mut out = [7; 3];
    /// let zero = oxlanyard::BVectBorrowed::zero_into(65, &mut out)?;
    /// assert_eq!((zero.dims(), zero.data()), (65, &[0, 0][..]));
    /// assert_eq!(out, [0, 0, 7]);
    /// # Ok::<(), oxlanyard::Refusal>(())
    /// ```
    #[inline]
    pub fn zero_into(dims: u32, out: &'a mut [u64]) -> Result<Self, Refusal> {
        lent(out, |out| calls::zero(dims, out))
    }

    /// The number of bits.
    #[inline]
    pub fn dims(&self) -> u32 {
        self.dims
    }

    /// The words. Bits at and above dims are clear.
    #[inline]
    pub fn data(&self) -> &'a [u64] {
        self.data
    }

    /// A copy that owns its words.
    #[inline]
    pub fn own(&self) -> BVectOwned {
        BVectOwned { dims: self.dims, data: self.data.to_vec() }
    }

    #[inline]
    fn bits(&self) -> Bits<'a> {
        (self.dims, self.data)
    }

    /// The bit at an index. Refuses with INDEX if the index is not below dims.
    #[inline]
    pub fn get(&self, index: u32) -> Result<bool, Refusal> {
        calls::get(self.bits(), index)
    }

    /// The negated number of common ones. Refuses with DIFFER.
    #[inline]
    pub fn operator_dot(self, rhs: Self) -> Result<f32, Refusal> {
        calls::distance(Distance::Dot, self.bits(), rhs.bits())
    }

    /// The number of differing bits. Refuses with DIFFER.
    #[inline]
    pub fn operator_hamming(self, rhs: Self) -> Result<f32, Refusal> {
        calls::distance(Distance::Hamming, self.bits(), rhs.bits())
    }

    /// 1 less the quotient of common ones and ones of either. Two vectors without ones are alike: +0. It is never NaN.
    /// Refuses with DIFFER.
    ///
    /// The Rust original answers NaN for two vectors without ones, and so did this call before. Who counts those NaNs
    /// calls [`operator_jaccard_or_nan`](Self::operator_jaccard_or_nan).
    ///
    /// ```
    /// # use oxlanyard::{BVectBorrowed, Refusal};
    /// let bare = BVectBorrowed::new_checked(4, &[0])?;
    /// assert_eq!(bare.operator_jaccard(bare)?, 0.0);
    /// assert!(bare.operator_jaccard_or_nan(bare)?.is_nan());
    /// # Ok::<(), Refusal>(())
    /// ```
    #[inline]
    pub fn operator_jaccard(self, rhs: Self) -> Result<f32, Refusal> {
        calls::distance(Distance::Jaccard, self.bits(), rhs.bits())
    }

    /// As [`operator_jaccard`](Self::operator_jaccard), but NaN for two vectors without ones, and for no others: the
    /// answer of the Rust original. Refuses with DIFFER.
    #[inline]
    pub fn operator_jaccard_or_nan(self, rhs: Self) -> Result<f32, Refusal> {
        calls::distance(Distance::JaccardOrNan, self.bits(), rhs.bits())
    }

    /// The ones that both have. Refuses with DIFFER.
    ///
    /// This is AND of the left side and the right. The Rust original reads its left side twice.
    #[inline]
    pub fn operator_and(self, rhs: Self) -> Result<BVectOwned, Refusal> {
        self.owned(Operation::And, rhs)
    }

    /// The ones that either has. Refuses with DIFFER.
    #[inline]
    pub fn operator_or(self, rhs: Self) -> Result<BVectOwned, Refusal> {
        self.owned(Operation::Or, rhs)
    }

    /// The ones that just one of them has. Refuses with DIFFER.
    #[inline]
    pub fn operator_xor(self, rhs: Self) -> Result<BVectOwned, Refusal> {
        self.owned(Operation::Xor, rhs)
    }

    /// As [`operator_and`](Self::operator_and), to the front of `out`. Refuses with DIFFER, ROOM (words needed).
    #[inline]
    pub fn operator_and_into<'o>(self, rhs: Self, out: &'o mut [u64]) -> Result<BVectBorrowed<'o>, Refusal> {
        lent(out, |out| calls::operation(Operation::And, self.bits(), rhs.bits(), out))
    }

    /// As [`operator_or`](Self::operator_or), to the front of `out`. Refuses with DIFFER, ROOM (words needed).
    #[inline]
    pub fn operator_or_into<'o>(self, rhs: Self, out: &'o mut [u64]) -> Result<BVectBorrowed<'o>, Refusal> {
        lent(out, |out| calls::operation(Operation::Or, self.bits(), rhs.bits(), out))
    }

    /// As [`operator_xor`](Self::operator_xor), to the front of `out`. Refuses with DIFFER, ROOM (words needed).
    #[inline]
    pub fn operator_xor_into<'o>(self, rhs: Self, out: &'o mut [u64]) -> Result<BVectBorrowed<'o>, Refusal> {
        lent(out, |out| calls::operation(Operation::Xor, self.bits(), rhs.bits(), out))
    }

    #[inline]
    fn owned(self, which: Operation, rhs: Self) -> Result<BVectOwned, Refusal> {
        owned(self.data.len(), |out| calls::operation(which, self.bits(), rhs.bits(), out))
    }

    /// The bits of a range, from its start on. Refuses with BOUNDS if it is empty or reaches beyond dims.
    ///
    /// ```
    /// let mask = oxlanyard::BVectOwned::new_checked(8, vec![0b1011_0110])?;
    /// let part = mask.as_borrowed().subvector(4..)?;
    /// assert_eq!((part.dims(), part.data()), (4, &[0b1011][..]));
    /// # Ok::<(), oxlanyard::Refusal>(())
    /// ```
    #[inline]
    pub fn subvector(&self, bounds: impl RangeBounds<u32>) -> Result<BVectOwned, Refusal> {
        owned(self.data.len(), |out| calls::subvector(self.bits(), &bounds, out))
    }

    /// As [`subvector`](Self::subvector), to the front of `out`. Refuses with BOUNDS, ROOM (words needed).
    #[inline]
    pub fn subvector_into<'o>(
        &self,
        bounds: impl RangeBounds<u32>,
        out: &'o mut [u64],
    ) -> Result<BVectBorrowed<'o>, Refusal> {
        lent(out, |out| calls::subvector(self.bits(), &bounds, out))
    }
}

impl BVectOwned {
    /// Checks words and takes them for a vector. Refuses with DIMS, LENGTH, PADDING.
    #[inline]
    pub fn new_checked(dims: u32, data: Vec<u64>) -> Result<Self, Refusal> {
        calls::new_checked((dims, &data))?;
        Ok(Self { dims, data })
    }

    /// A vector without ones. Refuses with DIMS.
    #[inline]
    pub fn zero(dims: u32) -> Result<Self, Refusal> {
        owned(room(dims), |out| calls::zero(dims, out))
    }

    /// The vector, lent.
    #[inline]
    pub fn as_borrowed(&self) -> BVectBorrowed<'_> {
        BVectBorrowed { dims: self.dims, data: &self.data }
    }

    /// The number of bits.
    #[inline]
    pub fn dims(&self) -> u32 {
        self.dims
    }

    /// The words. Bits at and above dims are clear.
    #[inline]
    pub fn data(&self) -> &[u64] {
        &self.data
    }

    /// The words themselves, to be used again.
    #[inline]
    pub fn into_data(self) -> Vec<u64> {
        self.data
    }
}

impl<'a> From<&'a BVectOwned> for BVectBorrowed<'a> {
    #[inline]
    fn from(vector: &'a BVectOwned) -> Self {
        vector.as_borrowed()
    }
}

/// Equal dims and equal bits.
impl PartialEq for BVectBorrowed<'_> {
    #[inline]
    fn eq(&self, other: &Self) -> bool {
        calls::eq(self.bits(), other.bits()).expect("vectors are valid")
    }
}

impl Eq for BVectBorrowed<'_> {}

/// The lowest bit that differs decides: the side with a one there is greater. There is no order if dims differ.
impl PartialOrd for BVectBorrowed<'_> {
    #[inline]
    fn partial_cmp(&self, other: &Self) -> Option<Ordering> {
        calls::partial_cmp(self.bits(), other.bits()).expect("vectors are valid")
    }
}

/// As for [`BVectBorrowed`].
impl PartialEq for BVectOwned {
    #[inline]
    fn eq(&self, other: &Self) -> bool {
        self.as_borrowed() == other.as_borrowed()
    }
}

impl Eq for BVectOwned {}

/// As for [`BVectBorrowed`].
impl PartialOrd for BVectOwned {
    #[inline]
    fn partial_cmp(&self, other: &Self) -> Option<Ordering> {
        self.as_borrowed().partial_cmp(&other.as_borrowed())
    }
}
