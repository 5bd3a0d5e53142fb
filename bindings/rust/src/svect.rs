//! Sparse vectors.

mod owned;

use crate::calls::svect::{self as calls, Distance, Operation, Out, Sparse};
use crate::Refusal;
use std::ops::{Bound, RangeBounds};

/// A sparse vector in lent lists: the indexes that hold a value, in rising order, and the values. What is absent is
/// zero. It has 1 to 1,048,575 places, and no value is a zero; NaN and infinities may be.
///
/// ```
/// use oxlanyard::{Refusal, SVectBorrowed};
///
/// let a = SVectBorrowed::new_checked(8, &[1, 4], &[1.0, -2.0])?;
/// let b = SVectBorrowed::new_checked(8, &[4, 6], &[2.0, 0.5])?;
/// let sum = a.operator_add(b)?;
/// assert_eq!((sum.indexes(), sum.values()), (&[1, 6][..], &[1.0, 0.5][..]));
/// # Ok::<(), Refusal>(())
/// ```
#[derive(Clone, Copy, Debug)]
pub struct SVectBorrowed<'a> {
    dims: u32,
    indexes: &'a [u32],
    values: &'a [f32],
}

/// A sparse vector that owns its lists.
#[derive(Clone, Debug)]
pub struct SVectOwned {
    dims: u32,
    indexes: Vec<u32>,
    values: Vec<f32>,
}

/// What add, sub and mul write to lent lists.
#[derive(Clone, Copy, Debug)]
pub struct Merged<'a> {
    /// The vector, in front of the lent lists.
    pub vector: SVectBorrowed<'a>,
    /// The turns of the walk: the distinct indexes that it passed, those with a zero result included.
    pub turns: usize,
}

/// Three sums of one walk over two vectors.
#[derive(Clone, Copy, Debug, PartialEq)]
pub struct ThreeSums {
    /// The sum of the products at common indexes.
    pub xy: f32,
    /// The sum of the left side's squares.
    pub x2: f32,
    /// The sum of the right side's squares.
    pub y2: f32,
}

/// Takes the front of lent lists for a vector that a call has written there.
#[inline]
pub(crate) fn front<'o>((indexes, values): Out<'o>, (dims, len): (u32, usize)) -> SVectBorrowed<'o> {
    SVectBorrowed { dims, indexes: &indexes[..len], values: &values[..len] }
}

/// Writes to lists of the length `room`, and answers the vector that owns them.
#[inline]
pub(crate) fn owned(
    room: usize,
    write: impl FnOnce(Out<'_>) -> Result<(u32, usize), Refusal>,
) -> Result<SVectOwned, Refusal> {
    let (mut indexes, mut values) = (vec![0; room], vec![0.0; room]);
    let (dims, len) = write((&mut indexes, &mut values))?;
    indexes.truncate(len);
    values.truncate(len);
    Ok(SVectOwned { dims, indexes, values })
}

/// How many of these rising indexes lie within the bounds.
#[inline]
fn kept(indexes: &[u32], bounds: &impl RangeBounds<u32>) -> usize {
    let before = indexes.partition_point(|index| match bounds.start_bound() {
        Bound::Included(start) => index < start,
        Bound::Excluded(start) => index <= start,
        Bound::Unbounded => false,
    });
    let until = indexes.partition_point(|index| match bounds.end_bound() {
        Bound::Included(end) => index <= end,
        Bound::Excluded(end) => index < end,
        Bound::Unbounded => true,
    });
    until.saturating_sub(before)
}

impl<'a> SVectBorrowed<'a> {
    /// Checks lists and takes them for a vector. Refuses with DIMS, LENGTH, ORDER, INDEX, ZERO.
    #[inline]
    pub fn new_checked(dims: u32, indexes: &'a [u32], values: &'a [f32]) -> Result<Self, Refusal> {
        calls::new_checked((dims, indexes, values))?;
        Ok(Self { dims, indexes, values })
    }

    /// The vector without entries, which needs no list. Refuses with DIMS.
    #[inline]
    pub fn zero(dims: u32) -> Result<Self, Refusal> {
        calls::zero(dims)?;
        Ok(Self { dims, indexes: &[], values: &[] })
    }

    /// The number of places.
    #[inline]
    pub fn dims(&self) -> u32 {
        self.dims
    }

    /// The number of entries.
    #[inline]
    pub fn len(&self) -> u32 {
        self.indexes.len() as u32
    }

    /// Whether there is no entry: every place is zero.
    #[inline]
    pub fn is_empty(&self) -> bool {
        self.indexes.is_empty()
    }

    /// The indexes that hold a value, in rising order.
    #[inline]
    pub fn indexes(&self) -> &'a [u32] {
        self.indexes
    }

    /// The values, in the order of the indexes.
    #[inline]
    pub fn values(&self) -> &'a [f32] {
        self.values
    }

    /// A copy that owns its lists.
    #[inline]
    pub fn own(&self) -> SVectOwned {
        SVectOwned { dims: self.dims, indexes: self.indexes.to_vec(), values: self.values.to_vec() }
    }

    #[inline]
    pub(crate) fn sparse(&self) -> Sparse<'a> {
        (self.dims, self.indexes, self.values)
    }

    /// The negated sum of the products at common indexes, in rising order. Refuses with DIFFER.
    #[inline]
    pub fn operator_dot(self, rhs: Self) -> Result<f32, Refusal> {
        calls::distance(Distance::Dot, self.sparse(), rhs.sparse())
    }

    /// The sum of the squared differences, in rising order. Refuses with DIFFER.
    #[inline]
    pub fn operator_l2(self, rhs: Self) -> Result<f32, Refusal> {
        calls::distance(Distance::L2, self.sparse(), rhs.sparse())
    }

    /// The sums of products and of each side's squares, in one walk. Refuses with DIFFER.
    #[inline]
    pub fn three_sums(self, rhs: Self) -> Result<ThreeSums, Refusal> {
        calls::three_sums(self.sparse(), rhs.sparse())
    }

    /// The sum. Entries that cancel are left out. Refuses with DIFFER.
    #[inline]
    pub fn operator_add(self, rhs: Self) -> Result<SVectOwned, Refusal> {
        self.owned(Operation::Add, rhs, self.room(rhs))
    }

    /// The left side less the right. Entries that cancel are left out. Refuses with DIFFER.
    #[inline]
    pub fn operator_sub(self, rhs: Self) -> Result<SVectOwned, Refusal> {
        self.owned(Operation::Sub, rhs, self.room(rhs))
    }

    /// The products at common indexes. Those that are zero are left out. Refuses with DIFFER.
    #[inline]
    pub fn operator_mul(self, rhs: Self) -> Result<SVectOwned, Refusal> {
        self.owned(Operation::Mul, rhs, self.indexes.len().min(rhs.indexes.len()))
    }

    /// What add and sub ask for: a place for each entry of both sides, or for each of the dims if these are fewer.
    #[inline]
    fn room(self, rhs: Self) -> usize {
        (self.indexes.len() + rhs.indexes.len()).min(self.dims as usize)
    }

    #[inline]
    fn owned(self, which: Operation, rhs: Self, room: usize) -> Result<SVectOwned, Refusal> {
        owned(room, |out| {
            let (dims, len, _) = calls::operation(which, self.sparse(), rhs.sparse(), out)?;
            Ok((dims, len))
        })
    }

    /// As [`operator_add`](Self::operator_add), to the front of the lists. Refuses with DIFFER, ROOM (the entries of
    /// both sides together, or the dims if these are fewer).
    ///
    /// ```
    /// # use oxlanyard::SVectBorrowed;
    /// let a = SVectBorrowed::new_checked(8, &[1, 4], &[1.0, -2.0])?;
    /// let b = SVectBorrowed::new_checked(8, &[4, 6], &[2.0, 0.5])?;
    /// let (mut indexes, mut values) = ([9; 5], [9.0; 5]);
    /// let sum = a.operator_add_into(b, &mut indexes, &mut values)?;
    /// assert_eq!((sum.vector.indexes(), sum.turns), (&[1, 6][..], 3));
    /// assert_eq!(indexes, [1, 6, 9, 9, 9]);
    ///
    /// let full = SVectBorrowed::new_checked(2, &[0, 1], &[1.0, 3.0])?;
    /// let (mut indexes, mut values) = ([9; 2], [9.0; 2]);
    /// assert_eq!(full.operator_add_into(full, &mut indexes, &mut values)?.vector.values(), &[2.0, 6.0]);
    /// # Ok::<(), oxlanyard::Refusal>(())
    /// ```
    #[inline]
    pub fn operator_add_into<'o>(
        self,
        rhs: Self,
        indexes: &'o mut [u32],
        values: &'o mut [f32],
    ) -> Result<Merged<'o>, Refusal> {
        self.lent(Operation::Add, rhs, indexes, values)
    }

    /// As [`operator_sub`](Self::operator_sub), to the front of the lists. Refuses with DIFFER, ROOM (the entries of
    /// both sides together, or the dims if these are fewer).
    #[inline]
    pub fn operator_sub_into<'o>(
        self,
        rhs: Self,
        indexes: &'o mut [u32],
        values: &'o mut [f32],
    ) -> Result<Merged<'o>, Refusal> {
        self.lent(Operation::Sub, rhs, indexes, values)
    }

    /// As [`operator_mul`](Self::operator_mul), to the front of the lists. Refuses with DIFFER, ROOM (the entries of
    /// the shorter side).
    #[inline]
    pub fn operator_mul_into<'o>(
        self,
        rhs: Self,
        indexes: &'o mut [u32],
        values: &'o mut [f32],
    ) -> Result<Merged<'o>, Refusal> {
        self.lent(Operation::Mul, rhs, indexes, values)
    }

    #[inline]
    fn lent<'o>(
        self,
        which: Operation,
        rhs: Self,
        indexes: &'o mut [u32],
        values: &'o mut [f32],
    ) -> Result<Merged<'o>, Refusal> {
        let (dims, len, turns) = calls::operation(which, self.sparse(), rhs.sparse(), (indexes, values))?;
        Ok(Merged { vector: front((indexes, values), (dims, len)), turns })
    }

    /// The entries of a range, their indexes less its start. Refuses with BOUNDS if the range is empty or reaches
    /// beyond dims.
    ///
    /// ```
    /// # use oxlanyard::SVectBorrowed;
    /// let a = SVectBorrowed::new_checked(8, &[1, 4], &[1.0, -2.0])?;
    /// let part = a.subvector(4..)?;
    /// assert_eq!((part.dims(), part.indexes(), part.values()), (4, &[0][..], &[-2.0][..]));
    /// # Ok::<(), oxlanyard::Refusal>(())
    /// ```
    #[inline]
    pub fn subvector(&self, bounds: impl RangeBounds<u32>) -> Result<SVectOwned, Refusal> {
        owned(kept(self.indexes, &bounds), |out| calls::subvector(self.sparse(), &bounds, out))
    }

    /// As [`subvector`](Self::subvector), to the front of the lists. Refuses with BOUNDS, ROOM (the entries kept).
    #[inline]
    pub fn subvector_into<'o>(
        &self,
        bounds: impl RangeBounds<u32>,
        indexes: &'o mut [u32],
        values: &'o mut [f32],
    ) -> Result<SVectBorrowed<'o>, Refusal> {
        let written = calls::subvector(self.sparse(), &bounds, (indexes, values))?;
        Ok(front((indexes, values), written))
    }
}
