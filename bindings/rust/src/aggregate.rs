//! Aggregate states that own their lists.

use crate::calls::aggregate::{self as calls, Numbers, Write};
use crate::{Reason, Refusal, SVectBorrowed, StateBorrowed};

/// An aggregate state that owns its lists and grows when it must.
///
/// ```
/// use oxlanyard::{Aggregate, Refusal, SVectBorrowed};
///
/// let mut profile = Aggregate::new();
/// profile.row(SVectBorrowed::new_checked(1000, &[3, 7], &[1.0, 2.0])?)?;
/// profile.row(SVectBorrowed::new_checked(1000, &[7], &[4.0])?)?;
/// assert_eq!((profile.count(), profile.dims(), profile.capacity()), (2, Some(1000), 16));
/// assert_eq!(profile.sum()?.values(), [1.0, 6.0]);
/// assert_eq!(profile.average()?.values(), [0.5, 3.0]);
/// # Ok::<(), Refusal>(())
/// ```
#[derive(Clone, Debug)]
pub struct Aggregate {
    header: Numbers,
    indexes: Vec<u32>,
    values: Vec<f32>,
}

impl Aggregate {
    /// A state without rows. It allocates nothing before the first.
    #[inline]
    pub fn new() -> Self {
        Self { header: calls::fresh(0, 0), indexes: Vec::new(), values: Vec::new() }
    }

    /// The state, lent to be read.
    #[inline]
    pub fn as_borrowed(&self) -> StateBorrowed<'_> {
        StateBorrowed::new(&self.header, &self.indexes, &self.values)
    }

    #[inline]
    fn write(&mut self) -> Write<'_> {
        (&mut self.header, &mut self.indexes, &mut self.values)
    }

    /// Adds a row and answers the turns. Refuses with DIFFER, COUNT; it grows where a [`State`](crate::State) is
    /// refused with ROOM or NEED.
    #[inline]
    pub fn row(&mut self, row: SVectBorrowed<'_>) -> Result<usize, Refusal> {
        match calls::row(self.write(), row.sparse()) {
            Err(refusal) => {
                self.grow(refusal, row.indexes().len())?;
                calls::row(self.write(), row.sparse())
            }
            done => done,
        }
    }

    /// Adds a second state and answers the turns. Refuses and grows as [`row`](Self::row) does. A second state without
    /// rows changes nothing.
    #[inline]
    pub fn combine<'o>(&mut self, other: impl Into<StateBorrowed<'o>>) -> Result<usize, Refusal> {
        let other = other.into();
        match calls::combine(self.write(), other.read()) {
            Err(refusal) => {
                self.grow(refusal, other.len())?;
                calls::combine(self.write(), other.read())
            }
            done => done,
        }
    }

    /// Takes new lists of the capacity that a refusal asks for, with room for `more` entries more. Any other refusal
    /// is handed on.
    #[cold]
    fn grow(&mut self, refusal: Refusal, more: usize) -> Result<(), Refusal> {
        let wanted = refusal.place;
        let lists = || (vec![0; wanted], vec![0.0; wanted]);
        match refusal.reason {
            Reason::Room => {
                (self.indexes, self.values) = lists();
                self.header = calls::fresh(0, wanted);
            }
            Reason::Need => {
                let (mut indexes, mut values) = lists();
                self.header = calls::move_to(self.as_borrowed().read(), more, (&mut indexes, &mut values))?;
                (self.indexes, self.values) = (indexes, values);
            }
            _ => return Err(refusal),
        }
        Ok(())
    }
}

impl Default for Aggregate {
    #[inline]
    fn default() -> Self {
        Self::new()
    }
}

impl<'a> From<&'a Aggregate> for StateBorrowed<'a> {
    #[inline]
    fn from(aggregate: &'a Aggregate) -> Self {
        aggregate.as_borrowed()
    }
}
