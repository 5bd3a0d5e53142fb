//! Aggregate states in lent lists.

use crate::calls::aggregate::{self as calls, Finish, Numbers, Read, Write};
use crate::svect::{front, owned};
use crate::{Refusal, SVectBorrowed, SVectOwned};

/// The capacity that a state of so many dims has for `n` entries: the smallest power of two at or above `n`, at least
/// 16, and at most dims. So long must the lists be that such a state is given.
///
/// ```
/// assert_eq!(oxlanyard::capacity(1000, 17), 32);
/// ```
#[inline]
pub fn capacity(dims: u32, n: usize) -> usize {
    calls::capacity(dims, n)
}

/// The seven numbers that say where a state is and what it holds: start, length, begun, dims, len, capacity, count.
///
/// Whoever keeps a state's lists elsewhere keeps these numbers beside them, and goes on with [`State::resume`].
#[derive(Clone, Copy, Debug, PartialEq, Eq, Hash)]
pub struct Header(pub [u64; 7]);

/// A state that is only read: what [`State::as_borrowed`] and [`Aggregate::as_borrowed`](crate::Aggregate::as_borrowed)
/// lend, and what is combined into another.
#[derive(Clone, Copy, Debug)]
pub struct StateBorrowed<'a> {
    header: &'a Numbers,
    indexes: &'a [u32],
    values: &'a [f32],
}

/// An aggregate state in lent lists: the sum of sparse rows, and how many they were. Nothing allocates but
/// [`sum`](State::sum) and [`average`](State::average), which answer owned vectors.
///
/// The first row decides the dims. A state grows only by moving: a row that it has no room for is refused with ROOM
/// (the first) or NEED (a later one), and the place says which capacity is wanted.
/// [`Aggregate`](crate::Aggregate) does that by itself.
///
/// ```
/// use oxlanyard::{capacity, Refusal, SVectBorrowed, State};
///
/// let room = capacity(1000, 2);
/// let (mut indexes, mut values) = (vec![0; 2 * room], vec![0.0; 2 * room]);
/// // Two states, each in its own part of one pair of lists.
/// let (mut i, mut v) = (indexes.chunks_mut(room), values.chunks_mut(room));
/// let mut first = State::new(i.next().unwrap(), v.next().unwrap());
/// let mut second = State::new(i.next().unwrap(), v.next().unwrap());
///
/// first.row(SVectBorrowed::new_checked(1000, &[3, 7], &[1.0, 2.0])?)?;
/// second.row(SVectBorrowed::new_checked(1000, &[7], &[4.0])?)?;
/// first.combine(&second)?;
///
/// assert_eq!(first.count(), 2);
/// assert_eq!(first.sum()?.values(), [1.0, 6.0]);
/// assert_eq!(first.average()?.values(), [0.5, 3.0]);
/// # Ok::<(), Refusal>(())
/// ```
#[derive(Debug)]
pub struct State<'a> {
    header: Numbers,
    indexes: &'a mut [u32],
    values: &'a mut [f32],
}

impl<'a> StateBorrowed<'a> {
    #[inline]
    pub(crate) fn new(header: &'a Numbers, indexes: &'a [u32], values: &'a [f32]) -> Self {
        Self { header, indexes, values }
    }

    #[inline]
    pub(crate) fn read(self) -> Read<'a> {
        (self.header, self.indexes, self.values)
    }

    /// The seven numbers of the state.
    #[inline]
    pub fn header(&self) -> Header {
        Header(*self.header)
    }

    /// How many rows came in.
    #[inline]
    pub fn count(&self) -> u64 {
        self.header[6]
    }

    /// The dims of the rows; none before the first.
    #[inline]
    pub fn dims(&self) -> Option<u32> {
        (self.header[2] == 1).then_some(self.header[3] as u32)
    }

    /// How many entries the state holds.
    #[inline]
    pub fn len(&self) -> usize {
        self.header[4] as usize
    }

    /// Whether the state holds no entry: there was no row, or every place adds up to zero.
    #[inline]
    pub fn is_empty(&self) -> bool {
        self.len() == 0
    }

    /// How many entries the state can hold; 0 before the first row.
    #[inline]
    pub fn capacity(&self) -> usize {
        self.header[5] as usize
    }

    /// The sum of the rows. Refuses with NOT_BEGUN.
    #[inline]
    pub fn sum(&self) -> Result<SVectOwned, Refusal> {
        owned(self.len(), |out| calls::finish(Finish::Sum, self.read(), out))
    }

    /// The sum of the rows, each value divided once by the count, `count as f32`; quotients that are zero are left out.
    /// Refuses with NOT_BEGUN.
    #[inline]
    pub fn average(&self) -> Result<SVectOwned, Refusal> {
        owned(self.len(), |out| calls::finish(Finish::Average, self.read(), out))
    }

    /// As [`sum`](Self::sum), to the front of the lists. Refuses with NOT_BEGUN, ROOM (the entries of the state).
    #[inline]
    pub fn sum_into<'o>(&self, indexes: &'o mut [u32], values: &'o mut [f32]) -> Result<SVectBorrowed<'o>, Refusal> {
        let written = calls::finish(Finish::Sum, self.read(), (indexes, values))?;
        Ok(front((indexes, values), written))
    }

    /// As [`average`](Self::average), to the front of the lists. Refuses with NOT_BEGUN, ROOM (the entries of the
    /// state).
    #[inline]
    pub fn average_into<'o>(
        &self,
        indexes: &'o mut [u32],
        values: &'o mut [f32],
    ) -> Result<SVectBorrowed<'o>, Refusal> {
        let written = calls::finish(Finish::Average, self.read(), (indexes, values))?;
        Ok(front((indexes, values), written))
    }

    /// Copies the state to other lists, where it has the capacity for `more` entries more. The old lists stay as they
    /// are. Refuses with NOT_BEGUN, DIMS (`more` above dims), NOT_NEEDED, ROOM (the capacity).
    ///
    /// ```
    /// # use oxlanyard::{Reason, SVectBorrowed, State};
    /// let (mut indexes, mut values) = ([0; 16], [0.0; 16]);
    /// let mut state = State::new(&mut indexes, &mut values);
    /// let ten = Vec::from_iter(0..10);
    /// state.row(SVectBorrowed::new_checked(1000, &ten, &[1.0; 10])?)?;
    ///
    /// let seven = SVectBorrowed::new_checked(1000, &ten[..7], &[1.0; 7])?;
    /// let refusal = state.row(seven).unwrap_err();
    /// assert_eq!((refusal.reason, refusal.place), (Reason::Need, 32));
    /// let (mut indexes, mut values) = ([0; 32], [0.0; 32]);
    /// let mut state = state.as_borrowed().move_to(7, &mut indexes, &mut values)?;
    /// state.row(seven)?;
    /// assert_eq!((state.count(), state.capacity()), (2, 32));
    /// # Ok::<(), oxlanyard::Refusal>(())
    /// ```
    #[inline]
    pub fn move_to<'o>(
        &self,
        more: usize,
        indexes: &'o mut [u32],
        values: &'o mut [f32],
    ) -> Result<State<'o>, Refusal> {
        let header = calls::move_to(self.read(), more, (indexes, values))?;
        Ok(State { header, indexes, values })
    }
}

impl<'a> State<'a> {
    /// A state without rows in the whole of two lists; the shorter one decides how much it can hold.
    #[inline]
    pub fn new(indexes: &'a mut [u32], values: &'a mut [f32]) -> Self {
        let header = calls::fresh(0, indexes.len().min(values.len()));
        Self { header, indexes, values }
    }

    /// Goes on with a state that stands in these lists. Refuses with ROOM if its region does not lie inside them, and
    /// with STATE if its header does not fit what stands there.
    #[inline]
    pub fn resume(header: Header, indexes: &'a mut [u32], values: &'a mut [f32]) -> Result<Self, Refusal> {
        let header = header.0;
        calls::check((&header, indexes, values))?;
        Ok(Self { header, indexes, values })
    }

    /// The state, lent to be read.
    #[inline]
    pub fn as_borrowed(&self) -> StateBorrowed<'_> {
        StateBorrowed::new(&self.header, self.indexes, self.values)
    }

    #[inline]
    fn write(&mut self) -> Write<'_> {
        (&mut self.header, self.indexes, self.values)
    }

    /// Adds a row and answers the turns: the distinct indexes of both from the row's first on. Refuses with DIFFER,
    /// COUNT, NEED (the capacity wanted), or the first row with ROOM (the capacity).
    #[inline]
    pub fn row(&mut self, row: SVectBorrowed<'_>) -> Result<usize, Refusal> {
        calls::row(self.write(), row.sparse())
    }

    /// Adds a second state and answers the turns. Refuses as [`row`](Self::row) does. A second state without rows
    /// changes nothing.
    #[inline]
    pub fn combine<'o>(&mut self, other: impl Into<StateBorrowed<'o>>) -> Result<usize, Refusal> {
        calls::combine(self.write(), other.into().read())
    }
}

impl<'a> From<&'a State<'_>> for StateBorrowed<'a> {
    #[inline]
    fn from(state: &'a State<'_>) -> Self {
        state.as_borrowed()
    }
}
