//! Why a call was refused: the numbers of document 01 under their names.

use std::fmt;

/// Why a call was refused, and where.
///
/// A refused call has changed nothing: not the lists that were lent to it, and not the state that it was called on.
///
/// ```
/// use oxlanyard::{Reason, SVectBorrowed};
///
/// let refusal = SVectBorrowed::new_checked(8, &[1, 4, 4], &[1.0, 2.0, 3.0]).unwrap_err();
/// assert_eq!((refusal.reason, refusal.place), (Reason::Order, 2));
/// assert_eq!(
///     refusal.to_string(),
///     "the indexes do not rise: entry 2 is not above the one before (ORDER, 3)"
/// );
/// ```
#[derive(Clone, Copy, Debug, PartialEq, Eq, Hash)]
pub struct Refusal {
    /// The first test that failed, in the order of document 01.
    pub reason: Reason,
    /// What goes with the reason: an entry, a word, or how much is needed; 0 where nothing does. Entries and words
    /// count from 0.
    pub place: usize,
}

/// The reasons of document 01. `reason as u32` is the number, as is [`Reason::number`].
#[derive(Clone, Copy, Debug, PartialEq, Eq, PartialOrd, Ord, Hash)]
#[repr(u32)]
pub enum Reason {
    /// 1: dims are out of range, or a move is asked for more entries than dims.
    Dims = 1,
    /// 2: the lists of a vector differ in length, or it has a wrong number of words.
    Length = 2,
    /// 3: the indexes do not rise. The place is the later entry of the first bad pair.
    Order = 3,
    /// 4: an index is not below dims. The place is the last entry, or the index that was asked for.
    Index = 4,
    /// 5: a value is zero. The place is the first such entry.
    Zero = 5,
    /// 6: a bit at or above dims is set. The place is the last word.
    Padding = 6,
    /// 7: the two dims differ.
    Differ = 7,
    /// 8: the bounds of a slice are bad.
    Bounds = 8,
    /// 9: a lent list is too short. The place is what is needed: entries or words of an output, the capacity of a
    /// state, or the length of a region that does not lie inside its lists.
    Room = 9,
    /// 10: a state must grow. The place is the capacity that it wants.
    Need = 10,
    /// 11: the count of rows would pass the largest `u64`.
    Count = 11,
    /// 12: the state has no rows, so it has no sum, no average, and nothing to move.
    NotBegun = 12,
    /// 13: a header and what stands in its lists do not fit together.
    State = 13,
    /// 14: a move is not needed: the state has room for as many entries.
    NotNeeded = 14,
}

impl Reason {
    /// All reasons, in the order of their numbers.
    pub const ALL: [Reason; 14] = [
        Reason::Dims,
        Reason::Length,
        Reason::Order,
        Reason::Index,
        Reason::Zero,
        Reason::Padding,
        Reason::Differ,
        Reason::Bounds,
        Reason::Room,
        Reason::Need,
        Reason::Count,
        Reason::NotBegun,
        Reason::State,
        Reason::NotNeeded,
    ];

    /// The number of document 01, 1 to 14.
    pub const fn number(self) -> u32 {
        self as u32
    }

    /// The reason that has this number; none for 0, which means done, and for numbers above 14.
    ///
    /// ```
    /// use oxlanyard::Reason;
    ///
    /// assert_eq!(Reason::from_number(9), Some(Reason::Room));
    /// assert_eq!(Reason::from_number(0), None);
    /// ```
    pub fn from_number(number: u32) -> Option<Reason> {
        Reason::ALL.into_iter().find(|reason| reason.number() == number)
    }

    /// The name of document 01, as `NOT_BEGUN`.
    pub const fn name(self) -> &'static str {
        match self {
            Reason::Dims => "DIMS",
            Reason::Length => "LENGTH",
            Reason::Order => "ORDER",
            Reason::Index => "INDEX",
            Reason::Zero => "ZERO",
            Reason::Padding => "PADDING",
            Reason::Differ => "DIFFER",
            Reason::Bounds => "BOUNDS",
            Reason::Room => "ROOM",
            Reason::Need => "NEED",
            Reason::Count => "COUNT",
            Reason::NotBegun => "NOT_BEGUN",
            Reason::State => "STATE",
            Reason::NotNeeded => "NOT_NEEDED",
        }
    }
}

impl fmt::Display for Reason {
    fn fmt(&self, f: &mut fmt::Formatter<'_>) -> fmt::Result {
        f.write_str(self.name())
    }
}

impl fmt::Display for Refusal {
    fn fmt(&self, f: &mut fmt::Formatter<'_>) -> fmt::Result {
        let place = self.place;
        match self.reason {
            Reason::Dims => write!(f, "dims are out of range, or a move is asked for more entries than dims"),
            Reason::Length => write!(f, "the lists differ in length, or the number of words is not that for dims"),
            Reason::Order => write!(f, "the indexes do not rise: entry {place} is not above the one before"),
            Reason::Index => {
                write!(f, "an index is not below dims: that of entry {place}, or the index {place} that was asked for")
            }
            Reason::Zero => write!(f, "the value of entry {place} is zero, and zeros are not stored"),
            Reason::Padding => write!(f, "a bit at or above dims is set in the last word, word {place}"),
            Reason::Differ => write!(f, "the two dims differ"),
            Reason::Bounds => write!(f, "the bounds of the slice are empty or reach beyond dims"),
            Reason::Room => write!(f, "a lent list is too short for {place} places"),
            Reason::Need => write!(f, "the state must grow: it wants the capacity {place}"),
            Reason::Count => write!(f, "the count of rows would pass {}", u64::MAX),
            Reason::NotBegun => write!(f, "the state has no rows"),
            Reason::State => write!(f, "the header does not fit what stands in the lists of the state"),
            Reason::NotNeeded => write!(f, "the state need not move: it has room for as many entries"),
        }?;
        write!(f, " ({}, {})", self.reason.name(), self.reason.number())
    }
}

impl std::error::Error for Refusal {}
