//! What a state answers without being changed: [`State`] and [`Aggregate`] answer as [`StateBorrowed`] does.

use crate::{Aggregate, Header, Refusal, SVectBorrowed, SVectOwned, State, StateBorrowed};

/// Hands each call on to the borrowed state.
macro_rules! reads {
    ($($kind:ty),*) => {$(
        impl $kind {
            /// The seven numbers of the state.
            #[inline]
            pub fn header(&self) -> Header {
                StateBorrowed::from(self).header()
            }

            /// How many rows came in.
            #[inline]
            pub fn count(&self) -> u64 {
                StateBorrowed::from(self).count()
            }

            /// The dims of the rows; none before the first.
            #[inline]
            pub fn dims(&self) -> Option<u32> {
                StateBorrowed::from(self).dims()
            }

            /// How many entries the state holds.
            #[inline]
            pub fn len(&self) -> usize {
                StateBorrowed::from(self).len()
            }

            /// Whether the state holds no entry: there was no row, or every place adds up to zero.
            #[inline]
            pub fn is_empty(&self) -> bool {
                StateBorrowed::from(self).is_empty()
            }

            /// How many entries the state can hold; 0 before the first row.
            #[inline]
            pub fn capacity(&self) -> usize {
                StateBorrowed::from(self).capacity()
            }

            /// The sum of the rows. Refuses with NOT_BEGUN.
            #[inline]
            pub fn sum(&self) -> Result<SVectOwned, Refusal> {
                StateBorrowed::from(self).sum()
            }

            /// The sum of the rows, each value divided once by the count, `count as f32`; quotients that are zero are
            /// left out. Refuses with NOT_BEGUN.
            #[inline]
            pub fn average(&self) -> Result<SVectOwned, Refusal> {
                StateBorrowed::from(self).average()
            }

            /// As [`sum`](Self::sum), to the front of the lists. Refuses with NOT_BEGUN, ROOM (the entries of the
            /// state).
            #[inline]
            pub fn sum_into<'o>(
                &self,
                indexes: &'o mut [u32],
                values: &'o mut [f32],
            ) -> Result<SVectBorrowed<'o>, Refusal> {
                StateBorrowed::from(self).sum_into(indexes, values)
            }

            /// As [`average`](Self::average), to the front of the lists. Refuses with NOT_BEGUN, ROOM (the entries of
            /// the state).
            #[inline]
            pub fn average_into<'o>(
                &self,
                indexes: &'o mut [u32],
                values: &'o mut [f32],
            ) -> Result<SVectBorrowed<'o>, Refusal> {
                StateBorrowed::from(self).average_into(indexes, values)
            }
        }
    )*};
}

reads!(State<'_>, Aggregate);
