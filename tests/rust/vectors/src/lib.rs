//! Stands for the root crate of the Rust. It is ours, and no evidence about that crate.
#![allow(dead_code, clippy::all)]
pub mod error;

pub mod datatype {
    pub mod memory_svecf32;

    /// The Rust's file, unchanged. It is taken in whole, so that `probe` may call its private functions.
    pub mod aggregate_svecf32 {
        include!("datatype/aggregate_svecf32.rs");

        pub mod probe {
            use super::*;

            pub fn row(state: Internal, row: SVectBorrowed<'_, f32>) -> Internal {
                _vectors_svecf32_aggregate_avg_sum_sfunc(state, Some(SVecf32Input(row)), std::ptr::null_mut())
            }

            pub fn combine(first: Internal, second: Internal) -> Internal {
                _vectors_svecf32_aggregate_avg_sum_combinefunc(first, second, std::ptr::null_mut())
            }

            pub fn sum(state: Internal) -> Option<SVectOwned<f32>> {
                _vectors_svecf32_aggregate_sum_finalfunc(state).map(|v| v.0)
            }

            pub fn average(state: Internal) -> Option<SVectOwned<f32>> {
                _vectors_svecf32_aggregate_avg_finalfunc(state).map(|v| v.0)
            }

            /// A state that holds a vector, with any count.
            pub fn state(count: u64, held: SVectBorrowed<'_, f32>) -> Internal {
                let mut state = SVecf32AggregateAvgSumStype::new_with_capacity(held.dims(), held.len());
                state.merge_in_place(held);
                state.count = count;
                Internal::new(state)
            }
        }
    }
}
