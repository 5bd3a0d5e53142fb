//! Stands for src/error.rs, whose functions need the rest of the extension. It is ours: as there, it stops where two dims
//! differ.
pub fn check_matched_dims(left_dims: u32, right_dims: u32) -> u32 {
    if left_dims != right_dims {
        pgrx::error!("dims {left_dims} and {right_dims} differ")
    }
    left_dims
}
