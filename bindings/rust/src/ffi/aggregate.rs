//! The calls on aggregate states.

extern "C" {
    /// The header of a state without rows.
    pub fn oxl_aggregate_fresh(start: usize, length: usize, h: *mut u64);
    /// The capacity for n entries.
    pub fn oxl_aggregate_capacity(dims: u32, n: usize) -> usize;
    /// Checks a state.
    pub fn oxl_aggregate_check(
        h: *const u64,
        ai: *const u32,
        ai_len: usize,
        av: *const f32,
        av_len: usize,
        place: *mut usize,
    ) -> u32;
    /// Adds a row to a state.
    pub fn oxl_aggregate_row(
        h: *mut u64,
        ai: *mut u32,
        ai_len: usize,
        av: *mut f32,
        av_len: usize,
        dims: u32,
        bi: *const u32,
        bi_len: usize,
        bv: *const f32,
        bv_len: usize,
        turns: *mut usize,
        place: *mut usize,
    ) -> u32;
    /// Adds a second state to a state.
    pub fn oxl_aggregate_combine(
        h: *mut u64,
        ai: *mut u32,
        ai_len: usize,
        av: *mut f32,
        av_len: usize,
        other: *const u64,
        bi: *const u32,
        bi_len: usize,
        bv: *const f32,
        bv_len: usize,
        turns: *mut usize,
        place: *mut usize,
    ) -> u32;
    /// Copies a state to other lists, where it has room to grow.
    pub fn oxl_aggregate_move_to(
        h: *mut u64,
        ai: *const u32,
        ai_len: usize,
        av: *const f32,
        av_len: usize,
        more: usize,
        ci: *mut u32,
        ci_len: usize,
        cv: *mut f32,
        cv_len: usize,
        start: usize,
        length: usize,
        turns: *mut usize,
        place: *mut usize,
    ) -> u32;
    /// Writes the sum of a state's rows.
    pub fn oxl_aggregate_sum(
        h: *const u64,
        ai: *const u32,
        ai_len: usize,
        av: *const f32,
        av_len: usize,
        oi: *mut u32,
        oi_len: usize,
        ov: *mut f32,
        ov_len: usize,
        dims: *mut u32,
        len: *mut usize,
        place: *mut usize,
    ) -> u32;
    /// Writes the average of a state's rows.
    pub fn oxl_aggregate_average(
        h: *const u64,
        ai: *const u32,
        ai_len: usize,
        av: *const f32,
        av_len: usize,
        oi: *mut u32,
        oi_len: usize,
        ov: *mut f32,
        ov_len: usize,
        dims: *mut u32,
        len: *mut usize,
        place: *mut usize,
    ) -> u32;
}
