//! The calls on bit vectors.

extern "C" {
    /// Checks a bit vector.
    pub fn oxl_bvect_new_checked(dims: u32, words: *const u64, words_len: usize, place: *mut usize) -> u32;
    /// Writes a bit vector without ones.
    pub fn oxl_bvect_zero(
        dims: u32,
        out: *mut u64,
        out_len: usize,
        dims_out: *mut u32,
        len: *mut usize,
        place: *mut usize,
    ) -> u32;
    /// Reads one bit.
    pub fn oxl_bvect_get(
        dims: u32,
        words: *const u64,
        words_len: usize,
        index: u32,
        yes: *mut u32,
        place: *mut usize,
    ) -> u32;
    /// The negated number of common ones.
    pub fn oxl_bvect_operator_dot(
        dims_a: u32,
        a: *const u64,
        a_len: usize,
        dims_b: u32,
        b: *const u64,
        b_len: usize,
        value: *mut f32,
        place: *mut usize,
    ) -> u32;
    /// The number of differing bits.
    pub fn oxl_bvect_operator_hamming(
        dims_a: u32,
        a: *const u64,
        a_len: usize,
        dims_b: u32,
        b: *const u64,
        b_len: usize,
        value: *mut f32,
        place: *mut usize,
    ) -> u32;
    /// The Jaccard distance; +0 for two vectors without ones.
    pub fn oxl_bvect_operator_jaccard(
        dims_a: u32,
        a: *const u64,
        a_len: usize,
        dims_b: u32,
        b: *const u64,
        b_len: usize,
        value: *mut f32,
        place: *mut usize,
    ) -> u32;
    /// The Jaccard distance; NaN for two vectors without ones.
    pub fn oxl_bvect_operator_jaccard_or_nan(
        dims_a: u32,
        a: *const u64,
        a_len: usize,
        dims_b: u32,
        b: *const u64,
        b_len: usize,
        value: *mut f32,
        place: *mut usize,
    ) -> u32;
    /// Writes a AND b.
    pub fn oxl_bvect_operator_and(
        dims_a: u32,
        a: *const u64,
        a_len: usize,
        dims_b: u32,
        b: *const u64,
        b_len: usize,
        out: *mut u64,
        out_len: usize,
        dims: *mut u32,
        len: *mut usize,
        place: *mut usize,
    ) -> u32;
    /// Writes a OR b.
    pub fn oxl_bvect_operator_or(
        dims_a: u32,
        a: *const u64,
        a_len: usize,
        dims_b: u32,
        b: *const u64,
        b_len: usize,
        out: *mut u64,
        out_len: usize,
        dims: *mut u32,
        len: *mut usize,
        place: *mut usize,
    ) -> u32;
    /// Writes a XOR b.
    pub fn oxl_bvect_operator_xor(
        dims_a: u32,
        a: *const u64,
        a_len: usize,
        dims_b: u32,
        b: *const u64,
        b_len: usize,
        out: *mut u64,
        out_len: usize,
        dims: *mut u32,
        len: *mut usize,
        place: *mut usize,
    ) -> u32;
    /// Writes a slice of a bit vector.
    pub fn oxl_bvect_subvector(
        dims: u32,
        words: *const u64,
        words_len: usize,
        from_kind: u32,
        from: u32,
        to_kind: u32,
        to: u32,
        out: *mut u64,
        out_len: usize,
        dims_out: *mut u32,
        len: *mut usize,
        place: *mut usize,
    ) -> u32;
    /// Whether two bit vectors are equal.
    pub fn oxl_bvect_eq(
        dims_a: u32,
        a: *const u64,
        a_len: usize,
        dims_b: u32,
        b: *const u64,
        b_len: usize,
        yes: *mut u32,
        place: *mut usize,
    ) -> u32;
    /// The order of two bit vectors.
    pub fn oxl_bvect_partial_cmp(
        dims_a: u32,
        a: *const u64,
        a_len: usize,
        dims_b: u32,
        b: *const u64,
        b_len: usize,
        order: *mut u32,
        place: *mut usize,
    ) -> u32;
}
