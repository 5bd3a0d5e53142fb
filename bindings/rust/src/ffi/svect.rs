//! The calls on sparse vectors.

extern "C" {
    /// Checks a sparse vector.
    pub fn oxl_svect_new_checked(
        dims: u32,
        indexes: *const u32,
        indexes_len: usize,
        values: *const f32,
        values_len: usize,
        place: *mut usize,
    ) -> u32;
    /// The sparse vector without entries.
    pub fn oxl_svect_zero(dims: u32, dims_out: *mut u32, len: *mut usize, place: *mut usize) -> u32;
    /// The negated sum of products.
    pub fn oxl_svect_operator_dot(
        dims_a: u32,
        ia: *const u32,
        ia_len: usize,
        va: *const f32,
        va_len: usize,
        dims_b: u32,
        ib: *const u32,
        ib_len: usize,
        vb: *const f32,
        vb_len: usize,
        value: *mut f32,
        place: *mut usize,
    ) -> u32;
    /// The sum of squared differences.
    pub fn oxl_svect_operator_l2(
        dims_a: u32,
        ia: *const u32,
        ia_len: usize,
        va: *const f32,
        va_len: usize,
        dims_b: u32,
        ib: *const u32,
        ib_len: usize,
        vb: *const f32,
        vb_len: usize,
        value: *mut f32,
        place: *mut usize,
    ) -> u32;
    /// The sums of products and of each side's squares.
    pub fn oxl_svect_three_sums(
        dims_a: u32,
        ia: *const u32,
        ia_len: usize,
        va: *const f32,
        va_len: usize,
        dims_b: u32,
        ib: *const u32,
        ib_len: usize,
        vb: *const f32,
        vb_len: usize,
        xy: *mut f32,
        x2: *mut f32,
        y2: *mut f32,
        place: *mut usize,
    ) -> u32;
    /// Writes a plus b.
    pub fn oxl_svect_operator_add(
        dims_a: u32,
        ia: *const u32,
        ia_len: usize,
        va: *const f32,
        va_len: usize,
        dims_b: u32,
        ib: *const u32,
        ib_len: usize,
        vb: *const f32,
        vb_len: usize,
        oi: *mut u32,
        oi_len: usize,
        ov: *mut f32,
        ov_len: usize,
        dims: *mut u32,
        len: *mut usize,
        turns: *mut usize,
        place: *mut usize,
    ) -> u32;
    /// Writes a minus b.
    pub fn oxl_svect_operator_sub(
        dims_a: u32,
        ia: *const u32,
        ia_len: usize,
        va: *const f32,
        va_len: usize,
        dims_b: u32,
        ib: *const u32,
        ib_len: usize,
        vb: *const f32,
        vb_len: usize,
        oi: *mut u32,
        oi_len: usize,
        ov: *mut f32,
        ov_len: usize,
        dims: *mut u32,
        len: *mut usize,
        turns: *mut usize,
        place: *mut usize,
    ) -> u32;
    /// Writes the products of a and b.
    pub fn oxl_svect_operator_mul(
        dims_a: u32,
        ia: *const u32,
        ia_len: usize,
        va: *const f32,
        va_len: usize,
        dims_b: u32,
        ib: *const u32,
        ib_len: usize,
        vb: *const f32,
        vb_len: usize,
        oi: *mut u32,
        oi_len: usize,
        ov: *mut f32,
        ov_len: usize,
        dims: *mut u32,
        len: *mut usize,
        turns: *mut usize,
        place: *mut usize,
    ) -> u32;
    /// Writes a slice of a sparse vector.
    pub fn oxl_svect_subvector(
        dims: u32,
        indexes: *const u32,
        indexes_len: usize,
        values: *const f32,
        values_len: usize,
        from_kind: u32,
        from: u32,
        to_kind: u32,
        to: u32,
        oi: *mut u32,
        oi_len: usize,
        ov: *mut f32,
        ov_len: usize,
        dims_out: *mut u32,
        len: *mut usize,
        place: *mut usize,
    ) -> u32;
    /// Whether two sparse vectors are equal.
    pub fn oxl_svect_eq(
        dims_a: u32,
        ia: *const u32,
        ia_len: usize,
        va: *const f32,
        va_len: usize,
        dims_b: u32,
        ib: *const u32,
        ib_len: usize,
        vb: *const f32,
        vb_len: usize,
        yes: *mut u32,
        place: *mut usize,
    ) -> u32;
    /// The order of two sparse vectors.
    pub fn oxl_svect_partial_cmp(
        dims_a: u32,
        ia: *const u32,
        ia_len: usize,
        va: *const f32,
        va_len: usize,
        dims_b: u32,
        ib: *const u32,
        ib_len: usize,
        vb: *const f32,
        vb_len: usize,
        order: *mut u32,
        place: *mut usize,
    ) -> u32;
}
