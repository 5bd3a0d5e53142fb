//! Stands for f32.rs, which is not in the text. It is ours, and no evidence about that file.
//!
//! The steps on one or two floats are the plain ones. `mask` keeps the value or gives +0, without a branch. The sums are
//! plain loops by rising index, and each step is rounded once: as fast as plain Rust does it, since the bench times them
//! as the Rust's. So dot and L2 are compared only where every order gives the same number.
use super::ScalarLike;
use std::cmp::Ordering;

impl ScalarLike for f32 {
    #[inline(always)]
    fn zero() -> Self {
        0.0
    }
    #[inline(always)]
    fn infinity() -> Self {
        f32::INFINITY
    }
    #[inline(always)]
    fn mask(self, m: bool) -> Self {
        f32::from_bits(self.to_bits() & (m as u32).wrapping_neg())
    }
    #[inline(always)]
    fn scalar_neg(this: Self) -> Self {
        -this
    }
    #[inline(always)]
    fn scalar_add(lhs: Self, rhs: Self) -> Self {
        lhs + rhs
    }
    #[inline(always)]
    fn scalar_sub(lhs: Self, rhs: Self) -> Self {
        lhs - rhs
    }
    #[inline(always)]
    fn scalar_mul(lhs: Self, rhs: Self) -> Self {
        lhs * rhs
    }
    #[inline(always)]
    fn scalar_is_sign_positive(self) -> bool {
        self.is_sign_positive()
    }
    #[inline(always)]
    fn scalar_is_sign_negative(self) -> bool {
        self.is_sign_negative()
    }
    #[inline(always)]
    fn from_f32(x: f32) -> Self {
        x
    }
    #[inline(always)]
    fn to_f32(self) -> f32 {
        self
    }
    fn reduce_or_of_is_zero(this: &[Self]) -> bool {
        this.iter().fold(false, |found, &x| found | (x == 0.0))
    }
    fn reduce_sum_of_sparse_xy(lidx: &[u32], lval: &[Self], ridx: &[u32], rval: &[Self]) -> f32 {
        assert!(lidx.len() == lval.len() && ridx.len() == rval.len());
        let (mut l, mut r, mut sum) = (0, 0, 0.0);
        while l < lidx.len() && r < ridx.len() {
            match lidx[l].cmp(&ridx[r]) {
                Ordering::Equal => {
                    sum += lval[l] * rval[r];
                    l += 1;
                    r += 1;
                }
                Ordering::Less => l += 1,
                Ordering::Greater => r += 1,
            }
        }
        sum
    }
    fn reduce_sum_of_sparse_d2(lidx: &[u32], lval: &[Self], ridx: &[u32], rval: &[Self]) -> f32 {
        assert!(lidx.len() == lval.len() && ridx.len() == rval.len());
        let (mut l, mut r, mut sum) = (0, 0, 0.0);
        while l < lidx.len() && r < ridx.len() {
            match lidx[l].cmp(&ridx[r]) {
                Ordering::Equal => {
                    let d = lval[l] - rval[r];
                    sum += d * d;
                    l += 1;
                    r += 1;
                }
                Ordering::Less => {
                    sum += lval[l] * lval[l];
                    l += 1;
                }
                Ordering::Greater => {
                    sum += rval[r] * rval[r];
                    r += 1;
                }
            }
        }
        lval[l..].iter().chain(&rval[r..]).for_each(|&x| sum += x * x);
        sum
    }
    fn reduce_sum_of_x2(this: &[Self]) -> f32 {
        this.iter().fold(0.0, |sum, &x| sum + x * x)
    }

    // What follows is never called by a call that is compared.
    fn reduce_sum_of_x(_: &[Self]) -> f32 {
        unimplemented!()
    }
    fn reduce_sum_of_abs_x(_: &[Self]) -> f32 {
        unimplemented!()
    }
    fn reduce_min_max_of_x(_: &[Self]) -> (f32, f32) {
        unimplemented!()
    }
    fn reduce_sum_of_xy(_: &[Self], _: &[Self]) -> f32 {
        unimplemented!()
    }
    fn reduce_sum_of_d2(_: &[Self], _: &[Self]) -> f32 {
        unimplemented!()
    }
    fn vector_from_f32(_: &[f32]) -> Vec<Self> {
        unimplemented!()
    }
    fn vector_to_f32(_: &[Self]) -> Vec<f32> {
        unimplemented!()
    }
    fn vector_to_f32_borrowed(this: &[Self]) -> impl AsRef<[f32]> {
        this
    }
    fn vector_add(_: &[Self], _: &[Self]) -> Vec<Self> {
        unimplemented!()
    }
    fn vector_add_inplace(_: &mut [Self], _: &[Self]) {
        unimplemented!()
    }
    fn vector_sub(_: &[Self], _: &[Self]) -> Vec<Self> {
        unimplemented!()
    }
    fn vector_mul(_: &[Self], _: &[Self]) -> Vec<Self> {
        unimplemented!()
    }
    fn vector_mul_scalar(_: &[Self], _: f32) -> Vec<Self> {
        unimplemented!()
    }
    fn vector_mul_scalar_inplace(_: &mut [Self], _: f32) {
        unimplemented!()
    }
    fn kmeans_helper(_: &mut [Self], _: f32, _: f32) {
        unimplemented!()
    }
}
