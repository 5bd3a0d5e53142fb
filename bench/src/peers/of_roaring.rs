//! CRoaring's bitmaps.
use super::Roaring;
use crate::cases::Two;
use crate::timing::Side;
use std::ffi::c_void;
use std::hint::black_box;

extern "C" {
    fn peer_roaring_bits(words: *const u64, n: usize) -> *mut c_void;
    fn peer_roaring_drop(v: *mut c_void);
    fn peer_roaring_words(which: i32, a: *const c_void, b: *const c_void);
    fn peer_roaring_answer(which: i32, a: *const c_void, b: *const c_void, indexes: *mut u32) -> usize;
    fn peer_roaring_count(which: i32, a: *const c_void, b: *const c_void) -> f64;
}

struct Bits(*mut c_void);

impl Bits {
    fn new(words: &[u64]) -> Self {
        // SAFETY: the pointer is that of a list of this length.
        Bits(unsafe { peer_roaring_bits(words.as_ptr(), words.len()) })
    }

    fn pointer(&self) -> *const c_void {
        black_box(self.0)
    }
}

impl Drop for Bits {
    fn drop(&mut self) {
        // SAFETY: the bitmap was made by `new`, and is used by no one.
        unsafe { peer_roaring_drop(self.0) }
    }
}

/// Stops if CRoaring's answer is not that of the words.
fn compared(two: &Two, call: Roaring, a: &Bits, b: &Bits) {
    let combined = |step: fn(u64, u64) -> u64| -> Vec<u32> {
        let words: Vec<u64> = two[0].iter().zip(&two[1]).map(|(&x, &y)| step(x, y)).collect();
        (0..64 * words.len() as u32).filter(|k| words[*k as usize / 64] >> (k % 64) & 1 == 1).collect()
    };
    let (and, or, xor) = (combined(|x, y| x & y), combined(|x, y| x | y), combined(|x, y| x ^ y));
    // SAFETY: both are CRoaring's.
    let count = || unsafe { peer_roaring_count(call as i32, a.pointer(), b.pointer()) };
    let listed = || {
        let mut indexes = vec![0; 64 * two[0].len()];
        // SAFETY: both are CRoaring's, and an answer has no more ones than there are bits.
        let n = unsafe { peer_roaring_answer(call as i32, a.pointer(), b.pointer(), indexes.as_mut_ptr()) };
        indexes.truncate(n);
        indexes
    };
    assert!(match call {
        Roaring::And => listed() == and,
        Roaring::Or => listed() == or,
        Roaring::Xor => listed() == xor,
        Roaring::OnesOfAnd => count() == and.len() as f64,
        Roaring::Hamming => count() == xor.len() as f64,
        Roaring::Jaccard => count() == and.len() as f64 / or.len() as f64,
    });
}

pub fn roaring(two: &Two, call: Roaring) -> Option<Side<'static>> {
    let (a, b) = (Bits::new(&two[0]), Bits::new(&two[1]));
    compared(two, call, &a, &b);
    // SAFETY of both: the bitmaps are CRoaring's.
    Some(if matches!(call, Roaring::And | Roaring::Or | Roaring::Xor) {
        Side::new("CRoaring", move || unsafe { peer_roaring_words(call as i32, a.pointer(), b.pointer()) })
    } else {
        Side::new("CRoaring", move || {
            black_box(unsafe { peer_roaring_count(call as i32, a.pointer(), b.pointer()) });
        })
    })
}
