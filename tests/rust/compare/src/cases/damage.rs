//! Makes a good vector a bad one, or another one.
use super::random::Random;
use crate::text::{Bits, Sparse};

pub fn damage_sparse(r: &Random, v: &mut Sparse) {
    let n = v.indexes.len().min(v.values.len());
    let k = r.below(n.max(1));
    match r.below(10) {
        0 => v.dims = r.one_of(&[0, 1_048_576, 1_048_577, u32::MAX]),
        1 => v.dims = v.dims.saturating_sub(1),
        _ if n == 0 => {
            v.values.push(1.0);
        }
        2 => {
            v.values.pop();
        }
        3 => {
            v.indexes.remove(k);
        }
        4 => v.values[k] = r.one_of(&[0.0, -0.0]),
        5 => v.dims = v.indexes[n - 1],
        6 => v.indexes[n - 1] = r.one_of(&[v.dims, v.dims.saturating_add(1), u32::MAX]),
        7 => v.indexes[k] = v.indexes[k.saturating_sub(1)],
        8 => v.indexes[..n].swap(k, (k + 1) % n),
        _ => v.indexes[k] = r.bits() as u32,
    }
}

pub fn damage_bits(r: &Random, v: &mut Bits) {
    let n = v.words.len();
    match r.below(8) {
        0 => v.dims = r.one_of(&[0, 65_536, 65_537, u32::MAX]),
        1 => v.dims = v.dims.saturating_sub(1),
        2 => v.dims = v.dims.saturating_add(1),
        3 => {
            v.words.pop();
        }
        // The program reads at most 1,024 words.
        4 if n < 1024 => v.words.push(r.one_of(&[0, 1, u64::MAX])),
        _ if n == 0 => (),
        5 => v.words[n - 1] |= 1 << 63,
        6 => v.words[n - 1] |= 1 << (v.dims % 64),
        _ => v.words[n - 1] |= u64::MAX << r.below(64),
    }
}
