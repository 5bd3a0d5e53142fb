//! Random bit vectors, one or two, for each call of bvect.rs and bit.rs.
use super::damage::damage_bits;
use super::random::Random;
use crate::text::Bits;

const EDGES: [u32; 15] = [1, 2, 15, 16, 17, 31, 32, 33, 63, 64, 65, 127, 128, 129, 1000];

const LONG: [u32; 4] = [65_472, 65_473, 65_534, 65_535];

const ENDS: [u32; 9] = [0, 1, 64, 65, 65_534, 65_535, 65_536, u32::MAX - 1, u32::MAX];

/// What follows the call in a request.
pub fn operands(r: &Random, name: &str) -> String {
    match name {
        "zero" => if r.once_in(3) { r.one_of(&ENDS) } else { r.between(1, 300) }.to_string(),
        "one" => damaged_once_in(r, vector(r), 8).request(),
        "check" => damaged_once_in(r, vector(r), 2).request(),
        "get" => {
            let v = damaged_once_in(r, vector(r), 10);
            format!("{} | {}", v.request(), super::place(r, v.dims))
        }
        "part" => {
            let v = damaged_once_in(r, vector(r), 15);
            format!("{} | {}", v.request(), super::bounds(r, v.dims))
        }
        _ => {
            let (left, right) = pair(r);
            format!("{} | {}", left.request(), right.request())
        }
    }
}

fn damaged_once_in(r: &Random, mut v: Bits, n: usize) -> Bits {
    if r.once_in(n) {
        damage_bits(r, &mut v);
        if r.once_in(3) {
            damage_bits(r, &mut v);
        }
    }
    v
}

fn dims(r: &Random) -> u32 {
    match r.below(400) {
        0 => r.one_of(&LONG),
        1..=150 => r.between(1, 70),
        151..=320 => r.one_of(&EDGES),
        _ => r.between(1, 700),
    }
}

/// Words of one kind: full, empty, random, few ones, many ones.
fn word(r: &Random, kind: usize) -> u64 {
    match kind {
        0 => u64::MAX,
        1 => 0,
        2 => r.bits() & r.bits() & r.bits() & r.bits(),
        3 => r.bits() | r.bits() | r.bits() | r.bits(),
        4 => r.one_of(&[0, u64::MAX, 1, 1 << 63]),
        _ => r.bits(),
    }
}

fn clear_padding(v: &mut Bits) {
    if let (Some(last), 1..) = (v.words.last_mut(), v.dims % 64) {
        *last &= (1 << (v.dims % 64)) - 1;
    }
}

fn vector(r: &Random) -> Bits {
    let dims = dims(r);
    let kind = r.below(8);
    let mut v = Bits { dims, words: vec![] };
    v.words = (0..dims.div_ceil(64)).map(|_| word(r, kind)).collect();
    if r.once_in(6) {
        v.words.iter_mut().for_each(|w| *w = 0);
        flip_one(r, &mut v);
    }
    clear_padding(&mut v);
    v
}

fn flip_one(r: &Random, v: &mut Bits) {
    let bit = super::place(r, v.dims).min(v.dims - 1);
    v.words[bit as usize / 64] ^= 1 << (bit % 64);
}

fn pair(r: &Random) -> (Bits, Bits) {
    let left = vector(r);
    let mut right = left.clone();
    match r.below(8) {
        0 => (),
        1 => right.words.iter_mut().for_each(|w| *w = !*w),
        2 | 3 => flip_one(r, &mut right),
        4 => right.words.iter_mut().for_each(|w| *w &= r.bits()),
        _ => {
            let kind = r.below(8);
            right.words.iter_mut().for_each(|w| *w = word(r, kind));
        }
    }
    clear_padding(&mut right);
    if r.once_in(14) {
        right = other_dims(r, right);
    }
    if r.once_in(3) {
        (damaged_once_in(r, left, 8), damaged_once_in(r, right, 6))
    } else {
        (left, right)
    }
}

/// A good vector of other dims: one bit more or fewer, or any number.
fn other_dims(r: &Random, mut v: Bits) -> Bits {
    v.dims = match r.below(3) {
        0 => (v.dims + 1).min(65_535),
        1 => (v.dims - 1).max(1),
        _ => dims(r),
    };
    v.words.resize(v.dims.div_ceil(64) as usize, 0);
    clear_padding(&mut v);
    v
}
