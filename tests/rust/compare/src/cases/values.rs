//! Values of sparse vectors. None is a zero.
use super::random::Random;

/// What kind of values a vector has.
#[derive(Clone, Copy, PartialEq)]
pub enum Kind {
    Whole,
    Fraction,
    Subnormal,
    /// As large as a finite float gets, or as small as a normal one.
    Extreme,
    /// Infinities and NaN among others.
    Special,
    /// Any bits.
    Any,
    /// All of these.
    Mixed,
}

pub const KINDS: [Kind; 7] =
    [Kind::Whole, Kind::Fraction, Kind::Subnormal, Kind::Extreme, Kind::Special, Kind::Any, Kind::Mixed];

const EXTREMES: [u32; 8] =
    [0x7f7f_ffff, 0x7f7f_fffe, 0x7f00_0000, 0x7eff_ffff, 0x0080_0000, 0x0080_0001, 0x007f_ffff, 0x0000_0001];

const SPECIALS: [u32; 8] =
    [0x7f80_0000, 0xff80_0000, 0x7fc0_0000, 0xffc0_0000, 0x7f80_0001, 0x3f80_0000, 0xbf80_0000, 0x7f7f_ffff];

fn or_one(x: f32) -> f32 {
    if x == 0.0 {
        1.0
    } else {
        x
    }
}

fn signed(r: &Random, x: f32) -> f32 {
    if r.once_in(2) {
        -x
    } else {
        x
    }
}

/// A whole number of at most this magnitude.
pub fn whole(r: &Random, most: u32) -> f32 {
    let x = r.between(1, most) as f32;
    signed(r, x)
}

pub fn value(r: &Random, kind: Kind) -> f32 {
    let x = match kind {
        Kind::Whole => whole(r, 8),
        Kind::Fraction => r.between(1, 0x01ff_ffff) as f32 / r.one_of(&[2.0, 3.0, 10.0, 1024.0, 33_554_432.0]),
        Kind::Subnormal => f32::from_bits(r.between(1, 0x007f_ffff)),
        Kind::Extreme => f32::from_bits(r.one_of(&EXTREMES)),
        Kind::Special => f32::from_bits(r.one_of(&SPECIALS)),
        Kind::Any => f32::from_bits(r.bits() as u32),
        Kind::Mixed => {
            let kind = r.one_of(&KINDS[..6]);
            return value(r, kind);
        }
    };
    or_one(signed(r, x))
}

/// A value that meets x: often one that cancels it, or is next to it, or makes a tie of rounding with it.
pub fn partner(r: &Random, x: f32, kind: Kind) -> f32 {
    let bits = x.to_bits();
    or_one(match r.below(8) {
        0 | 1 => -x,
        2 => x,
        3 => f32::from_bits(bits ^ 1),
        4 => -f32::from_bits(bits ^ 1),
        5 => {
            let half_step = (f32::from_bits(bits ^ 1) - x).abs() / 2.0;
            let y = half_step * r.one_of(&[1.0, 3.0, 5.0]);
            if y.is_finite() {
                signed(r, y)
            } else {
                value(r, kind)
            }
        }
        _ => value(r, kind),
    })
}
