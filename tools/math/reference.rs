//! exp, ln and ln_1p in the rounded steps of docs/MATH.md.
//!
//! docs/MATH.md is the law and this is its plain reading: one f64 operator
//! for each step, in its order, nothing fused and nothing reordered. Rust
//! never contracts a product and a sum, so the bits are the law's bits. The
//! tests hold the proved code against this file.

#[path = "tables.rs"]
#[rustfmt::skip]
mod tables;

use tables::{HI, LO, LOG, MLOG};

const THIRD: f64 = f64::from_bits(0x3fd5555555555555); // 1/3
const FIFTH: f64 = f64::from_bits(0x3fc999999999999a); // 1/5
const SIXTH: f64 = f64::from_bits(0x3fc5555555555555); // 1/6
const TWENTY_FOURTH: f64 = f64::from_bits(0x3fa5555555555555); // 1/24
const HUNDRED_TWENTIETH: f64 = f64::from_bits(0x3f81111111111111); // 1/120
const LN_2: f64 = f64::from_bits(0x3fe62e42fefa39ef);
const TWO_54: f64 = f64::from_bits(0x4350000000000000); // 2^54
const SMALLEST_NORMAL: f64 = f64::from_bits(0x0010000000000000); // 2^-1022
const FRACTION: u64 = 1 << 52; // bit patterns that share sign and exponent
const HALF_BITS: u64 = 0x3fe0000000000000; // bits of 1/2

/// The multiples of 1/steps, for a power of two `steps`.
struct Grid {
    half_step: f64,
    /// 1.5 · 2^52 / steps: here neighbouring f64 stand one step apart.
    shift: f64,
    steps: f64,
}

const BY_64: Grid = Grid {
    half_step: f64::from_bits(0x3f80000000000000), // 1/128
    shift: f64::from_bits(0x42d8000000000000),     // 1.5 · 2^46
    steps: 64.0,
};

const BY_128: Grid = Grid {
    half_step: f64::from_bits(0x3f70000000000000), // 1/256
    shift: f64::from_bits(0x42c8000000000000),     // 1.5 · 2^45
    steps: 128.0,
};

impl Grid {
    /// The grid point below t, and its number.
    fn cut(&self, t: f64) -> (f64, usize) {
        let a = ((t - self.half_step) + self.shift) - self.shift;
        (a, (a * self.steps) as usize)
    }
}

/// f - f²/2 + c f³ - w f⁴, the shape that exp and ln_1p share.
fn fall(f: f64, c: f64, w: f64) -> f64 {
    let s = f * f;
    f - s * ((0.5 - f * c) + s * w)
}

/// e^(-f) for 0 <= f <= 1/64.
fn exp_poly(f: f64) -> f64 {
    1.0 - fall(f, SIXTH, TWENTY_FOURTH - f * HUNDRED_TWENTIETH)
}

/// ln(1 + r) for 0 <= r <= 1/64.
fn ln_fall(r: f64) -> f64 {
    let s = r * r;
    fall(r, THIRD, (0.25 - r * FIFTH) + s * SIXTH)
}

/// -ln(1 - s) for 0 <= s < 1/64.
fn ln_rise(s: f64) -> f64 {
    let q = s * s;
    s + q * ((0.5 + s * THIRD) + q * ((0.25 + s * FIFTH) + q * SIXTH))
}

/// e^(-t) for 0 < t < 746.
fn exp_neg(t: f64) -> f64 {
    let (a, k) = BY_64.cut(t);
    f64::from_bits(LO[k % 256]) * exp_poly(t - a) * f64::from_bits(HI[k / 256])
}

/// e^x.
pub fn exp(x: f64) -> f64 {
    if x.is_nan() {
        f64::NAN
    } else if x <= -746.0 {
        0.0
    } else if x < 0.0 {
        exp_neg(-x)
    } else if x == 0.0 {
        1.0
    } else if x < 746.0 {
        1.0 / exp_neg(x)
    } else {
        f64::INFINITY
    }
}

/// -ln x for 1/2 <= x <= 1.
fn ln_half(x: f64) -> f64 {
    let v = 1.0 - x;
    let (a, k) = BY_128.cut(v);
    let s = (v - a) / (1.0 - a);
    f64::from_bits(MLOG[k]) + ln_rise(s)
}

/// A normal x > 0 as m · 2^(field - 1022) with m from 1/2 up to 1:
/// the exponent field and m.
fn parts(x: f64) -> (i64, f64) {
    let bits = x.to_bits();
    let m = f64::from_bits(bits % FRACTION + HALF_BITS);
    ((bits / FRACTION) as i64, m)
}

/// ln of x · 2^(1022 - n), a number below 1/2, for a normal x > 0.
fn ln_small(n: i64, x: f64) -> f64 {
    let (field, m) = parts(x);
    let r = (n - field) as f64 * LN_2 + ln_half(m);
    0.0 - r
}

/// The natural logarithm of x.
pub fn ln(x: f64) -> f64 {
    if x.is_nan() || x < 0.0 {
        f64::NAN
    } else if x == 0.0 {
        f64::NEG_INFINITY
    } else if x < SMALLEST_NORMAL {
        ln_small(1076, x * TWO_54)
    } else if x < 0.5 {
        ln_small(1022, x)
    } else if x <= 1.0 {
        0.0 - ln_half(x)
    } else if x < f64::INFINITY {
        let (field, m) = parts(x);
        (field - 1022) as f64 * LN_2 - ln_half(m)
    } else {
        f64::INFINITY
    }
}

/// ln(1 + y) for 0 < y <= 1.
fn ln_1p_unit(y: f64) -> f64 {
    let (a, k) = BY_64.cut(y);
    let r = (y - a) / (1.0 + a);
    f64::from_bits(LOG[k]) + ln_fall(r)
}

/// ln(1 + y).
pub fn ln_1p(y: f64) -> f64 {
    if y == 0.0 {
        0.0
    } else if y > 0.0 && y <= 1.0 {
        ln_1p_unit(y)
    } else {
        ln(1.0 + y)
    }
}

/// The bits of a result. A NaN of any payload is one NaN.
pub fn bits(value: f64) -> u64 {
    if value.is_nan() {
        0x7ff8000000000000
    } else {
        value.to_bits()
    }
}
