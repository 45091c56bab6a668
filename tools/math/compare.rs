//! Does the proved code give the bits of docs/MATH.md?
//!
//! Every argument goes through exp, ln and ln_1p, once in the proved code
//! and once in reference.rs. One difference fails. The arguments are the
//! same in every run. They are dense where a step could go wrong: at grid
//! points, at powers of two, among subnormals, at the ends of each case and
//! where a polynomial shows most of its bits.

mod random;
mod reference;

use random::Random;

struct Function {
    name: &'static str,
    proved: extern "C" fn(f64) -> f64,
    reference: fn(f64) -> f64,
}

const FUNCTIONS: [Function; 3] = [
    Function {
        name: "exp",
        proved: causeylark::c::causeylark_exp,
        reference: reference::exp,
    },
    Function {
        name: "ln",
        proved: causeylark::c::causeylark_ln,
        reference: reference::ln,
    },
    Function {
        name: "ln_1p",
        proved: causeylark::c::causeylark_ln_1p,
        reference: reference::ln_1p,
    },
];

const SHOWN: u64 = 10;
const SIGN: u64 = 1 << 63;

struct Comparison {
    arguments: u64,
    differences: u64,
}

impl Comparison {
    fn at(&mut self, argument: u64) {
        self.arguments += 1;
        for function in &FUNCTIONS {
            let x = f64::from_bits(argument);
            let found = reference::bits((function.proved)(x));
            let wanted = reference::bits((function.reference)(x));
            if found != wanted {
                self.differences += 1;
                if self.differences <= SHOWN {
                    println!(
                        "{} {argument:016x}: proved {found:016x}, reference {wanted:016x}",
                        function.name
                    );
                }
            }
        }
    }

    /// A pattern and `reach` patterns on each side of it, of both signs.
    fn around(&mut self, argument: u64, reach: u64) {
        for step in 0..=2 * reach {
            let near = argument.wrapping_sub(reach).wrapping_add(step);
            self.at(near);
            self.at(near ^ SIGN);
        }
    }

    fn uniform_patterns(&mut self, random: &mut Random) {
        for _ in 0..1_000_000 {
            self.at(random.bits());
        }
    }

    /// The trainer's ranges, the whole range where exp has steps, and the
    /// first cells of the logarithms. There the table adds little, and so
    /// hides few bits of the polynomial.
    fn ranges(&mut self, random: &mut Random) {
        for (low, high) in [
            (-40.0, 0.0),
            (0.0, 1.0),
            (-746.0, 746.0),
            (0.0, 1.0 / 64.0),
            (63.0 / 64.0, 1.0),
        ] {
            for _ in 0..300_000 {
                self.at(random.between(low, high).to_bits());
            }
        }
    }

    /// Small numbers, evenly over their exponents: 2^-64 to 1.
    fn small(&mut self, random: &mut Random) {
        for _ in 0..300_000 {
            let exponent = 1023 - 1 - random.bits() % 64;
            self.at(exponent << 52 | random.bits() >> 12 | random.bits() & SIGN);
        }
    }

    fn subnormals(&mut self, random: &mut Random) {
        for _ in 0..100_000 {
            // Evenly over the lengths, so that short ones come too.
            let length = 1 + random.bits() % 52;
            self.at(random.bits() >> (64 - length));
        }
        for place in 0..52 {
            self.around(1 << place, 2);
        }
    }

    /// Every multiple of 1/128, so of 1/64 too, as far as exp has steps.
    fn grid(&mut self) {
        for j in 0..=746 * 128 {
            self.around((j as f64 / 128.0).to_bits(), 2);
        }
    }

    /// Every power of two, and the grid points of ln above each of them.
    fn binades(&mut self) {
        for exponent in 0..2047u64 {
            for j in 0..64 {
                self.around(exponent << 52 | j << 46, 1);
            }
        }
    }

    /// Where a slip in a far term of a polynomial shows: the last place of a
    /// constant, or the order of a sum. It shows at one argument in 2^17 to
    /// 2^32, so these were searched for. None was found for c120 in exp_poly
    /// and c6 in ln_rise.
    fn far_terms(&mut self) {
        for argument in [
            0xbf8ffffd8411241f, // exp_poly, c6 one place up
            0xbf8fffff95fa1ee2, // exp_poly, c6 one place down
            0xbf8fffc58eead286, // exp_poly, c24 one place up
            0xbf8ffedd04dc6e19, // exp_poly, c24 one place down
            0x3f8fffea1e2ddf47, // ln_fall, c5 one place up
            0x3f8fffcbb4dc17f7, // ln_fall, c5 one place down
            0x3f8fe881815f9b25, // ln_fall, c6 one place up
            0x3f8feb510fae1c8e, // ln_fall, c6 one place down
            0x3f8ffffb50bf62a9, // ln_fall, 1/4 - (r * c5 - s * c6)
            0x3fef8000008524ee, // ln_rise, c3 one place up
            0x3fef800000e7402a, // ln_rise, c3 one place down
            0x3fef80000b67b9c3, // ln_rise, c5 one place up
            0x3fef80029097f3bb, // ln_rise, c5 one place down
            0x3fefc00c035ad75b, // ln_rise, 1/4 + (s * c5 + q * c6)
        ] {
            self.at(argument);
        }
    }

    fn ends(&mut self) {
        for end in [
            0.0,
            0.5,
            1.0,
            700.0,
            708.3964185322641, // above it, e^-x is subnormal
            709.782712893384,  // above it, e^x overflows
            744.4400719213812, // -ln of the smallest f64
            745.0,
            745.3862943611199, // from it on, our e^-x is zero
            746.0,
            f64::MIN_POSITIVE,
            f64::MAX,
            f64::INFINITY,
        ] {
            self.around(f64::to_bits(end), 1000);
        }
        for nan in [0x7ff8000000000000, 0x7ff0000000000001, 0x7fffffffffffffff] {
            self.around(nan, 0);
        }
    }
}

fn main() {
    let mut random = Random(1);
    let mut comparison = Comparison {
        arguments: 0,
        differences: 0,
    };
    comparison.ends();
    comparison.far_terms();
    comparison.grid();
    comparison.binades();
    comparison.subnormals(&mut random);
    comparison.small(&mut random);
    comparison.ranges(&mut random);
    comparison.uniform_patterns(&mut random);
    println!(
        "compare: {} arguments through {} functions, {} differences",
        comparison.arguments,
        FUNCTIONS.len(),
        comparison.differences
    );
    if comparison.differences > 0 {
        std::process::exit(1);
    }
}
