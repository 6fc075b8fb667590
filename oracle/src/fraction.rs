//! Exact fractions of whole numbers, and the doubles that are such.

use std::fmt;
use std::ops::{Add, Mul, Sub};

/// In lowest terms, the bottom above zero.
#[derive(Clone, Copy, Debug, PartialEq)]
pub struct Fraction {
    top: i128,
    bottom: i128,
}

impl Fraction {
    /// Of a bottom above zero.
    pub fn new(top: i128, bottom: i128) -> Fraction {
        assert!(bottom > 0, "{top} over {bottom}");
        let common = common_divisor(top.unsigned_abs(), bottom.unsigned_abs()) as i128;
        Fraction {
            top: top / common,
            bottom: bottom / common,
        }
    }

    /// The number that a double's bits stand for; none where it is not finite or
    /// does not fit. Both zeros are one.
    pub fn of_bits(bits: u64) -> Option<Fraction> {
        let (biased, fraction) = (bits >> 52 & 0x7ff, bits & ((1 << 52) - 1));
        let (size, exponent) = match biased {
            0x7ff => return None,
            0 => (fraction, -1074),
            _ => (fraction | 1 << 52, biased as i32 - 1075),
        };
        if size == 0 {
            return Some(Fraction::new(0, 1));
        }
        let zeros = size.trailing_zeros();
        let (odd, exponent) = (i128::from(size >> zeros), exponent + zeros as i32);
        let signed = if bits >> 63 == 0 { odd } else { -odd };
        match exponent {
            0..=73 => Some(Fraction::new(signed << exponent, 1)),
            -126..=-1 => Some(Fraction::new(signed, 1 << -exponent)),
            _ => None,
        }
    }

    /// Where it is a whole number.
    pub fn whole(self) -> Option<i128> {
        (self.bottom == 1).then_some(self.top)
    }
}

fn common_divisor(mut a: u128, mut b: u128) -> u128 {
    while b != 0 {
        (a, b) = (b, a % b);
    }
    a
}

fn product(a: i128, b: i128) -> i128 {
    a.checked_mul(b).expect("a product that fits")
}

impl Mul for Fraction {
    type Output = Fraction;
    fn mul(self, other: Fraction) -> Fraction {
        Fraction::new(
            product(self.top, other.top),
            product(self.bottom, other.bottom),
        )
    }
}

impl Add for Fraction {
    type Output = Fraction;
    fn add(self, other: Fraction) -> Fraction {
        let tops = [
            product(self.top, other.bottom),
            product(other.top, self.bottom),
        ];
        let top = tops[0].checked_add(tops[1]).expect("a sum that fits");
        Fraction::new(top, product(self.bottom, other.bottom))
    }
}

impl Sub for Fraction {
    type Output = Fraction;
    fn sub(self, other: Fraction) -> Fraction {
        self + other * Fraction::new(-1, 1)
    }
}

impl fmt::Display for Fraction {
    fn fmt(&self, f: &mut fmt::Formatter) -> fmt::Result {
        match self.bottom {
            1 => write!(f, "{}", self.top),
            bottom => write!(f, "{}/{bottom}", self.top),
        }
    }
}
