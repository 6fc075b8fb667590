//! A double that keeps a list of everything it was divided by.

use num_traits::{AsPrimitive, Float, Num, NumCast, One, ToPrimitive, Zero};
use std::cell::RefCell;
use std::num::FpCategory;
use std::ops::{Add, AddAssign, Div, Mul, MulAssign, Neg, Rem, Sub};

#[derive(Clone, Copy, Debug, PartialEq, PartialOrd)]
pub struct Traced(pub f64);

thread_local! {
    static DIVISORS: RefCell<Vec<f64>> = const { RefCell::new(Vec::new()) };
}

/// What `work` returns, and the divisors of all its divisions in order.
pub fn run<R>(work: impl FnOnce() -> R) -> (R, Vec<f64>) {
    DIVISORS.take();
    let result = work();
    (result, DIVISORS.take())
}

impl Div for Traced {
    type Output = Traced;
    fn div(self, divisor: Traced) -> Traced {
        DIVISORS.with_borrow_mut(|list| list.push(divisor.0));
        Traced(self.0 / divisor.0)
    }
}

impl AddAssign for Traced {
    fn add_assign(&mut self, other: Traced) {
        *self = *self + other;
    }
}

impl MulAssign for Traced {
    fn mul_assign(&mut self, other: Traced) {
        *self = *self * other;
    }
}

impl Neg for Traced {
    type Output = Traced;
    fn neg(self) -> Traced {
        Traced(-self.0)
    }
}

macro_rules! operators {
    ($($name:ident $method:ident),*) => { $(
        impl $name for Traced {
            type Output = Traced;
            fn $method(self, other: Traced) -> Traced {
                Traced(self.0.$method(other.0))
            }
        }
    )* };
}

operators!(Add add, Sub sub, Mul mul, Rem rem);

impl Zero for Traced {
    fn zero() -> Traced {
        Traced(0.0)
    }
    fn is_zero(&self) -> bool {
        self.0 == 0.0
    }
}

impl One for Traced {
    fn one() -> Traced {
        Traced(1.0)
    }
}

impl Num for Traced {
    type FromStrRadixErr = <f64 as Num>::FromStrRadixErr;
    fn from_str_radix(text: &str, radix: u32) -> Result<Traced, Self::FromStrRadixErr> {
        f64::from_str_radix(text, radix).map(Traced)
    }
}

impl ToPrimitive for Traced {
    fn to_i64(&self) -> Option<i64> {
        self.0.to_i64()
    }
    fn to_u64(&self) -> Option<u64> {
        self.0.to_u64()
    }
    fn to_f64(&self) -> Option<f64> {
        Some(self.0)
    }
}

impl NumCast for Traced {
    fn from<N: ToPrimitive>(number: N) -> Option<Traced> {
        number.to_f64().map(Traced)
    }
}

impl AsPrimitive<Traced> for f64 {
    fn as_(self) -> Traced {
        Traced(self)
    }
}

macro_rules! float {
    (constants $($constant:ident)*; tests $($test:ident)*; unary $($unary:ident)*; binary $($binary:ident)*;) => {
        impl Float for Traced {
            $(fn $constant() -> Traced {
                Traced(<f64 as Float>::$constant())
            })*
            $(fn $test(self) -> bool {
                self.0.$test()
            })*
            $(fn $unary(self) -> Traced {
                Traced(Float::$unary(self.0))
            })*
            $(fn $binary(self, other: Traced) -> Traced {
                Traced(Float::$binary(self.0, other.0))
            })*
            fn recip(self) -> Traced {
                Traced::one() / self
            }
            fn mul_add(self, a: Traced, b: Traced) -> Traced {
                Traced(self.0.mul_add(a.0, b.0))
            }
            fn powi(self, n: i32) -> Traced {
                Traced(self.0.powi(n))
            }
            fn sin_cos(self) -> (Traced, Traced) {
                (self.sin(), self.cos())
            }
            fn classify(self) -> FpCategory {
                self.0.classify()
            }
            fn integer_decode(self) -> (u64, i16, i8) {
                self.0.integer_decode()
            }
        }
    };
}

float! {
    constants nan infinity neg_infinity neg_zero min_value min_positive_value epsilon max_value;
    tests is_nan is_infinite is_finite is_normal is_sign_positive is_sign_negative;
    unary floor ceil round trunc fract abs signum sqrt exp exp2 ln log2 log10 to_degrees to_radians
        cbrt sin cos tan asin acos atan exp_m1 ln_1p sinh cosh tanh asinh acosh atanh;
    binary powf log max min abs_sub hypot atan2 copysign;
}
