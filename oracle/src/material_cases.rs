//! Materials that cases are made of.

use crate::material::{Material, Stiffness};
use crate::numbers::{self, moved, power, whole};
use crate::random::Random;

/// Our stock sheet.
pub const STOCK: Material = Material {
    density: 1400.0,
    thickness: 1.0 / 512.0,
    stiffness: Stiffness::Young {
        e: 2147483648.0,
        v: 0.25,
    },
};

const SMALLEST: f64 = f64::from_bits(1);

/// NaNs of either sign, the second one signalling.
const NANS: [f64; 2] = [
    f64::from_bits(0x7ff8_0000_0000_0000),
    f64::from_bits(0xfff0_0000_0000_0001),
];

/// What a routine does not use: NaNs, infinities and ordinary numbers in turn.
pub fn unused(place: usize) -> [f64; 2] {
    [NANS, [f64::INFINITY, f64::NEG_INFINITY], [0.7, 1.3]][place % 3]
}

/// The same, drawn.
pub fn drawn_unused(random: &mut Random) -> [f64; 2] {
    let one = |random: &mut Random| match random.below(4) {
        0 => random.pick(&NANS),
        1 => random.pick(&[f64::INFINITY, f64::NEG_INFINITY]),
        2 => numbers::special(random),
        _ => numbers::small(random) / 10.0,
    };
    [one(random), one(random)]
}

pub fn lame([lambda, myu]: [f64; 2]) -> Stiffness {
    Stiffness::Lame { lambda, myu }
}

pub fn young([e, v]: [f64; 2]) -> Stiffness {
    Stiffness::Young { e, v }
}

/// Both of a Lamé pair or E alone times a factor.
pub fn stiffer(stiffness: Stiffness, factor: f64) -> Stiffness {
    match stiffness {
        Stiffness::Lame { lambda, myu } => lame([lambda * factor, myu * factor]),
        Stiffness::Young { e, v } => young([e * factor, v]),
    }
}

/// E at the edges of 7 and of the range, and where 3 comes first.
pub const MODULI: [f64; 12] = [
    0.0,
    -0.0,
    SMALLEST,
    -SMALLEST,
    f64::MIN_POSITIVE,
    -1.0,
    f64::MAX,
    f64::MIN,
    f64::INFINITY,
    f64::NEG_INFINITY,
    NANS[0],
    NANS[1],
];

/// v at the edges of 7 and one place either side of each, inside and far outside, and
/// where 3 comes first.
pub const RATIOS: [f64; 20] = [
    -1.0,
    f64::from_bits(0xbfef_ffff_ffff_ffff),
    f64::from_bits(0xbff0_0000_0000_0001),
    0.5,
    f64::from_bits(0x3fdf_ffff_ffff_ffff),
    f64::from_bits(0x3fe0_0000_0000_0001),
    0.0,
    -0.0,
    SMALLEST,
    -SMALLEST,
    -0.5,
    1.0,
    -2.0,
    f64::MAX,
    f64::MIN,
    f64::INFINITY,
    f64::NEG_INFINITY,
    NANS[0],
    NANS[1],
    0.25,
];

/// The last ratios that 7 lets through: the divisor of lambda is as small as it can be.
pub const LAST_RATIOS: [f64; 2] = [RATIOS[1], RATIOS[4]];

/// Each edge alone, as E and v and as a Lamé pair; then E and v both wrong, among them with an
/// E / (2 (1 + v)) above zero.
pub fn at_bounds() -> Vec<Stiffness> {
    let e = STOCK.stiffness.given()[0];
    let edges = MODULI.map(|e| [e, 0.25]).into_iter();
    let edges = edges.chain(RATIOS.map(|v| [e, v]));
    let mut all: Vec<Stiffness> = edges.flat_map(|pair| [young(pair), lame(pair)]).collect();
    for e in [0.0, -0.0, -1.3, f64::INFINITY, NANS[1]] {
        let ratios = [-1.0, -1.5, 0.5, 0.7, f64::NEG_INFINITY, NANS[0]];
        all.extend(ratios.map(|v| young([e, v])));
    }
    all
}

/// E and v around each E from which on lambda or myu is infinite, alone or with the other.
/// None is a NaN: E v is finite, and both divisors are above zero.
pub fn near_the_top() -> Vec<[f64; 2]> {
    let ratios = [LAST_RATIOS[0], LAST_RATIOS[1], -0.75, 0.49, 0.25, 0.0];
    let mut pairs = ratios.map(|v| [f64::MAX, v]).to_vec();
    for v in ratios {
        for which in 0..2 {
            let finite = |e: f64| young([e, v]).lame()[which].is_finite();
            if !finite(f64::MAX) {
                let e = last(finite);
                pairs.extend([e / 64.0, e, moved(e, 1)].map(|e| [e, v]));
            }
        }
    }
    pairs
}

/// The last number of which something holds that holds from 1 to there.
fn last(holds: impl Fn(f64) -> bool) -> f64 {
    let (mut low, mut high) = (1f64.to_bits(), f64::MAX.to_bits());
    while low + 1 < high {
        let middle = (low + high) / 2;
        if holds(f64::from_bits(middle)) {
            low = middle;
        } else {
            high = middle;
        }
    }
    f64::from_bits(low)
}

/// E and v whose products and quotients lose places or vanish.
pub fn near_the_bottom() -> Vec<[f64; 2]> {
    let mut pairs = Vec::new();
    for m in [1, 3, 5, (1 << 52) - 1, (1 << 52) + 1] {
        let e = whole(m, -1074);
        let ratios = [0.25, -0.25, 0.3, -0.5, -0.75, -0.0];
        pairs.extend(ratios.iter().chain(&LAST_RATIOS).map(|v| [e, *v]));
    }
    pairs
}

/// A Lamé pair as it is, or as often Young's modulus of lambda's size.
pub fn either(random: &mut Random, pair: [f64; 2]) -> Stiffness {
    if random.percent(50) {
        return lame(pair);
    }
    let e = match random.below(20) {
        0 => random.pick(&MODULI),
        1 => pair[0],
        _ if pair[0] == 0.0 => 1.0,
        _ => pair[0].abs(),
    };
    let v = if random.percent(4) {
        random.pick(&RATIOS)
    } else {
        ratio(random)
    };
    young([e, v])
}

/// A ratio that 7 lets through: of any size, near either bound, or a common one.
pub fn ratio(random: &mut Random) -> f64 {
    match random.below(8) {
        0 => random.pick(&[0.0, -0.0, 0.25, 0.3, 0.45, -0.5]),
        1 => 0.5 - power(random.between(-54, -2)),
        2 => power(random.between(-53, -1)) - 1.0,
        3 => {
            let e = random.between(-70, -3);
            numbers::scaled(random, e)
        }
        4 | 5 => numbers::scaled(random, -2),
        6 => numbers::scaled(random, -3),
        _ => -numbers::scaled(random, -1).abs(),
    }
}
