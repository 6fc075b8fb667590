//! Inputs of the root.

use crate::numbers::{self, moved, whole};
use crate::random::Random;
use crate::record::{Record, ROOT};

pub fn generated(random: &mut Random) -> Record {
    let x = match random.below(10) {
        0 => numbers::special(random),
        1 => numbers::any(random),
        2 => numbers::subnormal(random).abs(),
        3 | 4 => numbers::wild(random).abs(),
        5 => near_square(random),
        6 | 7 => near_middle(random),
        8 => nearest_middle(random),
        _ => newton_case(random),
    };
    record(x)
}

pub fn sample() -> Vec<Record> {
    let mut random = Random::of(1);
    let mut numbers: Vec<f64> = numbers::SPECIALS.map(f64::from_bits).to_vec();
    numbers.extend([4.0, 2.0, -1.0, f64::MAX, f64::from_bits(1)]);
    numbers.extend((0..=20).map(f64::from));
    numbers.extend((-1074..=1023).map(numbers::power));
    for (count, family) in SAMPLED {
        numbers.extend((0..count).map(|_| family(&mut random)));
    }
    numbers.into_iter().map(record).collect()
}

const SAMPLED: [(usize, fn(&mut Random) -> f64); 8] = [
    (150, |random| numbers::subnormal(random).abs()),
    (300, |random| numbers::wild(random).abs()),
    (100, |random| -numbers::wild(random).abs()),
    (150, numbers::any),
    (300, near_square),
    (500, near_middle),
    (300, nearest_middle),
    (300, newton_case),
];

fn record(x: f64) -> Record {
    Record::of_numbers(ROOT, &[x])
}

/// `m` times 2^`e` times a random power of four, in the range of doubles.
fn times_power_of_four(random: &mut Random, m: u64, e: i32) -> f64 {
    let lowest = (-1074 - e).div_euclid(2) + 1;
    let highest = (971 - e).div_euclid(2);
    whole(m, e + 2 * random.between(lowest, highest))
}

/// An exact square, or a neighbour of one.
fn near_square(random: &mut Random) -> f64 {
    let bits = random.between(1, 26);
    let r = random.below(1 << bits) + 1;
    let square = times_power_of_four(random, r * r, 0);
    moved(square, random.between(-1, 1))
}

/// A number next to the square of the middle between two doubles.
fn near_middle(random: &mut Random) -> f64 {
    let s = u128::from(random.word() >> 11 | 1 << 52) * 2 + 1;
    let square = s * s;
    let shift = if square >> 107 == 0 { 54 } else { 55 };
    let m = (square >> shift) as u64 + random.below(2);
    times_power_of_four(random, m.min((1 << 53) - 1), shift)
}

/// A number that differs from the square of a middle by a few units of the
/// last place of that square, so that its root is as near a tie as can be:
/// with s odd of 54 bits, s^2 - d is a number of 53 bits times 2^54 or 2^55.
fn nearest_middle(random: &mut Random) -> f64 {
    let shift = random.between(54, 55);
    loop {
        let d = 8 * i128::from(random.between(-40, 40)) + 1;
        let s = odd_root(random, d, shift);
        let square = s * s - d;
        if square >> (shift + 52) == 1 {
            return times_power_of_four(random, (square >> shift) as u64, shift);
        }
    }
}

/// An odd s from 2^53 to 2^54 with s^2 = d modulo 2^`bits`; d is 1 modulo 8.
/// With s, also -s and s + 2^(`bits` - 1) are such roots.
fn odd_root(random: &mut Random, d: i128, bits: i32) -> i128 {
    let mut s = random.pick(&[1, 3, 5, 7]);
    for known in 3..bits {
        if (s * s - d) >> known & 1 == 1 {
            s += 1 << (known - 1);
        }
    }
    let s = s % (1 << 54);
    s.max((1 << 54) - s)
}

/// A number on which Newton's rule, carried out in doubles, ends one place off.
fn newton_case(random: &mut Random) -> f64 {
    loop {
        let m = random.word() >> 11 | 1 << 52;
        let e = random.between(0, 1);
        let x = times_power_of_four(random, m, e);
        if newton_misses(random, x) {
            return x;
        }
    }
}

fn newton_misses(random: &mut Random, x: f64) -> bool {
    let root = x.sqrt();
    let step = |y: f64| 0.5 * (y + x / y);
    match random.below(3) {
        0 => step(moved(root, 1)) != root,
        1 => step(moved(root, -1)) != root,
        _ => step(step(step(root * 1.01))) != root,
    }
}

#[cfg(test)]
mod tests {
    use super::*;

    #[test]
    fn roots_modulo_a_power_of_two() {
        let mut random = Random::of(0);
        for bits in [54, 55] {
            for d in [-15, -7, 1, 9, 17, 321] {
                let s = odd_root(&mut random, d, bits);
                assert_eq!((s * s - d) % (1 << bits), 0);
                assert_eq!(s >> 53, 1);
            }
        }
    }

    #[test]
    fn the_sample_holds_what_it_has_to() {
        let numbers: Vec<f64> = sample()
            .iter()
            .map(|record| f64::from_bits(record.words[0]))
            .collect();
        assert!(numbers.len() >= 4000);
        for exponent in 0..2048 {
            assert!(numbers
                .iter()
                .any(|x| x.to_bits() >> 52 & 0x7ff == exponent));
        }
        let missed = |x: &&f64| {
            let root = x.sqrt();
            let y = moved(root, 1);
            x.is_normal() && **x > 0.0 && 0.5 * (y + *x / y) != root
        };
        assert!(numbers.iter().filter(missed).count() >= 100);
    }
}
