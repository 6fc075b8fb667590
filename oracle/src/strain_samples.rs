//! Chosen inputs of the two strains, the ported one and the book's.

use crate::family;
use crate::kernels;
use crate::numbers::{moved, power, scaled};
use crate::random::Random;
use crate::record::{numbers_of, GREEN_LAGRANGE, STRAIN};

pub fn strain() -> Vec<Vec<f64>> {
    let rest = [0.0, 0.0, 1.0, 0.0, 0.0, 1.0];
    let pulled = [0.0, 0.0, 0.0, 2.0, 0.0, 0.0, 0.0, 1.0, 0.0];
    let original = [
        vec![0.1, 0.2, 0.2, 0.1, 0.3, 0.4],
        vec![0.31, 0.04, 0.38, 0.13, 0.13, 0.07, 0.03, 0.42, 0.35],
    ];
    let clockwise = [0.0, 0.0, 0.0, 1.0, 1.0, 0.0];
    let line = [0.0, 0.0, 1.0, 0.0, 2.0, 0.0];
    let same_point = [1.0, 2.0, 1.0, 2.0, 1.0, 2.0];
    let mut cases = vec![original.concat()];
    for rest in [rest, clockwise, line, same_point] {
        for deformed in [pulled, pulled.map(|x| -x), [0.0; 9], [-0.0; 9]] {
            cases.push([rest.to_vec(), deformed.to_vec()].concat());
        }
    }
    [
        cases,
        tiny_strains(),
        aligned_strains(),
        strains_of_minus_zero(),
        cancelling_strains(),
    ]
    .concat()
}

/// Sides along the axes in all directions, made longer and shorter: the mixed
/// factors are zeros of either sign.
fn aligned_strains() -> Vec<Vec<f64>> {
    let mut cases = Vec::new();
    for (a, b) in [(1.0, 1.0), (-1.0, 1.0), (1.0, -1.0), (-1.0, -1.0)] {
        for (c, d) in [(2.0, 2.0), (0.5, 2.0), (2.0, 0.5), (0.5, 0.5)] {
            let deformed = [0.0, 0.0, 0.0, c, 0.0, 0.0, 0.0, d, 0.0];
            for rest in [[0.0, 0.0, a, 0.0, 0.0, b], [0.0, 0.0, 0.0, a, b, 0.0]] {
                cases.push([rest.to_vec(), deformed.to_vec()].concat());
            }
        }
    }
    cases
}

/// A side of a few smallest squares: half of a difference of squares is not
/// the difference of the halves.
fn tiny_strains() -> Vec<Vec<f64>> {
    let [a, b, c] = [1.7 * power(-537), power(500), power(-537)];
    vec![
        vec![
            0.0, 0.0, a, 0.0, 0.0, b, 0.0, 0.0, 0.0, c, 0.0, 0.0, 0.0, b, 0.0,
        ],
        vec![
            0.0, 0.0, b, 0.0, 0.0, a, 0.0, 0.0, 0.0, b, 0.0, 0.0, 0.0, c, 0.0,
        ],
    ]
}

/// A sheet so thin that every product of a strain and a factor underflows,
/// with strains of both signs: some sums are -0.
fn strains_of_minus_zero() -> Vec<Vec<f64>> {
    let thin = power(-530);
    let mut cases = Vec::new();
    for [x1, y1, x2, y2] in [
        [0.0, 1.0, thin, 1.0],
        [1.0, 0.0, 1.0, thin],
        [0.0, 1.0, -thin, 1.0],
        [1.0, 0.0, 1.0, -thin],
    ] {
        for [along, across] in [[1.0 - power(-20), 0.0], [1.0 - power(-20), power(-9)]] {
            for side in [across, -across] {
                let rest = [0.0, 0.0, x1, y1, x2, y2];
                let deformed = [0.0, 0.0, 0.0, along, side, 0.0, along, -side, 0.0];
                cases.push([rest.to_vec(), deformed.to_vec()].concat());
            }
        }
    }
    cases
}

/// Contravariant vectors at 60 and 180 degrees, drawn until the mixed factors
/// of corner 0 cancel to a zero, with deformed sides that show its sign.
fn cancelling_strains() -> Vec<Vec<f64>> {
    let mut random = Random::of(60);
    let deformed = |x: [f64; 3], y: [f64; 3]| [vec![0.0; 3], x.to_vec(), y.to_vec()].concat();
    let (ones, zeros) = ([1.0, -1.0, 1.0], [0.0, 0.0, -0.0]);
    let mut cases = Vec::new();
    for first in [true, false] {
        let (seen, sign) = if first { (ones, zeros) } else { (zeros, ones) };
        let rest = loop {
            let t = scaled(&mut random, 0).abs();
            let (slanted, upright) = ([-3f64.sqrt() * t, t], [0.0, 1.0]);
            let corners = if first {
                [upright, slanted]
            } else {
                [slanted, upright]
            };
            let rest = [[0.0, 0.0], corners[0], corners[1]].concat();
            let inputs = [rest.clone(), deformed(seen, sign)].concat();
            if kernels::answer(STRAIN, &inputs).values[3 + 2 * 9] == 0.0 {
                break rest;
            }
        };
        for (a, b) in [(1.0, 1.0), (1.0, -1.0), (-1.0, 1.0), (-1.0, -1.0)] {
            let sides = deformed(seen.map(|x| x * a), sign.map(|x| x * b));
            cases.push([rest.clone(), sides].concat());
        }
    }
    cases
}

/// The strain's own, then what the lengths of the contravariant vectors bring up.
pub fn green_lagrange() -> Vec<Vec<f64>> {
    let mut random = Random::of(88);
    [
        strain(),
        pulled_to_twice(),
        members(&mut random),
        signs_of_zero(&mut random),
        cancelling_factors(),
        sums_of_minus_zero(&mut random),
        subnormal_squares(&mut random),
        subnormal_factors(&mut random),
        subnormal_crosses(),
        thin_sheets(),
        normals_at_the_ends(),
        lone_zero_dots(&mut random),
        dots_below_zero(),
        one_beyond_the_range(),
        derivatives_beyond_the_range(),
        refused_twice(),
    ]
    .concat()
}

/// Corners 1 and 2 as seen from corner 0, at rest and deformed.
fn seen(rest: [[f64; 2]; 2], deformed: [[f64; 3]; 2]) -> Vec<f64> {
    let (rest, deformed) = (rest.concat(), deformed.concat());
    [vec![0.0; 2], rest, vec![0.0; 3], deformed].concat()
}

/// Twice as long in x: 1.5 by the book, where the ported strain says 6.
fn pulled_to_twice() -> Vec<Vec<f64>> {
    let twice = [[4.0, 0.0, 0.0], [0.0, 1.0, 0.0]];
    let other = [[0.0, 1.0, 0.0], [4.0, 0.0, 0.0]];
    vec![
        seen([[2.0, 0.0], [0.0, 1.0]], twice),
        seen([[0.0, 1.0], [2.0, 0.0]], other),
        seen([[-2.0, 0.0], [0.0, -1.0]], twice),
    ]
}

fn members(random: &mut Random) -> Vec<Vec<f64>> {
    let corners = family::corners().into_iter().step_by(117);
    let drawn = (0..24).map(|turn| family::drawn(turn * 5, random));
    corners
        .chain(drawn)
        .map(|record| numbers_of(&record.words))
        .collect()
}

/// Sides along the axes, of heights other than 1, with deformed sides that are
/// mostly zeros.
fn signs_of_zero(random: &mut Random) -> Vec<Vec<f64>> {
    let mut cases = Vec::new();
    for (a, b) in [(2.0, 4.0), (-2.0, 0.5), (0.25, -4.0), (-0.5, -8.0)] {
        for rest in [[[a, 0.0], [0.0, b]], [[0.0, a], [b, 0.0]]] {
            for _ in 0..6 {
                let mut side = || [0; 3].map(|_| random.pick(&[0.0, -0.0, 0.0, -0.0, 1.0, -1.0]));
                cases.push(seen(rest, [side(), side()]));
            }
        }
    }
    cases
}

/// The factors of corner 0 cancel to a zero: both of xx, both of yy, the first of
/// xy, the second of xy.
fn cancelling_factors() -> Vec<Vec<f64>> {
    let mut cases = Vec::new();
    for rest in [
        [[1.0, 1.0], [-1.0, 1.0]],
        [[1.0, 1.0], [1.0, -1.0]],
        [[1.0, 0.0], [0.5, 0.5]],
        [[0.5, 0.5], [1.0, 0.0]],
    ] {
        let deformed = [[1.0, 1.0, 0.0], [1.0, 0.0, 1.0]];
        for sign in [1.0, -1.0] {
            for size in [1.0, 8.0] {
                let rest = rest.map(|side| side.map(|x| x * size));
                cases.push(seen(rest, deformed.map(|side| side.map(|x| x * sign))));
            }
        }
    }
    cases
}

/// Three products of -0 for xx, for yy and for xy. A strain along an edge that is -0 is
/// half of the smallest number below zero; one of a side that keeps its length is +0,
/// and so the sum is no -0.
fn sums_of_minus_zero(random: &mut Random) -> Vec<Vec<f64>> {
    let mut cases = Vec::new();
    let mut along_axes = |long: f64, short: f64, other: f64| {
        let half = other / 2.0;
        cases.push(seen(
            [[long, 0.0], [0.0, other]],
            [[short, 0.0, 0.0], [-half, half, 0.0]],
        ));
        cases.push(seen(
            [[other, 0.0], [0.0, long]],
            [[half, -half, 0.0], [0.0, short, 0.0]],
        ));
    };
    for other in [1.0, 2.0] {
        let [long, short] = a_smallest_square_apart(random);
        along_axes(long, short, other);
        along_axes(4.0, 4.0, other);
    }
    for [a, b] in [[1.0, 1.0], [2.0, 4.0]] {
        let sheared = [[0.5, -0.0, 0.0], [-0.0, 0.5, -0.0]];
        cases.push(seen([[a, 0.0], [0.0, b]], sheared));
    }
    cases
}

/// Two lengths whose squares differ by the smallest number.
fn a_smallest_square_apart(random: &mut Random) -> [f64; 2] {
    loop {
        let long = scaled(random, -512).abs();
        let short = moved(long, -1);
        if long * long - short * short == power(-1074) {
            return [long, short];
        }
    }
}

/// Squares of a side are subnormal: half of a difference of squares is not the
/// difference of the halves.
fn subnormal_squares(random: &mut Random) -> Vec<Vec<f64>> {
    let mut cases = Vec::new();
    for _ in 0..6 {
        let [a, c] = [0; 2].map(|_| scaled(random, -512));
        let b = power(300);
        cases.push(seen([[a, 0.0], [0.0, b]], [[c, 0.0, 0.0], [0.0, b, 0.0]]));
        cases.push(seen([[b, 0.0], [0.0, a]], [[b, 0.0, 0.0], [0.0, c, 0.0]]));
    }
    cases
}

/// Both orders of two rest sides; of the deformed sides, that of the first alone is not nothing.
fn first_pulled(first: [f64; 2], second: [f64; 2]) -> [Vec<f64>; 2] {
    let (pulled, none) = ([1.0, -1.0, power(200)], [0.0; 3]);
    [
        seen([first, second], [pulled, none]),
        seen([second, first], [none, pulled]),
    ]
}

/// The product of a contravariant vector's components is subnormal: twice of it is
/// not the product with one of them doubled.
fn subnormal_factors(random: &mut Random) -> Vec<Vec<f64>> {
    let drawn = (0..4).flat_map(|_| {
        let long = [0.0, scaled(random, 460)];
        let slanted = [scaled(random, 0), scaled(random, -140)];
        first_pulled(long, slanted)
    });
    drawn.collect()
}

/// The normal is scaled to 0.75, and a cross with it has a subnormal component: twice of
/// that is not the cross with a normal twice as long.
fn subnormal_crosses() -> Vec<Vec<f64>> {
    let long = [0.0, 1.5 * power(-238)];
    let of_size = |size| first_pulled(long, [power(-300), size * power(-1074)]);
    [1.0, 2.0, 5.0, 6.0].into_iter().flat_map(of_size).collect()
}

/// The square of a contravariant vector's length is in range or just not.
fn thin_sheets() -> Vec<Vec<f64>> {
    let mut cases = Vec::new();
    for height in [power(-513), power(-512), moved(power(-512), 4), power(-511)] {
        for length in [1.0, power(200), power(500)] {
            let sides = [[0.5, -0.25, 0.125], [0.25, 0.75, -0.5]];
            cases.push(seen([[height, 0.0], [0.0, length]], sides));
            cases.push(seen([[length, 0.0], [0.0, height]], sides));
        }
    }
    cases
}

/// The square of the normal is a few smallest numbers or none: the scaled normal is
/// not 1 long, or its norm is zero; and normals whose norm is the largest or infinite.
fn normals_at_the_ends() -> Vec<Vec<f64>> {
    let mut cases = Vec::new();
    let sides = [[0.5, -0.25, 0.125], [0.25, 0.75, -0.5]];
    for size in [1.0, 1.2, 1.4, 1.5, 1.9, 2.6, 3.0, 5.2] {
        let normal = size * power(-538);
        cases.push(seen(
            [[normal * power(200), 0.0], [0.0, power(-200)]],
            sides,
        ));
        cases.push(seen(
            [[0.0, power(-200)], [normal * power(200), 0.0]],
            sides,
        ));
    }
    for (a, b) in [(256, 255), (256, 256), (100, 411), (100, 412), (600, -90)] {
        cases.push(seen([[power(a), 0.0], [0.0, power(b)]], sides));
        cases.push(seen([[0.0, power(b)], [power(a), 0.0]], sides));
    }
    cases
}

/// The first dot is a zero and no other divisor is, then the second.
fn lone_zero_dots(random: &mut Random) -> Vec<Vec<f64>> {
    let found = [1, 1, 2, 2].map(|place| loop {
        let sides = short_and_nearly_parallel(random);
        let inputs = seen(sides, [[1.0, 0.0, 0.0], [0.0, 1.0, 0.0]]);
        let divisors = kernels::divisors(GREEN_LAGRANGE, &inputs);
        if (0..3).all(|i| (divisors[i] == 0.0) == (i == place)) {
            break inputs;
        }
    });
    found.to_vec()
}

/// Drawn until the normal is three last places of the products that it is the difference
/// of, and scaled by its norm is 0.75 or 1.06: there a dot may cancel. A normal that is
/// scaled to 1 is the dot.
fn short_and_nearly_parallel(random: &mut Random) -> [[f64; 2]; 2] {
    loop {
        let factor = scaled(random, 0);
        let first = [0; 2].map(|_| scaled(random, -244));
        let second = first.map(|x| moved(x * factor, random.between(-2, 2)));
        let normal = first[0] * second[1] - first[1] * second[0];
        if [power(-538), power(-537)].contains(&(normal.abs() / 1.5)) {
            return [first, second];
        }
    }
}

/// A cross of two smallest numbers, rounded from 1.5, turns the sign of a dot.
fn dots_below_zero() -> Vec<Vec<f64>> {
    let long = [power(538), 1.0];
    let short = [9.5 * power(-538), power(-1073)];
    let deformed = [[1.0, 0.0, 0.0], [0.0, 1.0, 0.0]];
    vec![seen([long, short], deformed), seen([short, long], deformed)]
}

/// One strain alone overflows: xx, yy, xy.
fn one_beyond_the_range() -> Vec<Vec<f64>> {
    let (far, thin, small) = (power(500), power(-15), power(-12));
    vec![
        seen(
            [[thin, 0.0], [0.0, 1.0]],
            [[far, 0.0, 0.0], [0.0, 1.0, 0.0]],
        ),
        seen(
            [[1.0, 0.0], [0.0, thin]],
            [[1.0, 0.0, 0.0], [0.0, far, 0.0]],
        ),
        seen([[small, 0.0], [0.0, small]], [[far, 0.0, 0.0]; 2]),
    ]
}

/// Derivatives of one strain alone overflow, by corner 0 and one other.
fn derivatives_beyond_the_range() -> Vec<Vec<f64>> {
    let along = 1.1 * power(-512);
    let slanted = [0.79 * power(-512); 2];
    let mut cases = Vec::new();
    for (thin, other) in [
        ([along, 0.0], [0.0, 1.0]),
        ([0.0, along], [1.0, 0.0]),
        (slanted, [1.0, -1.0]),
    ] {
        let (pulled, none) = ([0.0, 0.0, 1.5], [0.0; 3]);
        cases.push(seen([thin, other], [pulled, none]));
        cases.push(seen([other, thin], [none, pulled]));
    }
    cases
}

/// A zero divisor, and a number that is not finite: on a line, and too large.
fn refused_twice() -> Vec<Vec<f64>> {
    let large = power(300);
    let mut cases = Vec::new();
    for place in 6..15 {
        for (rest, bad) in [
            ([[1.0, 0.0], [2.0, 0.0]], f64::NAN),
            ([[large, 0.0], [0.0, large]], f64::INFINITY),
        ] {
            let mut inputs = seen(rest, [[1.0; 3]; 2]);
            inputs[place] = bad;
            cases.push(inputs);
        }
    }
    cases
}
