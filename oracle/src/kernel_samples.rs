//! The fixed sample of the kernels: chosen inputs, then drawn ones.

use crate::kernel_cases::{
    drawn, layout, over, right_angle, with_one_infinite, with_zero_divisors, Layout,
};
use crate::material_cases::unused;
use crate::material_samples;
use crate::numbers::{self, power, scaled};
use crate::random::Random;
use crate::record::{Record, BENDING, GREEN_LAGRANGE, PLATE, STRAIN, STVK};
use crate::strain_samples::{green_lagrange, strain};
use crate::turn_samples;

const DRAWN: usize = 330;

pub fn sample(kind: u64) -> Vec<Record> {
    let layout = layout(kind);
    let mut random = Random::of(kind);
    let mut cases = chosen(kind);
    cases.extend(at_edges(&mut random, &layout));
    cases.extend(zero_divisors(kind, &mut random, &layout));
    cases.extend(one_infinite(kind, &mut random, &layout));
    cases.extend(each_input_special(kind));
    cases.extend((0..DRAWN).map(|_| drawn(&mut random, &layout)));
    let places = cases.iter().enumerate();
    let mut records: Vec<Record> = places
        .map(|(i, inputs)| layout.record(inputs, unused(i)))
        .collect();
    if kind == STVK || kind == PLATE {
        records.extend(material_samples::kernel(kind));
    }
    if kind == PLATE {
        records.extend(turn_samples::twins(&records));
        records.extend(turn_samples::plates());
    }
    records
}

/// The input of the original file's own test, its first where it has several.
pub fn original(kind: u64) -> Vec<f64> {
    chosen(kind).swap_remove(0)
}

/// The original file's own input comes first.
fn chosen(kind: u64) -> Vec<Vec<f64>> {
    match kind {
        BENDING => bending(),
        STRAIN => strain(),
        STVK => stvk(),
        PLATE => plate(),
        GREEN_LAGRANGE => green_lagrange(),
        _ => unreachable!("no kernel"),
    }
}

fn bending() -> Vec<Vec<f64>> {
    let rest = [0.0, 2.0, 0.0, 0.0, -2.0, 0.0, 0.0, 0.0, 0.0, 2.0, 0.0, 0.0];
    let mut lifted = [0.0; 12];
    lifted[2] = 1.0;
    let original = [
        [0.1, 0.2, 0.3, 0.2, 0.1, 0.5, 0.3, 0.4, 0.3, 0.5, 0.2, 0.4],
        [
            0.11, 0.04, 0.38, 0.22, 0.13, 0.07, 0.03, 0.42, 0.35, 0.54, 0.01, 0.46,
        ],
    ];
    let equal_ends = [0.0, 1.0, 0.0, 0.0, -1.0, 0.0, 3.0, 4.0, 5.0, 3.0, 4.0, 5.0];
    let flat_first = [3.0, 0.0, 0.0, 1.0, -1.0, 0.0, 0.0, 0.0, 0.0, 2.0, 0.0, 0.0];
    let flat_second = [1.0, 1.0, 0.0, -2.0, 0.0, 0.0, 0.0, 0.0, 0.0, 2.0, 0.0, 0.0];
    let flat = [3.0, 0.0, 0.0, -2.0, 0.0, 0.0, 0.0, 0.0, 0.0, 2.0, 0.0, 0.0];
    let tiny_edge = power(-540);
    let length_underflows = [
        0.0, 1e9, 0.0, 0.0, -1e9, 0.0, 0.0, 0.0, 0.0, tiny_edge, 0.0, 0.0,
    ];
    let (plus, minus) = ([0.0; 6], [-0.0; 6]);
    let zeros = [[plus, minus].concat(), [minus, plus].concat()].map(|x| x.try_into().unwrap());
    let symmetric = [1.0, 2.0, 0.0, 1.0, -2.0, 0.0, 0.0, 0.0, 0.0, 2.0, 0.0, 0.0];
    let mut cases = vec![original.concat()];
    for rest in [
        rest,
        equal_ends,
        flat_first,
        flat_second,
        flat,
        length_underflows,
        symmetric,
    ] {
        for deformed in [
            lifted,
            lifted.map(|x| -x),
            [0.0; 12],
            zeros[0],
            zeros[1],
            rest,
        ] {
            cases.push([rest, deformed].concat());
        }
    }
    cases.push(length_alone());
    cases.push(subnormal_height());
    cases
}

/// The edge has no length, and the other divisors are NaN.
fn length_alone() -> Vec<f64> {
    let mut rest = [0.0; 12];
    rest[0] = power(512);
    rest[1] = power(512);
    rest[4] = 1.0;
    [rest, [0.0; 12]].concat()
}

/// h0 is subnormal, and so the answer overflows.
fn subnormal_height() -> Vec<f64> {
    let mut rest = [0.0; 12];
    rest[1] = power(-1023);
    rest[4] = -1.0;
    rest[9] = power(486);
    [rest, [0.0; 12]].concat()
}

fn stvk() -> Vec<Vec<f64>> {
    let rest = [0.0, 0.0, 0.0, 1.0, 0.0, 0.0, 0.0, 1.0, 0.0];
    let pulled = [0.0, 0.0, 0.0, 2.0, 0.0, 0.0, 0.0, 1.0, 0.0];
    let line = [0.0, 0.0, 0.0, 1.0, 0.0, 0.0, 2.0, 0.0, 0.0];
    let clockwise = [0.0, 0.0, 0.0, 0.0, 1.0, 0.0, 1.0, 0.0, 0.0];
    let turned = [0.0, 0.0, 0.0, 0.0, 1.0, 0.0, 0.0, 0.0, 1.0];
    let skewed = [0.0, 0.0, 0.0, 2.0, 0.0, 0.0, 1.0, 1.0, 0.0];
    let originals = [
        [
            [1.2, 2.1, 3.4, 3.5, 5.2, 4.3, 3.4, 4.8, 2.4],
            [3.1, 2.2, 1.5, 4.3, 3.6, 2.0, 5.2, 4.5, 3.4],
        ],
        [
            [3.1, 5.0, 1.3, 2.0, 1.8, 3.4, 5.6, 2.4, 3.3],
            [2.5, 1.0, 3.2, 0.3, 4.6, 1.2, 3.2, 5.5, 1.4],
        ],
    ];
    let mut cases: Vec<Vec<f64>> = originals
        .iter()
        .map(|pair| [pair.concat(), vec![1.3, 1.9]].concat())
        .collect();
    cases.push(energy_near_the_top());
    cases.push(stiffness_near_the_top());
    cases.push(dots_of_minus_zero());
    for rest in [rest, line, clockwise, turned, skewed] {
        for deformed in [pulled, pulled.map(|x| x * -0.5), rest, [0.0; 9], [-0.0; 9]] {
            for lame in [[0.0, 1.0], [1.0, 0.0], [-1.0, -0.0]] {
                cases.push([rest.to_vec(), deformed.to_vec(), lame.to_vec()].concat());
            }
        }
    }
    cases
}

/// An energy that is finite although twice of it is not.
fn energy_near_the_top() -> Vec<f64> {
    let rest = [0.0, 0.0, 0.0, 20.0, 0.0, 0.0, 0.0, 10.0, 0.0];
    let pulled = [0.0, 0.0, 0.0, 2000.0, 0.0, 0.0, 0.0, 10.0, 0.0];
    [&rest[..], &pulled, &[0.0, f64::MAX / 3e9]].concat()
}

/// Twice myu overflows, although the tensor would not.
fn stiffness_near_the_top() -> Vec<f64> {
    let rest = [0.0, 0.0, 0.0, 1.0, 0.0, 0.0, 0.0, 1.0, 0.0].map(|x| x * power(120));
    [&rest[..], &rest, &[0.0, power(1023)]].concat()
}

/// The normal's norm is infinite, and both dots are -0.
fn dots_of_minus_zero() -> Vec<f64> {
    let h = power(256);
    let rest = [0.0, h, h, -0.0, 0.0, 0.0, -0.0, -0.0, -h];
    [&rest[..], &rest, &[1.0, 1.0]].concat()
}

fn plate() -> Vec<Vec<f64>> {
    let square = [0.0, 0.0, 1.0, 0.0, 0.0, 1.0];
    let clockwise = [0.0, 0.0, 0.0, 1.0, 1.0, 0.0];
    let line = [0.0, 0.0, 1.0, 1.0, 2.0, 2.0];
    let skewed = [0.0, 0.0, 2.0, 0.0, 1.0, 1.0];
    let lifted = [0.0, 0.0, 0.0, 1.0, 0.0, 0.0, 0.0, 0.0, 0.0];
    let tilted = [0.0, 1.0, 0.0, 0.0, 0.0, 2.0, 0.0, -1.0, 0.0];
    let original = [
        vec![0.0, 0.0, 1.0, 0.1, 0.1, 1.0],
        vec![0.01, 0.02, 0.03, -0.01, 0.01, 0.03, 0.02, 0.03, 0.02],
        vec![0.03, 1.0, 1.0],
    ];
    let mut cases = vec![original.concat()];
    for rest in [square, clockwise, line, skewed] {
        for deformed in [lifted, tilted, [0.0; 9], [-0.0; 9]] {
            for thickness in [2.0, 0.0, -0.0, -2.0, 0.1, f64::INFINITY] {
                let singles = vec![thickness, 0.0, 1.0];
                cases.push([rest.to_vec(), deformed.to_vec(), singles].concat());
            }
        }
    }
    for place in 6..18 {
        let mut refused_twice = [square.to_vec(), lifted.to_vec(), vec![0.0, 0.0, 1.0]].concat();
        refused_twice[place] = f64::NAN;
        cases.push(refused_twice);
    }
    cases
}

const EDGES: [i32; 18] = [
    -1074, -538, -537, -536, -512, -270, -269, -268, -256, 255, 256, 257, 400, 511, 512, 513, 1000,
    1023,
];

/// Right angles of every size at which an area, a norm or a square goes over
/// or under, and pairs of a large and a small edge.
fn at_edges(random: &mut Random, layout: &Layout) -> Vec<Vec<f64>> {
    let mut cases = Vec::new();
    for e in EDGES {
        let h = power(e);
        for (a, b) in [(h, h), (-h, h), (h, -h)] {
            cases.push(over(random, layout, &right_angle(layout, a, b)));
        }
    }
    for (a, b) in [
        (500, -540),
        (-540, 500),
        (-538, 538),
        (1000, -1000),
        (-1000, 1000),
    ] {
        cases.push(over(
            random,
            layout,
            &right_angle(layout, power(a), power(b)),
        ));
    }
    for e in [999, 1000, 1001] {
        let (a, b) = (scaled(random, e), scaled(random, e));
        cases.push(over(random, layout, &right_angle(layout, a, b)));
    }
    cases
}

/// Divisors that vanish while the others do not; for bending and the strains
/// the chosen cases and the edges hold such.
fn zero_divisors(kind: u64, random: &mut Random, layout: &Layout) -> Vec<Vec<f64>> {
    let groups: &[&[usize]] = match kind {
        STVK => &[&[1], &[2], &[3]],
        PLATE => &[&[2], &[3], &[4], &[2, 3, 4]],
        _ => &[],
    };
    let twice = groups.iter().flat_map(|places| [places, places]);
    let mut cases: Vec<Vec<f64>> = twice
        .map(|places| with_zero_divisors(random, layout, places))
        .collect();
    if kind == PLATE {
        cases.push(negative_zero_dot());
    }
    cases
}

/// A plate whose first dot is -0 by underflow while the others are no zeros.
fn negative_zero_dot() -> Vec<f64> {
    let rest = [0.0, 0.0, -power(600), -0.0, -0.0, power(-600)];
    [&rest[..], &[0.0; 9], &[power(-499), 1.0, 1.0]].concat()
}

/// The energy alone, a gradient's entry alone or the last entry alone overflows.
fn one_infinite(kind: u64, random: &mut Random, layout: &Layout) -> Vec<Vec<f64>> {
    let places: &[usize] = if kind == STVK || kind == PLATE {
        &[0, 1, 90]
    } else {
        &[]
    };
    places
        .iter()
        .map(|place| with_one_infinite(random, layout, *place))
        .collect()
}

/// Each input in turn infinite or NaN over an accepted case.
fn each_input_special(kind: u64) -> Vec<Vec<f64>> {
    let accepted = original(kind);
    let bad = [
        f64::NEG_INFINITY,
        f64::NAN,
        f64::from_bits(0xfff4_0000_0000_0000),
    ];
    (0..accepted.len())
        .map(|place| {
            let mut inputs = accepted.clone();
            inputs[place] = bad[place % bad.len()];
            inputs
        })
        .chain((0..3).map(|i| numbers::list(accepted.len(), || bad[i])))
        .collect()
}
