//! The fixed sample of turned triangles: what 6 is for in plates and panels, next to it,
//! and beside every other refusal.

use crate::answer::answer;
use crate::kernel_cases::{layout, Case};
use crate::kernel_samples::original;
use crate::mass_cases::Panel;
use crate::material_cases::{lame, unused, young, STOCK};
use crate::material_samples::{
    faulty_kernel, faulty_panel, faulty_stiffness, numbered, records_of, sets, Faulty,
};
use crate::numbers::{moved, power, similar};
use crate::random::Random;
use crate::record::{Record, PLATE};
use crate::turn::Turn;
use crate::turn_cases::{exchange, turned_left};

/// A strip of six triangles, all of which turn left.
const STRIP: [f64; 16] = [
    0.0, 0.0, 6.0, 0.0, 0.0, 6.0, 6.0, 6.0, 0.0, 12.0, 6.0, 12.0, 0.0, 18.0, 6.0, 18.0,
];
const LEFT: [u64; 18] = [0, 1, 2, 1, 3, 2, 2, 3, 4, 3, 5, 4, 4, 5, 6, 5, 7, 6];

const PAIRS: [[usize; 2]; 3] = [[0, 1], [1, 2], [0, 2]];

/// A triangle's corners as they are, and as they can follow each other; the last three
/// turn it round.
const ORDERS: [[usize; 3]; 6] = [
    [0, 1, 2],
    [1, 2, 0],
    [2, 0, 1],
    [0, 2, 1],
    [2, 1, 0],
    [1, 0, 2],
];

const SMALLEST: f64 = f64::from_bits(1);

/// What 6 refuses among these, turned round, so that what it is otherwise answered with
/// is shown as well.
pub fn twins(records: &[Record]) -> Vec<Record> {
    let refused = records.iter().filter(|record| answer(record).number == 6);
    refused.cloned().map(turned_left).collect()
}

pub fn panels() -> Vec<Record> {
    let mut panels = places();
    panels.extend(orders_of_names());
    panels.extend(named_twice());
    panels.extend(panels_at_edges());
    panels.extend(not_finite());
    panels.extend(buffers());
    panels.extend(signs_of_mass());
    let records = numbered(panels).map(|(i, panel)| panel.with_stiffness(lame(unused(i))).record());
    records.chain(records_of(faulty_panels())).collect()
}

fn strip(names: &[u64]) -> Panel {
    Panel::of(&STRIP, names, 0.3, 0.7)
}

fn with_turned(triangles: &[usize], [a, b]: [usize; 2]) -> Panel {
    let mut names = LEFT;
    triangles
        .iter()
        .for_each(|triangle| names.swap(3 * triangle + a, 3 * triangle + b));
    strip(&names)
}

/// One triangle of the strip turned, by each pair of its corners; all but one; the first and
/// the last; all.
fn places() -> Vec<Panel> {
    let mut panels = Vec::new();
    for triangle in 0..6 {
        panels.extend(PAIRS.map(|pair| with_turned(&[triangle], pair)));
        let others: Vec<usize> = (0..6).filter(|i| *i != triangle).collect();
        panels.push(with_turned(&others, [1, 2]));
    }
    panels.push(with_turned(&[0, 5], [1, 2]));
    panels.extend(PAIRS.map(|pair| with_turned(&[0, 1, 2, 3, 4, 5], pair)));
    panels
}

/// Of every triangle of the strip, and of one alone.
fn orders_of_names() -> Vec<Panel> {
    let ordered = |names: &[u64], order: [usize; 3]| {
        let triangles = names.chunks(3);
        let names: Vec<u64> = triangles.flat_map(|t| order.map(|i| t[i])).collect();
        strip(&names)
    };
    let both = |order| [ordered(&LEFT, order), ordered(&LEFT[..3], order)];
    ORDERS.into_iter().flat_map(both).collect()
}

/// Flat, by a name that comes twice or thrice: alone, and before or behind a triangle that turns
/// either way.
fn named_twice() -> Vec<Panel> {
    let mut panels = Vec::new();
    for flat in [[0, 0, 1], [0, 1, 0], [1, 0, 0], [3, 3, 3]] {
        panels.push(strip(&flat));
        for other in [[0, 1, 2], [0, 2, 1]] {
            panels.extend([[flat, other], [other, flat]].map(|names| strip(&names.concat())));
        }
    }
    panels
}

/// A triangle of an edge alone, before two that turn left, and behind them.
fn panels_at_edges() -> Vec<Panel> {
    let of = |(i, triangle): (usize, [f64; 6])| {
        let points = [&triangle[..], &STRIP[..8]].concat();
        let left = [3, 4, 5, 4, 6, 5];
        let names = match i % 3 {
            0 => vec![0, 1, 2],
            1 => [&[0, 1, 2], &left[..]].concat(),
            _ => [&left[..], &[0, 1, 2]].concat(),
        };
        Panel::of(&points, &names, 1.0, 3.0)
    };
    numbered(edges()).map(of).collect()
}

/// A vertex without a name leaves a turned panel to 6, one with a name does not, though an
/// infinite area turns right.
fn not_finite() -> Vec<Panel> {
    let mut panels = Vec::new();
    for x in [f64::NAN, f64::INFINITY, f64::NEG_INFINITY] {
        for place in 6..9 {
            for names in [&[0, 2, 1][..], &[0, 1, 2]] {
                let mut panel = Panel::of(&STRIP[..9], names, 0.3, 0.7);
                panel.coordinates[place] = x;
                panels.push(panel);
            }
        }
        for place in 0..6 {
            let mut panel = Panel::of(&STRIP[..6], &[0, 2, 1], 0.3, 0.7);
            panel.coordinates[place] = x;
            panels.push(panel);
        }
    }
    panels
}

/// What stands in a buffer that 6 leaves as it is.
fn buffers() -> Vec<Panel> {
    let words = [
        7f64.to_bits(),
        0x8000_0000_0000_0000,
        0x7ff0_0000_0000_0001,
        0xfff8_0000_dead_beef,
        0xffff_ffff_ffff_ffff,
        0xfff0_0000_0000_0000,
        1,
    ];
    let filled = |word: &dyn Fn(usize) -> u64| {
        let mut panel = with_turned(&[5], [0, 1]);
        let places = panel.buffer.iter_mut().enumerate();
        places.for_each(|(i, x)| *x = f64::from_bits(word(i)));
        panel
    };
    let mut panels: Vec<Panel> = words.iter().map(|word| filled(&|_| *word)).collect();
    panels.push(filled(&|i| words[i % words.len()]));
    panels
}

/// Masses below zero and masses of zero are accepted, and a turned triangle is not, whatever the
/// sign of its mass or of the sum.
fn signs_of_mass() -> Vec<Panel> {
    let materials = [
        (-0.3, 0.7),
        (0.3, -0.7),
        (-0.3, -0.7),
        (0.0, 0.7),
        (0.3, -0.0),
    ];
    let mut panels = Vec::new();
    for (thick, rho) in materials {
        for names in [
            &[0, 1, 2][..],
            &[0, 2, 1],
            &LEFT,
            &[0, 1, 6, 1, 7, 6, 1, 2, 3],
        ] {
            panels.push(Panel::of(&STRIP, names, thick, rho));
        }
    }
    panels
}

/// Every set of 6 with others of 1, 2, 3 and 5. The turned triangle has none of the faults, so
/// that 6 would hold without them; masses do not look at the stiffness, which is one that 7 is for.
pub fn faulty_panels() -> Vec<Faulty> {
    let mut all = Vec::new();
    for faults in with_six(&[1, 2, 3, 6, 5]) {
        for variant in 0..4 {
            let mut panel = faulty_panel(&faults, variant);
            let at = variant % 2 * 3;
            panel.names.splice(at..at, [0, 2, 3]);
            let stiffness = faulty_stiffness(&[3, 7], variant);
            all.push((faults.clone(), panel.with_stiffness(stiffness).record()));
        }
    }
    all
}

fn with_six(numbers: &[u64]) -> Vec<Vec<u64>> {
    let sets = sets(numbers).into_iter();
    sets.filter(|faults| faults.contains(&6)).collect()
}

pub fn plates() -> Vec<Record> {
    let mut records: Vec<Record> = stock().iter().map(Case::record).collect();
    let mut cases = orders_of_corners();
    cases.extend(thicknesses());
    cases.extend(plates_at_edges());
    cases.extend(each_input_special());
    cases.push(negative_zero_dot());
    records.extend(numbered(cases).map(|(i, case)| case.with_unused(unused(i)).record()));
    records.extend(records_of(faulty_plates()));
    records
}

fn usual() -> Case {
    layout(PLATE).case(&original(PLATE))
}

fn turned(mut case: Case) -> Case {
    exchange(&mut case.corners, 1, 2);
    case
}

/// The corners of `rest` in this order, of the displacements those of `deformed`.
fn ordered(case: &Case, rest: [usize; 3], deformed: [usize; 3]) -> Case {
    let (p, u) = case.corners.split_at(6);
    let p = rest.iter().flat_map(|i| &p[2 * i..][..2]);
    let u = deformed.iter().flat_map(|i| &u[3 * i..][..3]);
    Case {
        corners: p.chain(u).copied().collect(),
        ..case.clone()
    }
}

/// Our sheet, either way round.
fn stock() -> [Case; 2] {
    let mut case = usual();
    case.material = STOCK;
    [case.clone(), turned(case)]
}

/// Displacements follow the corners, or stay.
fn orders_of_corners() -> Vec<Case> {
    let mut cases = Vec::new();
    for stiffness in [lame([1.0, 1.0]), young([1.3, 0.3])] {
        let case = usual().with_stiffness(stiffness);
        for order in ORDERS {
            cases.push(ordered(&case, order, order));
            cases.push(ordered(&case, order, ORDERS[0]));
        }
    }
    cases
}

/// 6 is given before the thickness is found to be too small or too large, and its sign is not
/// what turns.
fn thicknesses() -> Vec<Case> {
    let in_line = [0.0, 0.0, 1.0, 1.0, 2.0, 2.0];
    let mut cases = Vec::new();
    for thickness in [
        2.0,
        -2.0,
        0.0,
        -0.0,
        SMALLEST,
        -SMALLEST,
        power(343),
        -power(343),
    ] {
        let mut left = usual();
        left.material.thickness = thickness;
        let mut flat = left.clone();
        flat.corners[..6].copy_from_slice(&in_line);
        cases.extend([left.clone(), turned(left), flat]);
    }
    cases
}

fn plates_at_edges() -> Vec<Case> {
    let of = |triangle: [f64; 6]| {
        let mut case = usual();
        case.corners[..6].copy_from_slice(&triangle);
        case.material.thickness = 1.0;
        case
    };
    edges().into_iter().map(of).collect()
}

/// Each number that 3 looks at over a plate that is turned, by an infinity of either sign or a NaN.
fn each_input_special() -> Vec<Case> {
    let bad = [f64::INFINITY, f64::NEG_INFINITY, f64::NAN];
    let mut cases = Vec::new();
    for (i, x) in numbered(bad.repeat(6)) {
        let mut case = turned(usual());
        match i {
            0..15 => case.corners[i] = x,
            15 => case.material.thickness = x,
            16 => case.material.stiffness = lame([x, 1.0]),
            _ => case.material.stiffness = lame([1.0, x]),
        }
        cases.push(case);
    }
    cases
}

/// Turns left, and by a thickness below zero its first dot is -0 while the others are no zeros.
fn negative_zero_dot() -> Case {
    let rest = [0.0, 0.0, power(600), -0.0, -0.0, power(-600)];
    let singles = [-power(-499), 1.0, 1.0];
    layout(PLATE).case(&[&rest[..], &[0.0; 9], &singles].concat())
}

/// Every set of 6 with others of 3, 7, 4 and 5. Since 6 needs an area, 4 is the thickness's.
pub fn faulty_plates() -> Vec<Faulty> {
    let mut all = Vec::new();
    for (i, faults) in numbered(with_six(&[3, 7, 6, 4, 5])) {
        for variant in 0..4 {
            let without_4: Vec<u64> = faults.iter().copied().filter(|n| *n != 4).collect();
            let mut case = turned(faulty_kernel(PLATE, &without_4, variant));
            if faults.contains(&4) {
                case.material.thickness = [0.0, -0.0, SMALLEST, -SMALLEST][variant];
            }
            let record = case.with_unused(unused(i + variant)).record();
            all.push((faults.clone(), record));
        }
    }
    all
}

/// Triangles that are flat, that are next to it and whose area is beyond the range, each
/// followed by itself turned round.
pub fn edges() -> Vec<[f64; 6]> {
    let mut triangles = in_line();
    triangles.extend(smallest());
    triangles.extend(beyond());
    triangles.extend(rounded());
    let both =
        |[x0, y0, x1, y1, x2, y2]: [f64; 6]| [[x0, y0, x1, y1, x2, y2], [x0, y0, x2, y2, x1, y1]];
    triangles.into_iter().flat_map(both).collect()
}

/// With the edges (a, 0) and (0, b) from corner 0: twice the area is a b.
fn legs(a: f64, b: f64) -> [f64; 6] {
    [0.0, 0.0, a, 0.0, 0.0, b]
}

/// No area, whatever the sign of its zero.
fn in_line() -> Vec<[f64; 6]> {
    vec![
        [0.0, 0.0, 1.0, 0.0, 2.0, 0.0],
        [0.0, 0.0, -1.0, 0.0, 1.0, 0.0],
        [0.0, 0.0, 1.0, 2.0, 3.0, 6.0],
        [2.0, 1.0, -1.0, 4.0, 4.0, -1.0],
        [1.0, 2.0, 1.0, 2.0, 5.0, 6.0],
        [5.0, 6.0, 1.0, 2.0, 1.0, 2.0],
        [3.0; 6],
        [-0.0; 6],
    ]
}

/// Twice the area is a few units of the smallest number, or underflows. One unit has no half.
fn smallest() -> Vec<[f64; 6]> {
    let mut triangles = Vec::new();
    for m in [1.0, 2.0, 3.0, 4.0] {
        triangles.extend([legs(m, SMALLEST), legs(-m, SMALLEST)]);
    }
    for e in [-536, -537, -538, -600] {
        let (a, b) = (power(e), power(-537));
        triangles.extend([legs(a, b), legs(-a, b), legs(1.5 * a, b)]);
    }
    for places in 1..=3 {
        let y = power(-1000);
        triangles.push([0.0, 0.0, power(-22), y, power(-22), moved(y, places)]);
    }
    triangles
}

/// Twice the area is the largest power of two, is infinite by a difference, a product or a
/// difference of products, or is a NaN.
fn beyond() -> Vec<[f64; 6]> {
    let (h, large) = (power(512), f64::MAX);
    vec![
        legs(h, power(511)),
        legs(-h, power(511)),
        legs(h, h),
        legs(h, -h),
        [-large, 0.0, large, 0.0, 0.0, 1.0],
        [0.0, 0.0, h, power(511), -h, power(511)],
        [0.0, 0.0, h, h, h, h],
        [0.0, 0.0, h, 2.0 * h, 2.0 * h, h],
        [-large, 0.0, large, 1.0, 5.0, 0.0],
    ]
}

/// Nearly in line: seen from corner 1 each turns another way, or none. Two for every pair of ways.
fn rounded() -> Vec<[f64; 6]> {
    let ways = [Turn::Left, Turn::Right, Turn::Flat];
    let mut random = Random::of(600);
    let mut triangles = Vec::new();
    for (here, there) in ways.iter().flat_map(|a| ways.iter().map(move |b| (*a, *b))) {
        if here != there {
            triangles.extend([(); 2].map(|()| seen_apart(&mut random, here, there)));
        }
    }
    triangles
}

fn seen_apart(random: &mut Random, here: Turn, there: Turn) -> [f64; 6] {
    loop {
        let numbers = similar(random, 4, 2, 3);
        let at = |axis: usize, k: f64| numbers[axis] + k * numbers[2 + axis];
        let triangle = [0.0, 1.0, 3.0].map(|k| [at(0, k), at(1, k)]);
        let [p0, p1, p2] = triangle;
        if Turn::of(&triangle) == here && Turn::of(&[p1, p2, p0]) == there {
            return triangle.concat().try_into().unwrap();
        }
    }
}
