//! The fixed sample of the masses: chosen panels, then drawn ones.

use crate::mass_cases::{drawn, far_names, Panel, SMALL};
use crate::material_cases::{lame, unused};
use crate::material_samples;
use crate::numbers::power;
use crate::random::Random;
use crate::record::{Record, MASSES};
use crate::turn_samples;

const DRAWN: usize = 420;

const POINTS: [f64; 8] = [0.0, 0.0, 6.0, 0.0, 0.0, 6.0, 6.0, 6.0];

pub fn sample() -> Vec<Record> {
    let mut random = Random::of(MASSES);
    let mut panels = [examples(), lengths(), far(), not_finite(), at_edges()].concat();
    panels.extend((0..DRAWN).map(|_| drawn(&mut random, SMALL)));
    let places = panels.into_iter().enumerate();
    let mut records: Vec<Record> = places
        .map(|(i, panel)| panel.with_stiffness(lame(unused(i))).record())
        .collect();
    records.extend(material_samples::masses());
    records.extend(turn_samples::twins(&records));
    records.extend(turn_samples::panels());
    records
}

fn examples() -> Vec<Panel> {
    let lists: [&[u64]; 12] = [
        &[0, 1, 2],
        &[0, 2, 1],
        &[0, 1, 2, 1, 3, 2],
        &[],
        &[0, 1, 2, 1],
        &[0, 1, 4],
        &[0, 1, 3],
        &[0, 0, 1],
        &[2, 2, 2],
        &[0, 1, 2, 0, 2, 1],
        &[1, 3, 2, 0, 1, 2, 0, 1, 3],
        &[3, 1, 0],
    ];
    let materials = [
        (1.0, 2.0),
        (0.1, 0.3),
        (-0.7, 1.1),
        (0.3, -0.0),
        (-0.0, 2.0),
    ];
    let of = |names: &[u64]| materials.map(|(thick, rho)| Panel::of(&POINTS, names, thick, rho));
    lists.iter().flat_map(|names| of(names)).collect()
}

/// Lengths wrong by one, empty lists, a coordinate left over.
fn lengths() -> Vec<Panel> {
    let good = Panel::of(&POINTS, &[0, 1, 2], 1.0, 2.0);
    let with_buffer = |entries: usize| Panel {
        buffer: vec![-7.0; entries],
        ..good.clone()
    };
    let with_names = |count: u64| Panel {
        names: (0..count).collect(),
        ..good.clone()
    };
    let with_coordinates = |coordinates: &[f64]| Panel::of(coordinates, &[0, 1, 2], 1.0, 2.0);
    let mut panels = vec![
        Panel::of(&[], &[], 1.0, 2.0),
        Panel::of(&[5.0], &[], 1.0, 2.0),
        Panel::of(&[f64::NAN], &[], 1.0, 2.0),
        Panel::of(&[], &[0, 0, 0], 1.0, 2.0),
        Panel::of(&[5.0], &[0, 0, 0], 1.0, 2.0),
        Panel {
            buffer: vec![f64::NAN],
            ..Panel::of(&[], &[], 1.0, 2.0)
        },
        with_coordinates(&[POINTS.to_vec(), vec![f64::NAN]].concat()),
        with_coordinates(&[POINTS.to_vec(), vec![f64::INFINITY]].concat()),
        with_coordinates(&POINTS[..7]),
        with_coordinates(&POINTS[..6]),
        with_coordinates(&POINTS[..5]),
        with_coordinates(&POINTS[..4]),
        Panel::of(&[POINTS.to_vec(), vec![1.0]].concat(), &[0, 1, 4], 1.0, 2.0),
    ];
    panels.extend([0, 1, 9, 11, 13, 24].map(with_buffer));
    panels.extend([1, 2, 4, 5].map(with_names));
    panels
}

/// Names beyond the vertices at every place, alone and beside what 1 and 3 refuse.
fn far() -> Vec<Panel> {
    let good = Panel::of(&POINTS, &[0, 1, 2, 1, 3, 2], 1.0, 2.0);
    let mut panels = Vec::new();
    for name in far_names(4) {
        for place in 0..6 {
            let mut panel = good.clone();
            panel.names[place] = name;
            panels.push(panel);
        }
    }
    for place in [0, 5] {
        let mut panel = good.clone();
        panel.names[place] = 4;
        panel.material.thickness = f64::NAN;
        panels.push(panel.clone());
        panel.buffer.pop();
        panels.push(panel);
    }
    panels
}

/// What 3 looks at and what it does not.
fn not_finite() -> Vec<Panel> {
    let bad = [
        f64::INFINITY,
        f64::NEG_INFINITY,
        f64::NAN,
        f64::from_bits(0xfff0_0000_0000_0001),
    ];
    let mut panels = Vec::new();
    for (i, x) in bad.into_iter().enumerate() {
        for names in [&[0, 1, 2][..], &[]] {
            panels.push(Panel::of(&POINTS, names, x, 2.0));
            panels.push(Panel::of(&POINTS, names, 1.0, x));
        }
        for place in 0..8 {
            let mut panel = Panel::of(&POINTS, &[2, 0, 1], 1.0, 2.0);
            panel.coordinates[(place + i) % 8] = x;
            panels.push(panel);
        }
        let mut buffer_alone = Panel::of(&POINTS, &[0, 1, 2], 1.0, 2.0);
        buffer_alone.buffer.fill(x);
        panels.push(buffer_alone);
    }
    panels
}

/// Areas, masses and rotational masses that go over or under, each alone too.
fn at_edges() -> Vec<Panel> {
    let unit = [0.0, 0.0, 1.0, 0.0, 0.0, 1.0, 1.0, 1.0];
    let of = |size: f64, thick: f64, rho: f64| {
        Panel::of(&unit.map(|x| x * size), &[0, 1, 2, 1, 3, 2], thick, rho)
    };
    let mut panels = vec![
        of(1.0, power(342), 1.0),
        of(1.0, power(343), 1.0),
        of(1.0, -power(343), 1.0),
        of(1.0, power(340), 3.0),
        of(1.0, power(341), 3.0),
        of(power(511), 1.0, 1.0),
        of(power(512), 1.0, 1.0),
        of(power(1000), 1.0, 1.0),
        of(f64::MAX, 1.0, 1.0),
        of(power(512), 0.0, 1.0),
        of(power(512), power(-600), 1.0),
        of(power(500), 1.0, power(100)),
        of(power(500), power(-100), power(100)),
        of(power(500), power(100), power(-100)),
        of(power(-537), 1.0, 1.0),
        of(power(-538), -1.0, 1.0),
        of(power(-520), 3.0, power(-20)),
        of(power(-500), power(-30), 3.0),
        of(1.0, power(-342), 7.0),
        of(1.0, power(-360), 7.0),
        of(1.0, -power(-360), 7.0),
        of(1.0, 1.0, f64::MAX),
        of(3.0, 1.0, f64::MAX),
        of(f64::from_bits(1), 1.0, 1.0),
    ];
    let twice = Panel::of(&unit, &[0, 0, 1, 2, 2, 2], -1.0, 1.0);
    let sum_overflows = Panel::of(&unit, &[0, 1, 2, 0, 1, 2], 1.0, f64::MAX);
    let sums_overflow = Panel::of(&unit, &[0, 1, 2].repeat(8), 1.0, f64::MAX);
    panels.extend([twice, sum_overflows, sums_overflow]);
    panels.extend((1..=30).map(units));
    panels
}

/// A rotational mass of `n` twelfths of the smallest number.
fn units(n: u32) -> Panel {
    let area_three = [0.0, 0.0, 6.0, 0.0, 0.0, 1.0];
    Panel::of(&area_three, &[0, 1, 2], power(-358), f64::from(n))
}
