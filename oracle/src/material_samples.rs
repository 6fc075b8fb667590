//! The fixed sample of materials, for the kernels, masses and the whole skin.

use crate::kernel_cases::{layout, right_angle, Case};
use crate::kernel_samples::original;
use crate::mass_cases::{drawn, far_names, Panel, SMALL};
use crate::material::Stiffness;
use crate::material_cases::{
    at_bounds, lame, near_the_bottom, near_the_top, ratio, unused, young, LAST_RATIOS, MODULI,
    STOCK,
};
use crate::numbers::{self, power, similar};
use crate::random::Random;
use crate::record::{Record, MASSES, PLATE, SKIN};
use crate::skin_cases::Skin;
use crate::skin_samples::{apart, creased, triangles, BOTH, CREASED, SQUARE};

/// Numbers of refusals that hold of a record, and the record.
pub type Faulty = (Vec<u64>, Record);

pub fn kernel(kind: u64) -> Vec<Record> {
    let mut random = Random::of(500 + kind);
    let mut records: Vec<Record> = stock(kind, &mut random).iter().map(Case::record).collect();
    let mut cases = Vec::new();
    for stiffness in at_bounds() {
        let ordinary = layout(kind).case(&original(kind));
        cases.push(ordinary.with_stiffness(stiffness));
    }
    for pair in near_the_top() {
        cases.push(large(kind).with_stiffness(young(pair)));
    }
    for pair in near_the_bottom() {
        cases.push(small(kind, &mut random).with_stiffness(young(pair)));
    }
    for _ in 0..60 {
        let case = tame(kind, &mut random);
        cases.push(case.with_stiffness(rounded(&mut random)));
    }
    records.extend(numbered(cases).map(|(i, case)| case.with_unused(unused(i)).record()));
    records.extend(records_of(faulty_kernels(kind)));
    records
}

pub fn numbered<T>(list: Vec<T>) -> impl Iterator<Item = (usize, T)> {
    list.into_iter().enumerate()
}

pub fn records_of(faulty: Vec<Faulty>) -> impl Iterator<Item = Record> {
    faulty.into_iter().map(|(_, record)| record)
}

/// E and v of which the last places show the order of operations.
fn rounded(random: &mut Random) -> Stiffness {
    let e = random.between(-40, 40);
    young([numbers::scaled(random, e).abs(), ratio(random)])
}

/// Our sheet over several corners, and the same with its Lamé pair written down.
fn stock(kind: u64, random: &mut Random) -> Vec<Case> {
    let mut cases = vec![layout(kind).case(&original(kind)), large(kind)];
    cases.extend((0..4).map(|_| tame(kind, random)));
    for case in &mut cases {
        case.material = STOCK;
    }
    let pair = lame(STOCK.stiffness.lame());
    let written_down = cases
        .clone()
        .into_iter()
        .map(|case| case.with_stiffness(pair));
    let written_down: Vec<Case> = written_down.collect();
    [cases, written_down].concat()
}

fn tame(kind: u64, random: &mut Random) -> Case {
    let layout = layout(kind);
    let inputs = similar(random, layout.inputs(), 2, 3);
    layout.case(&inputs)
}

/// So small that the smallest stiffness shows.
fn small(kind: u64, random: &mut Random) -> Case {
    let mut case = tame(kind, random);
    let (rest, deformed) = case.corners.split_at_mut(layout(kind).rest());
    let factor = power(if kind == PLATE { -200 } else { -100 });
    rest.iter_mut().for_each(|x| *x *= factor);
    deformed.iter_mut().for_each(|x| *x *= power(100));
    case.material.thickness *= power(100);
    case
}

/// So large, or thick, and so little deformed that the largest stiffness is accepted.
fn large(kind: u64) -> Case {
    let layout = layout(kind);
    let inputs = match kind {
        PLATE => {
            let u = [1.0, 2.0, -1.0, 3.0, -2.0, 1.0, -3.0, 1.0, 2.0].map(|x| x * power(-8));
            [&right_angle(&layout, 2.0, 2.0)[..], &u, &[2.0, 1.0, 1.0]].concat()
        }
        _ => {
            let rest = right_angle(&layout, 1024.0, 1024.0);
            let def: Vec<f64> = rest.iter().map(|x| x * (1.0 + power(-20))).collect();
            [rest, def, vec![1.0; 2]].concat()
        }
    };
    layout.case(&inputs)
}

/// Sets of two or more of these numbers.
pub fn sets(numbers: &[u64]) -> Vec<Vec<u64>> {
    let of = |set: u32| {
        let among = |i: &usize| set >> i & 1 == 1;
        let chosen = (0..numbers.len()).filter(among);
        chosen.map(|i| numbers[i]).collect()
    };
    let sets = (0..1 << numbers.len()).filter(|set: &u32| set.count_ones() >= 2);
    sets.map(of).collect()
}

/// A stiffness in which 7 holds and, in some variants, 3 or 5; where 7 does not, half are
/// Lamé pairs. Of E and v that are not finite only an E of +infinity is none of 7's.
pub fn faulty_stiffness(faults: &[u64], variant: usize) -> Stiffness {
    let has = |number: u64| faults.contains(&number);
    let [mut e, mut v] = if has(5) && variant % 2 == 1 {
        [f64::MAX, LAST_RATIOS[1]]
    } else {
        [1.3, 0.3]
    };
    if has(7) {
        match variant {
            0 => e = -0.0,
            1 => e = -e,
            2 => v = -1.0,
            _ => v = 0.5,
        }
    }
    if has(3) {
        match variant {
            2 => e = if has(7) { f64::NAN } else { f64::INFINITY },
            3 => [e, v] = [if has(7) { 0.0 } else { e }, f64::INFINITY],
            _ => {}
        }
    }
    if !has(7) && variant % 3 == 0 {
        lame([v, e])
    } else {
        young([e, v])
    }
}

/// Every set of two or more of 3, 7, 4 and 5, in which 5 holds wherever 3 or 4 does.
pub fn faulty_kernels(kind: u64) -> Vec<Faulty> {
    let mut all = Vec::new();
    for (i, faults) in numbered(sets(&[3, 7, 4, 5])) {
        for variant in 0..4 {
            let case = faulty_kernel(kind, &faults, variant);
            let record = case.with_unused(unused(i + variant)).record();
            all.push((faults.clone(), record));
        }
    }
    all
}

pub fn faulty_kernel(kind: u64, faults: &[u64], variant: usize) -> Case {
    let layout = layout(kind);
    let (rest, odd) = (layout.rest(), variant % 2 == 1);
    let mut case = large(kind).with_stiffness(faulty_stiffness(faults, variant));
    if faults.contains(&4) {
        match (kind, odd) {
            (PLATE, true) => case.material.thickness = -0.0,
            (_, true) => case.corners.copy_within(0..3, 3),
            _ => case.corners[..rest].iter_mut().for_each(|x| *x = 1.0),
        }
    }
    if faults.contains(&5) && !odd {
        let far = (rest..).zip(&mut case.corners[rest..]);
        far.for_each(|(i, x)| *x = [f64::MAX, -f64::MAX][i % 2]);
    }
    if faults.contains(&3) && variant < 2 {
        case.corners[rest + 4] = [f64::NAN, f64::INFINITY][variant];
    }
    case
}

/// Masses look at no stiffness: at every edge of 7 they are what density and thickness say.
pub fn masses() -> Vec<Record> {
    let mut random = Random::of(500 + MASSES);
    let square = [0.0, 0.0, 6.0, 0.0, 0.0, 6.0, 6.0, 6.0];
    let panel = Panel::of(&square[..6], &[0, 1, 2], 0.3, 0.7);
    let mut panels = Vec::new();
    for names in [&[0, 1, 2][..], &[0, 1, 2, 1, 3, 2], &[]] {
        let mut panel = Panel::of(&square, names, 1.0, 1.0);
        panel.material = STOCK;
        panels.extend([panel.clone(), panel.with_stiffness(lame([f64::NAN; 2]))]);
    }
    panels.extend(
        at_bounds()
            .into_iter()
            .map(|s| panel.clone().with_stiffness(s)),
    );
    for x in MODULI {
        let [mut density, mut thickness] = [panel.clone(), panel.clone()];
        density.material.density = x;
        thickness.material.thickness = x;
        panels.extend([density, thickness].map(|panel| panel.with_stiffness(young([1.3, 0.3]))));
    }
    for i in 0..60 {
        let pair = [[1.3, 0.3], [-1.0, 0.7], unused(0), unused(1)][i % 4];
        panels.push(drawn(&mut random, SMALL).with_stiffness(young(pair)));
    }
    let records = panels.iter().map(Panel::record);
    records.chain(records_of(faulty_masses())).collect()
}

/// Every set of two or more of 1, 2, 3 and 5; beside 1 and 2 those that would hold without
/// them. 4 and 7 never hold, though the stiffness is one that 7 is for.
pub fn faulty_masses() -> Vec<Faulty> {
    let mut all = Vec::new();
    for faults in sets(&[1, 2, 3, 5]) {
        for variant in 0..4 {
            let panel = faulty_panel(&faults, variant);
            let stiffness = faulty_stiffness(&[3, 7], variant);
            all.push((faults.clone(), panel.with_stiffness(stiffness).record()));
        }
    }
    all
}

pub fn faulty_panel(faults: &[u64], variant: usize) -> Panel {
    let points = [0.0, 0.0, 6.0, 0.0, 0.0, 6.0, 6.0, 6.0];
    let mut panel = Panel::of(&points, &BOTH, 0.3, 0.7);
    if faults.contains(&5) {
        panel.material.density = f64::MAX;
        panel.material.thickness = 3.0;
    }
    if faults.contains(&3) {
        match variant {
            0 => panel.material.thickness = f64::NAN,
            1 => panel.material.density = f64::INFINITY,
            _ => panel.coordinates[variant] = f64::NAN,
        }
    }
    if faults.contains(&2) {
        panel.names[variant] = far_names(4)[variant];
    }
    if faults.contains(&1) {
        match variant {
            0 => panel.buffer.push(1.0),
            1 => _ = panel.buffer.pop(),
            2 => panel.names.push(0),
            _ => _ = panel.names.pop(),
        }
    }
    panel
}

pub fn skin() -> Vec<Record> {
    let mut random = Random::of(500 + SKIN);
    let mut stock = creased();
    stock.material = STOCK;
    let written_down = stock.clone().with_stiffness(lame(STOCK.stiffness.lame()));
    let mut records = vec![stock.record(), written_down.record()];
    let mut skins = Vec::new();
    for stiffness in at_bounds() {
        skins.extend([creased(), no_triangle()].map(|skin| skin.with_stiffness(stiffness)));
    }
    let square = SQUARE.map(|x| x * 1024.0);
    let [wide, far] = [
        square.map(|x| x * (1.0 + power(-20))),
        CREASED.map(|x| x * power(250)),
    ];
    for pair in near_the_top() {
        skins.push(Skin::of(&square, &wide, &BOTH, pair).with_stiffness(young(pair)));
    }
    for pair in near_the_bottom() {
        skins.push(Skin::of(&SQUARE, &far, &BOTH, pair).with_stiffness(young(pair)));
    }
    for _ in 0..60 {
        let def = similar(&mut random, 12, 0, 3);
        let skin = Skin::of(&SQUARE, &def, &BOTH, [0.0; 2]);
        skins.push(skin.with_stiffness(rounded(&mut random)));
    }
    skins.extend([1, 2, 4, 5].map(longer_by));
    skins.extend(sums_beyond_the_range());
    skins.extend(pairs_of_triangles());
    records.extend(numbered(skins).map(|(i, skin)| skin.with_unused(unused(i)).record()));
    records.extend(records_of(faulty_skins()));
    records
}

/// The material of an empty list is never looked at.
fn no_triangle() -> Skin {
    Skin::of(&[1.0; 3], &[2.0; 3], &[], [0.0; 2])
}

/// Its lengths are.
fn longer_by(numbers: usize) -> Skin {
    let mut skin = no_triangle().with_stiffness(young([f64::NAN, 0.7]));
    skin.def.resize(3 + numbers, 0.5);
    skin
}

/// The same triangle twice, accepted by itself; a sum beyond the range has the count as its
/// place.
fn sums_beyond_the_range() -> Vec<Skin> {
    let mut skins = Vec::new();
    for part in [0.4, 0.499, 0.501, 0.9] {
        for pair in [[1.3, 0.3], [1.3, -0.6]] {
            let far = CREASED.map(|x| x * power(100));
            let skin = Skin::of(&SQUARE.map(|x| x * 8.0), &far, &[0, 1, 2, 0, 1, 2], pair);
            skins.push(skin.with_stiffness(young(pair)).stiff(part));
        }
    }
    skins
}

/// Two triangles, each accepted or refused by 3, 4 or 5, with a stiffness that is sound, one
/// that 7 is for, and one whose lambda is infinite. 7 is the first one's unless that gives 3.
fn pairs_of_triangles() -> Vec<Skin> {
    let mut skins = Vec::new();
    for pair in [
        [1.3, 0.3],
        [-1.3, 0.3],
        [1.3, 0.5],
        [f64::MAX, LAST_RATIOS[1]],
    ] {
        for i in 0..16 {
            let both = [triangles(0)[i / 4], triangles(1)[i % 4]];
            skins.push(apart(&both, pair).with_stiffness(young(pair)));
        }
    }
    skins
}

/// Every two numbers, and larger sets with 7. 3, 7, 4 and 5 are the first triangle's, and
/// beside 1 and 2 those that would hold without them.
pub fn faulty_skins() -> Vec<Faulty> {
    let mut all = Vec::new();
    for (i, faults) in numbered(sets(&[1, 2, 3, 7, 4, 5])) {
        let variants = match faults.len() {
            2 => 0..4,
            _ if faults.contains(&7) => i % 4..i % 4 + 1,
            _ => 0..0,
        };
        for variant in variants {
            let skin = faulty_skin(&faults, variant).with_unused(unused(i + variant));
            all.push((faults.clone(), skin.record()));
        }
    }
    all
}

fn faulty_skin(faults: &[u64], variant: usize) -> Skin {
    let odd = variant % 2 == 1;
    let mut skin = creased().with_stiffness(faulty_stiffness(faults, variant));
    if faults.contains(&4) {
        let twice = [2.0, 0.0, 0.0];
        skin.ini[6..9].copy_from_slice(if odd { &SQUARE[..3] } else { &twice });
    }
    if faults.contains(&5) && !odd {
        skin.def.iter_mut().for_each(|x| *x *= power(600));
    }
    if faults.contains(&3) && variant < 2 {
        skin.def[4] = [f64::NAN, f64::INFINITY][variant];
    }
    if faults.contains(&2) {
        skin.names[variant] = far_names(4)[variant];
    }
    if faults.contains(&1) {
        match variant {
            0 => skin.def.push(0.5),
            1 => _ = skin.buffer.pop(),
            2 => skin.names.push(0),
            _ => [&mut skin.ini, &mut skin.def, &mut skin.buffer]
                .into_iter()
                .for_each(|list| list.push(0.5)),
        }
    }
    skin
}
