//! The fixed sample of a whole skin: chosen skins, then drawn ones.

use crate::kernel_cases::{layout, with_one_infinite, with_zero_divisors};
use crate::mass_cases::{far_names, SMALL};
use crate::material_cases::{lame, unused};
use crate::material_samples;
use crate::numbers::{self, power};
use crate::random::Random;
use crate::record::{Record, SKIN, STVK};
use crate::skin_cases::{drawn, Skin};

const DRAWN: usize = 120;

pub const SQUARE: [f64; 12] = [0.0, 0.0, 0.0, 1.0, 0.0, 0.0, 0.0, 1.0, 0.0, 1.0, 1.0, 0.0];
const PULLED: [f64; 12] = [0.0, 0.0, 0.0, 2.0, 0.0, 0.0, 0.0, 1.0, 0.0, 2.0, 1.0, 0.0];
pub const CREASED: [f64; 12] = [0.1, 0.2, 0.3, 1.3, -0.1, 0.7, 0.2, 1.1, -0.4, 0.9, 1.2, 0.6];

/// Both triangles of the square.
pub const BOTH: [u64; 6] = [0, 1, 2, 1, 3, 2];

const LAME: [f64; 2] = [1.3, 1.9];

const BAD: [f64; 4] = [
    f64::INFINITY,
    f64::NEG_INFINITY,
    f64::NAN,
    f64::from_bits(0xfff0_0000_0000_0001),
];

pub fn sample() -> Vec<Record> {
    let mut random = Random::of(SKIN);
    let mut skins = [
        examples(),
        lengths(),
        empty(),
        far(),
        not_finite(),
        never_named(),
        named_twice(),
        buffers(),
        sequences(),
        single_triangles(&mut random),
        sums_overflow(),
        orders(&mut random),
        subnormal(),
    ]
    .concat();
    skins.extend((0..DRAWN).map(|_| drawn(&mut random, SMALL)));
    let places = skins.into_iter().enumerate();
    let mut records: Vec<Record> = places
        .map(|(i, skin)| skin.with_unused(unused(i)).record())
        .collect();
    records.extend(material_samples::skin());
    records
}

pub fn creased() -> Skin {
    Skin::of(&SQUARE, &CREASED, &BOTH, LAME)
}

/// Lists in several orders and turns. Of a skin at rest, or of all points in one,
/// the parts are zeros, -0 where a stiffness is negative.
fn examples() -> Vec<Skin> {
    let lists: [&[u64]; 8] = [
        &[0, 1, 2],
        &[0, 2, 1],
        &[3, 1, 0],
        &BOTH,
        &[1, 3, 2, 0, 1, 2],
        &[0, 1, 2, 0, 2, 1],
        &[2, 0, 1, 2, 0, 1, 2, 0, 1],
        &[0, 1, 3, 0, 3, 2],
    ];
    let mut skins = Vec::new();
    for names in lists {
        for def in [PULLED, CREASED, SQUARE, [0.0; 12], [-0.0; 12]] {
            for lame in [[0.0, 1.0], LAME, [-1.0, -0.0], [-1.3, -1.9]] {
                skins.push(Skin::of(&SQUARE, &def, names, lame));
            }
        }
    }
    skins
}

/// One list of numbers, two or all three longer or shorter by up to a vertex, and
/// triangles cut short; also beside a name of no vertex.
fn lengths() -> Vec<Skin> {
    let mut skins = Vec::new();
    for lists in 1..8 {
        for change in [-3, -2, -1, 1, 2, 3] {
            let mut skin = creased();
            let all = [&mut skin.ini, &mut skin.def, &mut skin.buffer];
            for (_, list) in (0..3).zip(all).filter(|(i, _)| lists >> i & 1 == 1) {
                list.resize(list.len().wrapping_add_signed(change), 0.5);
            }
            skins.push(skin);
        }
    }
    for count in [1, 2, 4, 5, 7] {
        for far in [0, 4] {
            let mut skin = creased();
            skin.names = (0..count).map(|i| i % 4).collect();
            skin.names[0] = far;
            skins.push(skin);
        }
    }
    skins
}

/// No triangle: nothing is looked at but the lengths.
fn empty() -> Vec<Skin> {
    let mut skins = Vec::new();
    for lame in [LAME, [f64::NAN, 1.0], [1.0, f64::INFINITY], [f64::NAN; 2]] {
        skins.push(Skin::of(&SQUARE, &CREASED, &[], lame));
        skins.push(Skin::of(&[f64::NAN; 12], &[f64::INFINITY; 12], &[], lame));
        skins.push(Skin::of(&[], &[], &[], lame));
        skins.push(Skin::of(&[], &[], &[0, 0, 0], lame));
        for place in 0..3 {
            let mut skin = Skin::of(&[1.0; 3], &[2.0; 3], &[], lame);
            let list = [&mut skin.ini, &mut skin.def, &mut skin.buffer];
            list.into_iter().nth(place).unwrap().clear();
            skins.push(skin);
        }
    }
    skins
}

/// Names beyond the vertices at every place, alone and beside what 1 and 3 refuse.
fn far() -> Vec<Skin> {
    let mut skins = Vec::new();
    for name in far_names(4) {
        for place in 0..6 {
            let mut skin = creased();
            skin.names[place] = name;
            skins.push(skin);
        }
    }
    for place in [0, 5] {
        let mut skin = creased();
        skin.names[place] = 4;
        skin.material.stiffness = lame([f64::NAN, LAME[1]]);
        skins.push(skin.clone());
        skin.def.push(0.0);
        skins.push(skin);
    }
    skins
}

/// Each number in turn, over a list that names vertex 3 and one that does not.
fn not_finite() -> Vec<Skin> {
    let lists: [&[u64]; 2] = [&[2, 0, 1], &BOTH];
    let mut skins = Vec::new();
    for (i, names) in lists.into_iter().enumerate() {
        let good = Skin::of(&SQUARE, &CREASED, names, LAME);
        for place in 0..12 {
            let (mut ini, mut def) = (good.clone(), good.clone());
            ini.ini[place] = BAD[(place + i) % 4];
            def.def[place] = BAD[(place + i + 2) % 4];
            skins.extend([ini, def]);
        }
        for x in BAD {
            skins.push(Skin::of(&SQUARE, &CREASED, names, [x, 1.0]));
            skins.push(Skin::of(&SQUARE, &CREASED, names, [1.0, x]));
        }
    }
    skins
}

/// A vertex more, which no triangle names, at every place.
fn never_named() -> Vec<Skin> {
    let mut skins = Vec::new();
    for vertex in 0..5 {
        for x in [f64::NAN, f64::INFINITY, -0.0, f64::MAX] {
            let with = |points: [f64; 12]| {
                let (before, behind) = points.split_at(vertex * 3);
                [before, &[x; 3], behind].concat()
            };
            let names = BOTH.map(|name| name + u64::from(name >= vertex as u64));
            skins.push(Skin::of(&with(SQUARE), &with(CREASED), &names, LAME));
        }
    }
    skins
}

/// A triangle that names a vertex twice has no area; with edges beyond the range
/// it has no number.
fn named_twice() -> Vec<Skin> {
    let lists: [&[u64]; 8] = [
        &[0, 0, 1],
        &[0, 1, 0],
        &[1, 0, 0],
        &[2, 2, 2],
        &[0, 1, 2, 1, 1, 3],
        &[0, 1, 2, 3, 2, 2],
        &[0, 1, 2, 1, 3, 2, 3, 0, 3],
        &[0, 0, 0, 1, 1, 1],
    ];
    let sizes = [SQUARE, SQUARE.map(|x| (x - 0.5) * f64::MAX)];
    let of = |ini: &[f64; 12], names: &[u64]| Skin::of(ini, &CREASED, names, LAME);
    lists
        .iter()
        .flat_map(|names| sizes.iter().map(|ini| of(ini, names)))
        .collect()
}

/// What the buffer holds on entry, over an answer of every kind.
fn buffers() -> Vec<Skin> {
    let skins = [
        creased(),
        Skin::of(&SQUARE, &CREASED, &[], LAME),
        Skin::of(&SQUARE, &CREASED, &[0, 1], LAME),
        Skin::of(&SQUARE, &CREASED, &[0, 1, 4], LAME),
        Skin::of(&SQUARE, &CREASED, &BOTH, [f64::NAN, 1.0]),
        Skin::of(&SQUARE, &CREASED, &[0, 1, 2, 3, 3, 1], LAME),
        energetic(&BOTH, 1.1),
        energetic(&BOTH, 0.9),
    ];
    let mut filled = Vec::new();
    for x in [&BAD[..], &[-0.0]].concat() {
        filled.extend(skins.iter().cloned().map(|skin| Skin {
            buffer: vec![x; 12],
            ..skin
        }));
    }
    filled
}

/// Large, and deformed so far that its energies are the largest numbers by far.
fn energetic(names: &[u64], part: f64) -> Skin {
    let far = CREASED.map(|x| x * power(100));
    Skin::of(&SQUARE.map(|x| x * 8.0), &far, names, LAME).stiff(part)
}

/// A triangle's corners at rest and deformed.
pub type Triangle = [[f64; 9]; 2];

const RIGHT: [f64; 9] = [0.0, 0.0, 0.0, 1.0, 0.0, 0.0, 0.0, 1.0, 0.0];
const ACCEPTED: Triangle = [RIGHT, [0.1, 0.2, 0.3, 1.3, -0.1, 0.7, 0.2, 1.1, -0.4]];

/// Triangles that share no vertex.
pub fn apart(triangles: &[Triangle], lame: [f64; 2]) -> Skin {
    let points = |i: usize| -> Vec<f64> { triangles.iter().flat_map(|t| t[i]).collect() };
    let names: Vec<u64> = (0..3 * triangles.len() as u64).collect();
    Skin::of(&points(0), &points(1), &names, lame)
}

/// Triangles that are accepted and that 3, 4 and 5 refuse; those of 3 are of two kinds.
pub fn triangles(place: usize) -> [Triangle; 4] {
    let mut nan_at_rest = ACCEPTED;
    nan_at_rest[0][4] = f64::NAN;
    let mut infinite = ACCEPTED;
    infinite[1][8] = f64::INFINITY;
    let line = [0.0, 0.0, 0.0, 1.0, 0.0, 0.0, 2.0, 0.0, 0.0];
    let torn = [RIGHT, RIGHT.map(|x| x * power(300))];
    let not_finite = [nan_at_rest, infinite][place % 2];
    [ACCEPTED, not_finite, [line, RIGHT], torn]
}

/// Every sequence of three triangles, each accepted or refused by 3, 4 or 5.
fn sequences() -> Vec<Skin> {
    (0..64)
        .map(|i| {
            [
                triangles(0)[i / 16],
                triangles(1)[i / 4 % 4],
                triangles(2)[i % 4],
            ]
        })
        .map(|sequence| apart(&sequence, LAME))
        .collect()
}

/// Skins of one triangle: each divisor alone a zero; the energy, an entry of the
/// gradient or one of the Hessian alone beyond the range.
fn single_triangles(random: &mut Random) -> Vec<Skin> {
    let stvk = layout(STVK);
    let mut cases = Vec::new();
    for divisor in 1..4 {
        cases.push(with_zero_divisors(random, &stvk, &[divisor]));
    }
    for value in [0, 1, 5, 9, 10, 50, 90] {
        cases.push(with_one_infinite(random, &stvk, value));
    }
    let skin = |x: &Vec<f64>| Skin::of(&x[..9], &x[9..18], &[0, 1, 2], [x[18], x[19]]);
    cases.iter().map(skin).collect()
}

/// No triangle is refused, but a sum is beyond the range, the energy's or an
/// entry's of the gradient, and parts of the other sign do not bring it back
/// (`long` has a negative energy); near misses; a refused triangle behind.
fn sums_overflow() -> Vec<Skin> {
    let mut skins = Vec::new();
    for part in [0.4, 0.499, 0.501, 0.9, 0.999] {
        skins.push(energetic(&[0, 1, 2, 0, 1, 2], part));
        skins.push(energetic(&BOTH, part));
    }
    for sides in [
        [1.0, 1.0, 1.0, 1.0],
        [1.0, 1.0, 1.0, -1.0],
        [1.0, 1.0, -1.0, 1.0],
        [-1.0, -1.0, -1.0, 1.0],
    ] {
        let skin = fan(&sides).stiff(0.99);
        skins.extend([reversed(&skin), skin]);
    }
    let mut long = [0.0; 9];
    long[3] = 1.25;
    let [wide, long] = [RIGHT, long].map(|x| [RIGHT.map(|x| x * 8.0), x.map(|x| x * power(100))]);
    for triangles in [
        [long, long, wide, wide],
        [long, wide, wide, long],
        [wide, wide, long, long],
    ] {
        let skin = apart(&triangles, [1.0, -0.75]).stiff(0.9);
        let mut refused = skin.clone();
        refused.def[33] = f64::NAN;
        skins.extend([skin, refused]);
    }
    skins
}

/// Triangles round vertex 0, pulled towards either side.
fn fan(sides: &[f64]) -> Skin {
    let points = |pull: f64| {
        let outer = sides
            .iter()
            .map(|side| [side * pull, 0.0, 0.0, 0.0, 2.0, 0.0]);
        [vec![0.0; 3], outer.flatten().collect()].concat()
    };
    let names: Vec<u64> = (0..sides.len() as u64)
        .flat_map(|i| [0, 2 * i + 1, 2 * i + 2])
        .collect();
    Skin::of(&points(2.0), &points(3.0), &names, [0.0, 1.0])
}

/// All numbers from the end: the last vertex for the first, and z for x.
fn reversed(skin: &Skin) -> Skin {
    let last = skin.ini.len() as u64 / 3 - 1;
    let names: Vec<u64> = skin.names.iter().map(|name| last - name).collect();
    let points = |list: &[f64]| -> Vec<f64> { list.iter().rev().copied().collect() };
    let pair = skin.material.stiffness.given();
    Skin::of(&points(&skin.ini), &points(&skin.def), &names, pair)
}

/// The same four triangles in every order: last bits differ.
fn orders(random: &mut Random) -> Vec<Skin> {
    let triangles = [[0, 1, 2], [2, 1, 3], [0, 2, 4], [4, 2, 3]];
    let ini = numbers::similar(random, 15, 2, 3);
    let def = numbers::similar(random, 15, 2, 3);
    let orders = (0..256).map(|i| [i / 64, i / 16 % 4, i / 4 % 4, i % 4]);
    orders
        .filter(|order| (0..4).all(|i| order.contains(&i)))
        .map(|order| order.map(|i| triangles[i]).concat())
        .map(|names| Skin::of(&ini, &def, &names, LAME))
        .collect()
}

/// Stiffnesses near the smallest number.
fn subnormal() -> Vec<Skin> {
    let of = |e: i32| {
        [PULLED, CREASED].map(|def| Skin::of(&SQUARE, &def, &BOTH, [power(e), -3.0 * power(e)]))
    };
    [-1074, -1073, -1072, -1070, -1060, -1024]
        .into_iter()
        .flat_map(of)
        .collect()
}
