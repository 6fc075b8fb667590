//! Which way triangles turn, what 6 is given for, and what the sample has of both.

use crate::answer::{answer, word};
use crate::fraction::Fraction;
use crate::helpers::points;
use crate::kernel_samples::original;
use crate::kernels::{self, finite, Call};
use crate::mass_cases::{grid, grid_names};
use crate::masses::{masses, turn};
use crate::material::{self, Material};
use crate::material_cases::STOCK;
use crate::numbers::power;
use crate::random::Random;
use crate::record::{numbers_of, Record, MASSES, MASSES_LENGTHS, PLATE};
use crate::turn::Turn;
use crate::turn_cases::turned_left;
use crate::turn_samples::{edges, panels, plates};
use crate::{generated, sample};
use del_fem_cpu::mitc_tri3;
use del_geo_core::tri2;
use std::collections::{BTreeMap, BTreeSet};

const SMALLEST: f64 = f64::from_bits(1);

#[test]
fn turns_by_the_computed_area() {
    use Turn::{Flat, Left, Right};
    let h = power(512);
    for (a, b, turn) in [
        (1.0, 1.0, Left),
        (-1.0, 1.0, Right),
        (1.0, 0.0, Flat),
        (-1.0, 0.0, Flat),
        (1.0, SMALLEST, Flat),
        (-1.0, SMALLEST, Flat),
        (2.0, SMALLEST, Left),
        (-2.0, SMALLEST, Right),
        (h, h, Left),
        (-h, h, Right),
    ] {
        let triangle = [[0.0, 0.0], [a, 0.0], [0.0, b]];
        assert_eq!(Turn::of(&triangle), turn, "{a:e} {b:e}");
    }
    let nan = [[0.0, 0.0], [h, 2.0 * h], [2.0 * h, h]];
    assert_eq!(Turn::of(&nan), Flat);
}

#[test]
fn the_sample_has_the_edges_of_turns() {
    let [mut areas, mut twice] = [BTreeSet::new(), BTreeSet::new()];
    for [x0, y0, x1, y1, x2, y2] in edges() {
        areas.insert(word(tri2::area(&[x0, y0], &[x1, y1], &[x2, y2])));
        twice.insert(word((x1 - x0) * (y2 - y0) - (x2 - x0) * (y1 - y0)));
    }
    for area in [0.0, SMALLEST, power(1022), f64::INFINITY] {
        assert!([area, -area].iter().all(|x| areas.contains(&word(*x))));
    }
    for m in [1.0, 2.0, 3.0] {
        let units = [m * SMALLEST, -m * SMALLEST];
        assert!(units.iter().all(|x| twice.contains(&word(*x))));
    }
    assert!(areas.contains(&word(f64::NAN)));
}

/// Coordinates, names and the buffer on entry.
fn lists(record: &Record) -> (Vec<f64>, &[u64], &[u64]) {
    let [n, t] = [record.words[0], record.words[1]].map(|length| length as usize);
    let (xy, behind) = record.words[MASSES_LENGTHS + material::WORDS..].split_at(n);
    let (names, buffer) = behind.split_at(t);
    (numbers_of(xy), names, buffer)
}

/// What it would be answered with if 6 were no refusal, where none before 6 holds.
fn number_without_six(record: &Record) -> u64 {
    if record.kind == PLATE {
        let inputs = Call::of(record).inputs;
        let (values, divisors) = kernels::values_and_divisors(PLATE, &inputs);
        return match (divisors.contains(&0.0), finite(&values)) {
            (true, _) => 4,
            (false, false) => 5,
            _ => 0,
        };
    }
    let material = Material::read(&record.words[MASSES_LENGTHS..][..material::WORDS]);
    let (xy, names, buffer) = lists(record);
    let names: Vec<usize> = names.iter().map(|name| *name as usize).collect();
    let mut masses = numbers_of(buffer);
    let (thick, rho) = (material.thickness, material.density);
    mitc_tri3::mass_lumped_plate_bending(&names, &xy, thick, rho, &mut masses);
    if finite(&masses) {
        0
    } else {
        5
    }
}

/// Records from before there was a 6 still show what they were for, turned round.
#[test]
fn refused_for_their_turn_alone() {
    for (kind, turned) in [(PLATE, plates()), (MASSES, panels())] {
        assert!(turned.len() >= 200, "kind {kind}: {}", turned.len());
        let records = sample(kind);
        let (before, behind) = records.split_at(records.len() - turned.len());
        assert_eq!(behind, turned);
        for record in before.iter().filter(|record| answer(record).number == 6) {
            let twin = turned_left(record.clone());
            assert!(before.contains(&twin), "{record:?}");
            assert_eq!(answer(&twin).number, number_without_six(record));
        }
    }
}

/// Values of +0, and a buffer as it was, bit by bit.
#[test]
fn what_six_leaves() {
    for kind in [PLATE, MASSES] {
        let records = sample(kind);
        let answers = records.iter().map(|record| (record, answer(record)));
        for (record, answer) in answers.filter(|(_, answer)| answer.number == 6) {
            let bits: Vec<u64> = answer.values.iter().map(|x| x.to_bits()).collect();
            match kind {
                PLATE => assert_eq!(bits, [0; 91]),
                _ => assert_eq!(bits, lists(record).2),
            }
        }
    }
}

/// Twice the area of a triangle of whole coordinates, exact.
fn twice_area(names: &[u64], xy: &[f64]) -> i128 {
    let at = |name: u64, axis: usize| {
        let x = xy[name as usize * 2 + axis];
        Fraction::of_bits(x.to_bits()).unwrap()
    };
    let edge = |end: usize, axis: usize| at(names[end], axis) - at(names[0], axis);
    let twice = edge(1, 0) * edge(2, 1) - edge(2, 0) * edge(1, 1);
    twice.whole().unwrap()
}

/// Whole coordinates of size at most 2^20: 6 is exactly where some exact area is below zero, and
/// nothing else is given.
#[test]
fn turns_of_whole_coordinates_are_exact() {
    let mut random = Random::of(29);
    let mut given = BTreeMap::new();
    for round in 0..3000 {
        let largest = [2, 9, 1 << 20][round % 3];
        let mut number = || f64::from(random.between(-largest, largest));
        let xy: Vec<f64> = (0..12).map(|_| number()).collect();
        let count = 3 * (1 + round / 3 % 3);
        let names: Vec<u64> = (0..count).map(|_| random.below(6)).collect();
        let areas: Vec<i128> = names.chunks(3).map(|t| twice_area(t, &xy)).collect();
        let answer = masses(&names, &xy, &STOCK, &[7.0; 18]);
        let right = areas.iter().any(|twice| *twice < 0);
        assert_eq!(answer.number, if right { 6 } else { 0 }, "{names:?} {xy:?}");
        *given
            .entry((answer.number, areas.contains(&0)))
            .or_insert(0) += 1;
    }
    assert!(given.values().all(|n| *n >= 100) && given.len() == 4);
}

/// The runs for `speed` are of calls that are accepted: the grid turns left throughout, rows'
/// ends included, and the plate does however far it is moved.
#[test]
fn runs_turn_left() {
    for triangles in [1, 510, 511, 512, 1000, 50_000] {
        let xy: Vec<f64> = grid(triangles).flatten().collect();
        let names = grid_names(triangles, 0);
        assert_eq!(names.len() as u64, 3 * triangles);
        assert!(names.chunks(3).all(|names| turn(names, &xy) == Turn::Left));
        let shifted: Vec<u64> = names.iter().map(|name| name + 1).collect();
        assert_eq!(grid_names(triangles, 1), shifted);
    }
    for call in [0, 1, 1000, 1_000_000] {
        let step = f64::from(call) / 1048576.0;
        let moved: Vec<f64> = original(PLATE).iter().map(|x| x + step).collect();
        assert_eq!(Turn::of(&points(&moved)), Turn::Left);
        assert_eq!(kernels::answer(PLATE, &moved).number, 0);
    }
}

/// Of fresh plates about one in eight is refused for its turn, of fresh panels one in six.
#[test]
fn some_fresh_records_turn_right() {
    for (kind, least, most) in [(PLATE, 200, 300), (MASSES, 270, 400)] {
        let mut random = Random::of(31);
        let fresh = (0..2000).map(|_| answer(&generated(kind, &mut random)).number);
        let six = fresh.filter(|number| *number == 6).count();
        assert!((least..most).contains(&six), "kind {kind}: {six}");
    }
}
