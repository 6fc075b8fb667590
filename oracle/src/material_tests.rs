//! Materials: the computed pair, the bounds of 7, what each routine looks at, and which
//! of several refusals is given.

use crate::answer::answer;
use crate::kernels::{self, finite, Call};
use crate::material::{self, Material, Stiffness};
use crate::material_cases::{lame, unused, young, LAST_RATIOS, RATIOS, STOCK};
use crate::material_samples::{faulty_kernels, faulty_masses, faulty_skins, Faulty};
use crate::numbers::moved;
use crate::random::Random;
use crate::record::{Record, MASSES, MASSES_LENGTHS, PLATE, PLATE_CORNERS, SKIN, SKIN_LENGTHS};
use crate::record::{STVK, STVK_CORNERS};
use crate::turn_samples::{faulty_panels, faulty_plates};
use crate::{generated, material_samples, sample};
use std::collections::BTreeMap;

/// The kinds that take a material, and how many words are before it.
const KINDS: [(u64, usize); 4] = [
    (STVK, STVK_CORNERS),
    (PLATE, PLATE_CORNERS),
    (MASSES, MASSES_LENGTHS),
    (SKIN, SKIN_LENGTHS),
];

fn material_of(record: &Record, before: usize) -> Material {
    Material::read(&record.words[before..][..material::WORDS])
}

fn with_material(record: &Record, before: usize, material: &Material) -> Record {
    let mut record = record.clone();
    record.words[before..][..material::WORDS].copy_from_slice(&material.words());
    record
}

#[test]
fn the_stock_sheet() {
    let bits = STOCK.stiffness.lame().map(f64::to_bits);
    assert_eq!(bits, [0x41c9_9999_9999_999a; 2]);
    assert_eq!(
        STOCK.words()[..3],
        [3, 1400f64.to_bits(), 0x3f60_0000_0000_0000]
    );
    assert_eq!(
        [STOCK.words()[3], STOCK.words()[4]].map(f64::from_bits),
        [2f64.powi(31), 0.25]
    );
    for (kind, before) in KINDS {
        let stock = |record: &Record| record.words[before..].starts_with(&STOCK.words());
        assert!(sample(kind).iter().any(stock), "kind {kind}");
    }
}

/// Each operation is one rounding, in the request's order: worked out by hand.
#[test]
fn computed_pairs() {
    for (e, v, lambda, myu) in [
        (1.0, 0.0, 0.0, 0.5),
        (1.0, -0.0, -0.0, 0.5),
        (3.0, -0.5, -1.5, 3.0),
        (1.5, 0.25, 0.6, 0.6),
        (
            3.0,
            LAST_RATIOS[0],
            1.0 - 2f64.powi(53),
            3.0 * 2f64.powi(52),
        ),
        (3.0, LAST_RATIOS[1], 2f64.powi(53) - 1.0, 1.0),
        (f64::from_bits(1), 0.25, 0.0, 0.0),
        (f64::from_bits(1), -0.5, -0.0, f64::from_bits(1)),
    ] {
        let pair = young([e, v]).lame();
        assert!(
            kernels::same(&pair, &[lambda, myu]),
            "{e:e} {v:e}: {pair:?}"
        );
    }
}

#[test]
fn bounds_of_seven() {
    let smallest = f64::from_bits(1);
    let admitted = |e: f64, v: f64| young([e, v]).admitted();
    for e in [smallest, 1.0, f64::MAX] {
        assert!(admitted(e, 0.25), "{e:e}");
    }
    for e in [0.0, -0.0, -smallest, -1.0, f64::MIN] {
        assert!(!admitted(e, 0.25), "{e:e}");
    }
    for v in [moved(-1.0, -1), moved(0.5, -1), 0.0, -0.0] {
        assert!(admitted(1.0, v), "{v:e}");
    }
    for v in [-1.0, moved(-1.0, 1), 0.5, moved(0.5, 1), f64::MAX, f64::MIN] {
        assert!(!admitted(1.0, v), "{v:e}");
    }
    assert!([-1.0, moved(-1.0, -1), moved(-1.0, 1)] == [RATIOS[0], RATIOS[1], RATIOS[2]]);
    assert!([0.5, moved(0.5, -1), moved(0.5, 1)] == [RATIOS[3], RATIOS[4], RATIOS[5]]);
    assert!(lame([-1.0, 0.5]).admitted() && lame([f64::NAN; 2]).admitted());
}

#[test]
fn no_admitted_pair_is_a_nan() {
    let mut infinite = [0, 0];
    for (kind, before) in KINDS {
        let mut random = Random::of(17);
        let fresh = (0..500).map(|_| generated(kind, &mut random));
        for record in sample(kind).into_iter().chain(fresh) {
            let stiffness = material_of(&record, before).stiffness;
            if let (Stiffness::Young { .. }, true) = (stiffness, stiffness.admitted()) {
                let pair = stiffness.lame();
                if finite(&stiffness.given()) {
                    assert!(!pair[0].is_nan() && !pair[1].is_nan(), "{stiffness:?}");
                    (0..2).for_each(|i| infinite[i] += usize::from(pair[i].is_infinite()));
                }
            }
        }
    }
    assert!(infinite[0] > 0 && infinite[1] > 0);
}

/// Words of a material that the routine does not use.
fn unused_words(kind: u64) -> &'static [usize] {
    match kind {
        STVK | SKIN => &[1, 2],
        PLATE => &[1],
        _ => &[3, 4],
    }
}

#[test]
fn what_is_not_used_is_not_looked_at() {
    for (kind, before) in KINDS {
        let mut seen = [false; 3];
        for record in sample(kind) {
            let line = answer(&record).line();
            let kinds = |x: f64| [x.is_nan(), x.is_infinite(), x.is_finite()];
            let first = f64::from_bits(record.words[before + unused_words(kind)[0]]);
            (0..3).for_each(|i| seen[i] |= kinds(first)[i]);
            for i in 0..3 {
                let mut other = record.clone();
                for (word, x) in unused_words(kind).iter().zip(unused(i)) {
                    other.words[before + word] = x.to_bits();
                }
                if kind == MASSES {
                    other.words[before] = 2 + i as u64 % 2;
                }
                assert_eq!(answer(&other).line(), line, "kind {kind}");
            }
        }
        assert_eq!(seen, [true; 3], "kind {kind}");
    }
}

/// A Lamé pair is handed to the original; E and v give what their pair gives, where 3 lets
/// that pair through.
#[test]
fn both_stiffnesses_agree() {
    for (kind, before) in KINDS {
        let mut compared = 0;
        for record in sample(kind) {
            let material = material_of(&record, before);
            let pair = material.stiffness.lame();
            if material.stiffness.admitted() && finite(&pair) {
                let stiffness = lame(pair);
                let written_down = with_material(
                    &record,
                    before,
                    &Material {
                        stiffness,
                        ..material
                    },
                );
                assert_eq!(answer(&record).line(), answer(&written_down).line());
                compared += usize::from(material.words()[0] == 3);
            }
        }
        assert!(compared >= 50, "kind {kind}: {compared}");
    }
}

/// Beside the other records of the sample.
#[test]
fn the_sample_has_materials() {
    for (kind, before) in KINDS {
        let records = match kind {
            MASSES => material_samples::masses(),
            SKIN => material_samples::skin(),
            kernel => material_samples::kernel(kernel),
        };
        assert!(records.len() >= 200, "kind {kind}: {}", records.len());
        let all = sample(kind);
        let lame = |r: &&Record| r.words[before] == 2;
        let start = all.windows(records.len()).position(|part| part == records);
        let start = start.expect("one after the other in the sample");
        assert!(all[..start].iter().all(|r| lame(&r)));
        let count = records.iter().filter(lame).count();
        assert!(
            count >= 30 && records.len() - count >= 100,
            "kind {kind}: {count}"
        );
    }
}

/// Half are accepted, about half have Young's modulus, and every refusal comes up.
#[test]
fn generated_materials() {
    for (kind, before) in KINDS {
        let refusals: &[u64] = match kind {
            MASSES => &[0, 1, 2, 3, 5, 6],
            SKIN => &[0, 1, 2, 3, 4, 5, 7],
            PLATE => &[0, 3, 4, 5, 6, 7],
            _ => &[0, 3, 4, 5, 7],
        };
        let mut random = Random::of(23);
        let mut numbers = BTreeMap::new();
        let mut with_modulus = 0;
        for _ in 0..2000 {
            let record = generated(kind, &mut random);
            *numbers.entry(answer(&record).number).or_insert(0) += 1;
            with_modulus += u64::from(record.words[before] == 3);
        }
        println!("kind {kind}: {numbers:?}, {with_modulus} with Young's modulus");
        assert!(numbers[&0] >= 1000, "kind {kind}: {numbers:?}");
        assert!(numbers.keys().eq(refusals), "kind {kind}: {numbers:?}");
        assert!(
            (850..1150).contains(&with_modulus),
            "kind {kind}: {with_modulus}"
        );
    }
}

/// The first of these that holds is given.
const LADDER: [u64; 7] = [1, 2, 3, 7, 6, 4, 5];

fn given_first(faulty: &[Faulty]) {
    for (faults, record) in faulty {
        let first = LADDER.iter().find(|number| faults.contains(number));
        let answer = answer(record);
        assert_eq!(Some(&answer.number), first, "{faults:?}: {record:?}");
        assert_eq!(answer.place.unwrap_or(0), 0);
    }
}

fn pairs_of(numbers: &[u64]) -> Vec<[u64; 2]> {
    let pairs = numbers
        .iter()
        .flat_map(|a| numbers.iter().map(|b| [*a, *b]));
    pairs.filter(|[a, b]| a != b).collect()
}

fn all_faulty_plates() -> Vec<Faulty> {
    [faulty_kernels(PLATE), faulty_plates()].concat()
}

#[test]
fn of_several_refusals_the_first_is_given() {
    for (faulty, numbers) in [
        (faulty_kernels(STVK), &[3, 7, 4, 5][..]),
        (all_faulty_plates(), &LADDER[2..]),
        (
            [faulty_masses(), faulty_panels()].concat(),
            &[1, 2, 3, 6, 5],
        ),
        (faulty_skins(), &[1, 2, 3, 7, 4, 5]),
    ] {
        given_first(&faulty);
        for pair in pairs_of(numbers) {
            let both = |(faults, _): &&Faulty| pair.iter().all(|n| faults.contains(n));
            assert!(faulty.iter().filter(both).count() >= 4, "{pair:?}");
        }
    }
}

/// A skin's first triangle, where the skin has right lengths and names.
fn first_triangle((faults, record): &Faulty) -> Option<Faulty> {
    if faults.contains(&1) || faults.contains(&2) {
        return None;
    }
    let (lengths, behind) = record.words.split_at(SKIN_LENGTHS);
    let (material, lists) = behind.split_at(material::WORDS);
    let names = &lists[2 * lengths[0] as usize..][..3];
    let corners = [0, lengths[0]].map(|list| {
        let corner = |name: &u64| &lists[(list + name * 3) as usize..][..3];
        names.iter().flat_map(corner).copied().collect::<Vec<u64>>()
    });
    let words = [&corners.concat(), material].concat();
    Some((faults.clone(), Record { kind: STVK, words }))
}

/// What is said of a record holds, and nothing else but 5.
#[test]
fn said_of_kernels_and_true() {
    let triangles = faulty_skins().iter().filter_map(first_triangle).collect();
    for (kind, faulty) in [
        (STVK, faulty_kernels(STVK)),
        (PLATE, all_faulty_plates()),
        (STVK, triangles),
    ] {
        assert!(faulty.len() >= 24);
        for (faults, record) in faulty {
            let call = Call::of(&record);
            let (values, divisors) = kernels::values_and_divisors(kind, &call.inputs);
            let held = [
                (3, !finite(&call.given)),
                (7, !call.admitted),
                (6, call.turned),
                (4, divisors.contains(&0.0)),
                (5, !finite(&values)),
            ];
            for (number, holds) in held {
                let said = faults.contains(&number);
                assert!(
                    said == holds || number == 5 && holds,
                    "{number} of {faults:?}: {record:?}"
                );
            }
        }
    }
}

/// 7 is the first triangle's, or a 3 is; without a triangle nothing is looked at.
#[test]
fn seven_of_a_skin() {
    let mut places = BTreeMap::new();
    for record in sample(SKIN) {
        let stiffness = material_of(&record, SKIN_LENGTHS).stiffness;
        let answer = answer(&record);
        let zeros = |values: &[f64]| values.iter().all(|x| x.to_bits() == 0);
        if answer.number == 7 {
            assert_eq!(answer.place, Some(0));
            assert!(zeros(&answer.values) && !stiffness.admitted());
        }
        if record.words[2] == 0 {
            assert!(answer.number < 2);
        } else if !stiffness.admitted() {
            assert!([1, 2, 3, 7].contains(&answer.number) && answer.place == Some(0));
        }
        let triangles = (record.words[2] / 3, answer.number);
        *places.entry((stiffness.admitted(), triangles)).or_insert(0) += 1;
    }
    for key in [
        (false, (0, 0)),
        (false, (0, 1)),
        (false, (2, 3)),
        (false, (2, 7)),
    ] {
        assert!(
            places.get(&key).is_some_and(|n| *n >= 4),
            "{key:?}: {places:?}"
        );
    }
}
