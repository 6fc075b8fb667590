//! The scope's examples, the meaning of every traced divisor, and what the
//! fixed sample has to hold.

use crate::answer::{self, answer};
use crate::helpers::points;
use crate::kernels::Call;
use crate::material::{self, Material};
use crate::material_cases::lame;
use crate::random::Random;
use crate::record::{
    self, numbers_of, Record, Records, BENDING, GREEN_LAGRANGE, KINDS, PLATE, STRAIN, STVK,
};
use crate::{compare, generated, kernels, masses, sample, skin};
use del_geo_core::{curve_linear_coords, edge, tri3, vec3};
use std::collections::BTreeSet;

const KERNELS: [u64; 5] = [BENDING, STRAIN, STVK, PLATE, GREEN_LAGRANGE];

fn values(kind: u64, inputs: &[f64]) -> Vec<f64> {
    let answer = kernels::answer(kind, inputs);
    assert_eq!(answer.number, 0);
    answer.values
}

fn refusal(kind: u64, inputs: &[f64]) -> u64 {
    let answer = kernels::answer(kind, inputs);
    let number = answer.number;
    assert!(number == 0 || answer.values.iter().all(|x| x.to_bits() == 0));
    number
}

const SQUARE: [f64; 8] = [0.0, 0.0, 6.0, 0.0, 0.0, 6.0, 6.0, 6.0];

/// A thickness and a density for masses, a Lamé pair for a skin; neither uses the other's.
fn material(thickness: f64, density: f64, pair: [f64; 2]) -> Material {
    Material {
        density,
        thickness,
        stiffness: lame(pair),
    }
}

fn for_masses(thickness: f64, density: f64) -> Material {
    material(thickness, density, [f64::NAN; 2])
}

fn for_skins(pair: [f64; 2]) -> Material {
    material(f64::NAN, f64::NAN, pair)
}

fn square_masses(names: &[u64]) -> (u64, Vec<f64>) {
    let answer = masses::masses(names, &SQUARE, &for_masses(1.0, 2.0), &[7.0; 12]);
    (answer.number, answer.values)
}

#[test]
fn examples_of_masses() {
    let one = [12.0, 1.0, 1.0];
    let none = [0.0; 3];
    assert_eq!(
        square_masses(&[0, 1, 2]),
        (0, [one, one, one, none].concat())
    );
    assert_eq!(square_masses(&[0, 2, 1]), (6, vec![7.0; 12]));
    let (_, both) = square_masses(&[0, 1, 2, 1, 3, 2]);
    let translational: Vec<f64> = both.iter().copied().step_by(3).collect();
    assert_eq!(translational, [12.0, 24.0, 24.0, 12.0]);
    assert_eq!(square_masses(&[]), (0, vec![0.0; 12]));
    assert_eq!(square_masses(&[0, 1, 2, 3]), (1, vec![7.0; 12]));
    assert_eq!(square_masses(&[0, 1, 4]), (2, vec![7.0; 12]));
    assert_eq!(square_masses(&[0, 1, 3]).0, 0);
}

#[test]
fn limits_of_masses() {
    let number = |names: usize, coordinates: usize, entries: usize| {
        masses::masses(
            &vec![0; names],
            &vec![1.0; coordinates],
            &for_masses(1.0, 1.0),
            &vec![0.0; entries],
        )
        .number
    };
    assert_eq!(number(3, 131_072, 196_608), 0);
    assert_eq!(number(3, 131_073, 196_608), 0);
    assert_eq!(number(3, 131_074, 196_611), 1);
    assert_eq!(number(393_216, 6, 9), 0);
    assert_eq!(number(393_219, 6, 9), 1);
}

const REST: [f64; 12] = [0.0, 0.0, 0.0, 1.0, 0.0, 0.0, 0.0, 1.0, 0.0, 1.0, 1.0, 0.0];
const PULLED: [f64; 12] = [0.0, 0.0, 0.0, 2.0, 0.0, 0.0, 0.0, 1.0, 0.0, 2.0, 1.0, 0.0];

/// Number, place, energy, and the gradient's x at each vertex.
fn pulled_skin(names: &[u64], lame: [f64; 2]) -> (u64, u64, f64, Vec<f64>) {
    let answer = skin::skin(&REST, &PULLED, names, &for_skins(lame), &[7.0; 12]);
    let along = answer.values[1..].iter().copied().step_by(3).collect();
    (
        answer.number,
        answer.place.unwrap(),
        answer.values[0],
        along,
    )
}

/// The scope's example of one triangle, and the same triangle in a skin.
#[test]
fn examples_of_skins() {
    let lame = [0.0, 1.0];
    let single = (0, 0, 1.125, vec![-3.0, 3.0, 0.0, 0.0]);
    assert_eq!(pulled_skin(&[0, 1, 2], lame), single);
    let both = (0, 0, 2.25, vec![-3.0, 3.0, -3.0, 3.0]);
    assert_eq!(pulled_skin(&[0, 1, 2, 1, 3, 2], lame), both);
    let zeros = vec![0.0; 4];
    assert_eq!(pulled_skin(&[], [f64::NAN; 2]), (0, 0, 0.0, zeros.clone()));
    let untouched = vec![7.0; 4];
    assert_eq!(
        pulled_skin(&[0, 1, 2, 3], lame),
        (1, 0, 0.0, untouched.clone())
    );
    assert_eq!(pulled_skin(&[0, 1, 4], lame), (2, 0, 0.0, untouched));
    assert_eq!(
        pulled_skin(&[0, 1, 2], [f64::NAN, 1.0]),
        (3, 0, 0.0, zeros.clone())
    );
    assert_eq!(
        pulled_skin(&[0, 1, 2, 1, 3, 3], lame),
        (4, 1, 0.0, zeros.clone())
    );
    let thrice = [0, 1, 2, 0, 1, 2, 0, 1, 2];
    assert_eq!(pulled_skin(&thrice, [0.0, f64::MAX / 16.0]).0, 0);
    assert_eq!(
        pulled_skin(&[thrice, thrice].concat(), [0.0, f64::MAX / 16.0]),
        (5, 6, 0.0, zeros)
    );
}

#[test]
fn limits_of_skins() {
    let number = |names: usize, numbers: usize| {
        let points: Vec<f64> = (0..numbers).map(|i| (i * i) as f64).collect();
        let names: Vec<u64> = (0..names as u64).map(|i| i % 3).collect();
        let material = for_skins([1.0, 1.0]);
        skin::skin(&points, &points, &names, &material, &vec![0.0; numbers]).number
    };
    assert_eq!(number(3, 196_608), 0);
    assert_eq!(number(3, 196_611), 1);
    assert_eq!(number(393_216, 9), 0);
    assert_eq!(number(393_219, 9), 1);
}

#[test]
fn examples_of_roots() {
    let root = |x: f64| answer(&Record::of_numbers(record::ROOT, &[x])).line()[17..].to_string();
    assert_eq!(root(4.0), "4000000000000000");
    assert_eq!(root(2.0), "3ff6a09e667f3bcd");
    assert_eq!(root(f64::from_bits(1)), "1e60000000000000");
    assert_eq!(root(f64::MAX), "5fefffffffffffff");
    assert_eq!(root(-0.0), "8000000000000000");
    assert_eq!(root(-1.0), "7ff8000000000000");
}

#[test]
fn examples_of_kernels() {
    let plate = |thickness| {
        let corners = [0.0, 0.0, 1.0, 0.0, 0.0, 1.0];
        let lifted = [0.0, 0.0, 0.0, 1.0, 0.0, 0.0, 0.0, 0.0, 0.0];
        [corners.to_vec(), lifted.to_vec(), vec![thickness, 0.0, 1.0]].concat()
    };
    assert_eq!(values(PLATE, &plate(2.0))[0], 2.0);
    assert_eq!(refusal(PLATE, &plate(0.0)), 4);
    assert_eq!(refusal(PLATE, &plate(f64::INFINITY)), 3);

    let rest = [0.0, 0.0, 0.0, 1.0, 0.0, 0.0, 0.0, 1.0, 0.0];
    let line = [0.0, 0.0, 0.0, 1.0, 0.0, 0.0, 2.0, 0.0, 0.0];
    let pulled = [0.0, 0.0, 0.0, 2.0, 0.0, 0.0, 0.0, 1.0, 0.0];
    let stvk = values(STVK, &[&rest[..], &pulled, &[0.0, 1.0]].concat());
    assert_eq!(
        [stvk[0], stvk[1], stvk[4], stvk[7]],
        [1.125, -3.0, 3.0, 0.0]
    );
    assert_eq!(
        refusal(STVK, &[&line[..], &pulled, &[0.0, 1.0]].concat()),
        4
    );
    let huge = rest.map(|x| x * 2f64.powi(1000));
    assert_eq!(
        refusal(STVK, &[&huge[..], &pulled, &[0.0, 1.0]].concat()),
        5
    );

    let plane = [0.0, 0.0, 1.0, 0.0, 0.0, 1.0];
    assert_eq!(
        values(STRAIN, &[&plane[..], &pulled].concat())[..3],
        [1.5, 0.0, 0.0]
    );

    let pair = [0.0, 2.0, 0.0, 0.0, -2.0, 0.0, 0.0, 0.0, 0.0, 2.0, 0.0, 0.0];
    let mut lifted = [0.0; 12];
    lifted[2] = 1.0;
    let bending = values(BENDING, &[pair, lifted].concat());
    assert_eq!(bending[2].to_bits(), 0xbfeb_b67a_e858_4caa);
}

/// A norm beyond the range makes the unit normal a zero, and a cross beyond it a NaN.
#[test]
fn large_right_angles() {
    for (e, sheet, pair) in [
        (255, 0, 0),
        (256, 4, 0),
        (511, 4, 0),
        (512, 5, 5),
        (513, 5, 5),
    ] {
        let h = 2f64.powi(e);
        let strain = [0.0, 0.0, h, 0.0, 0.0, h];
        let stvk = [0.0, 0.0, 0.0, h, 0.0, 0.0, 0.0, h, 0.0];
        let bending = [0.0, h, 0.0, 0.0, -h, 0.0, 0.0, 0.0, 0.0, h, 0.0, 0.0];
        for kind in [STRAIN, GREEN_LAGRANGE] {
            assert_eq!(
                refusal(kind, &[&strain[..], &[0.0; 9]].concat()),
                sheet,
                "kind {kind}, 2^{e}"
            );
        }
        assert_eq!(
            refusal(STVK, &[&stvk[..], &stvk, &[1.0; 2]].concat()),
            sheet,
            "stvk, 2^{e}"
        );
        assert_eq!(
            refusal(BENDING, &[&bending[..], &[0.0; 12]].concat()),
            pair,
            "bending, 2^{e}"
        );
    }
}

/// A plate without displacement, over a right angle of size h.
fn flat_plate(h: f64, thickness: f64) -> u64 {
    let corners = [0.0, 0.0, h, 0.0, 0.0, h];
    let singles = [thickness, 1.0, 1.0];
    refusal(PLATE, &[&corners[..], &[0.0; 9], &singles].concat())
}

/// What DIFFERENCES.md says of the plate: shear energies, and refusals by size.
#[test]
fn differences_of_the_plate() {
    let energy = |corners: [f64; 6], z: [f64; 3]| {
        let u = [z[0], 0.0, 0.0, z[1], 0.0, 0.0, z[2], 0.0, 0.0];
        values(PLATE, &[&corners[..], &u, &[2.0, 0.0, 1.0]].concat())[0]
    };
    let square = [0.0, 0.0, 1.0, 0.0, 0.0, 1.0];
    let skewed = [0.0, 0.0, 1.0, 0.0, 1.0, 1.0];
    let clockwise = [0.0, 0.0, 0.0, 1.0, 1.0, 0.0];
    assert_eq!(energy(square, [0.0, 1.0, 0.0]), 2.0);
    assert_eq!(energy(skewed, [0.0, 1.0, 1.0]), 4.0);
    let lifted = [0.0, 0.0, 0.0, 0.0, 0.0, 0.0, 1.0, 0.0, 0.0];
    let turned = [&clockwise[..], &lifted, &[2.0, 0.0, 1.0]].concat();
    assert_eq!(kernels::values_and_divisors(PLATE, &turned).0[0], -2.0);
    assert_eq!(refusal(PLATE, &turned), 6);
    for (e, number) in [
        (-537, 4),
        (-536, 5),
        (-256, 5),
        (-255, 0),
        (511, 0),
        (512, 5),
    ] {
        assert_eq!(flat_plate(2f64.powi(e), 1.0), number, "h = 2^{e}");
    }
    let smallest = f64::from_bits(1);
    assert_eq!(
        [flat_plate(1.0, smallest), flat_plate(1.0, 2.0 * smallest)],
        [4, 5]
    );
    for (e, number) in [(-510, 5), (-509, 0), (342, 0), (343, 5)] {
        assert_eq!(flat_plate(1.0, 2f64.powi(e)), number, "thickness 2^{e}");
    }
}

/// The divisors as the scope lists them, among the constants of the sources.
fn listed_divisors(kind: u64, x: &[f64]) -> Vec<f64> {
    match kind {
        BENDING => {
            let [p0, p1, p2, p3] = points(x);
            let len = edge::length(&p2, &p3);
            let (area0, area1) = (tri3::area(&p0, &p2, &p3), tri3::area(&p1, &p3, &p2));
            let (h0, h1) = (2.0 * area0 / len, 2.0 * area1 / len);
            vec![len, len, h0, h0, h1, h1, (area0 + area1).sqrt() * len]
        }
        STRAIN => {
            let [p0, p1, p2]: [[f64; 2]; 3] = points(x);
            let gx = [p1[0] - p0[0], p1[1] - p0[1], 0.0];
            let gy = [p2[0] - p0[0], p2[1] - p0[1], 0.0];
            let normal = vec3::cross(&gx, &gy);
            let twice_area = vec3::norm(&normal) * 0.5 * 2.0;
            let gz = vec3::scale(&normal, 1.0 / twice_area);
            let norms = [vec3::cross(&gy, &gz), vec3::cross(&gz, &gx)].map(|g| vec3::norm(&g));
            vec![2.0, twice_area, norms[0], norms[1]]
        }
        STVK => {
            let [p0, p1, p2] = points(x);
            let (g0, g1) = (vec3::sub(&p1, &p0), vec3::sub(&p2, &p0));
            let normal = vec3::norm(&vec3::cross(&g0, &g1));
            let (g2, _) = tri3::unit_normal_area(&p0, &p1, &p2);
            let dots = [
                vec3::dot(&vec3::cross(&g1, &g2), &g0),
                vec3::dot(&vec3::cross(&g2, &g0), &g1),
            ];
            vec![2.0, normal, dots[0], dots[1]]
        }
        PLATE => {
            let [p0, p1, p2]: [[f64; 2]; 3] = points(x);
            let g0 = [p1[0] - p0[0], p1[1] - p0[1], 0.0];
            let g1 = [p2[0] - p0[0], p2[1] - p0[1], 0.0];
            let g2 = [0.0, 0.0, 0.5 * x[15]];
            let dots = [
                vec3::dot(&vec3::cross(&g1, &g2), &g0),
                vec3::dot(&vec3::cross(&g2, &g0), &g1),
                vec3::dot(&vec3::cross(&g0, &g1), &g2),
            ];
            let root3 = 3f64.sqrt();
            let points = [root3, 2.0, root3, 2.0, 3.0, 3.0, 3.0];
            [vec![2.0, 4.0], dots.to_vec(), points.to_vec()].concat()
        }
        GREEN_LAGRANGE => {
            let [p0, p1, p2]: [[f64; 2]; 3] = points(x);
            let gx = [p1[0] - p0[0], p1[1] - p0[1], 0.0];
            let gy = [p2[0] - p0[0], p2[1] - p0[1], 0.0];
            let normal = vec3::cross(&gx, &gy);
            let norm = vec3::norm(&normal);
            let gz = vec3::scale(&normal, 1.0 / norm);
            let dots = [
                vec3::dot(&vec3::cross(&gy, &gz), &gx),
                vec3::dot(&vec3::cross(&gz, &gx), &gy),
            ];
            vec![norm, dots[0], dots[1]]
        }
        _ => unreachable!("no kernel"),
    }
}

#[test]
fn traced_divisors_are_the_listed_ones() {
    for kind in KERNELS {
        for record in sample(kind) {
            let inputs = Call::of(&record).inputs;
            let traced = kernels::divisors(kind, &inputs);
            assert!(
                kernels::same(&traced, &listed_divisors(kind, &inputs)),
                "{inputs:?}"
            );
        }
    }
}

#[test]
fn the_inverse_divides_by_three_dots() {
    use crate::traced::{self, Traced};
    let g = [[1.0, 2.0, 3.0], [4.0, -5.0, 6.0], [7.0, 8.0, -9.0]];
    let (_, divisors) = traced::run(|| curve_linear_coords::inverse(&g.map(|row| row.map(Traced))));
    let crosses = [(1, 2), (2, 0), (0, 1)].map(|(i, j)| vec3::cross(&g[i], &g[j]));
    let dots: Vec<f64> = (0..3).map(|i| vec3::dot(&crosses[i], &g[i])).collect();
    assert_eq!(divisors, dots);
}

/// The divisors of what the sample has refused by 4.
fn sampled_by_four(kind: u64) -> Vec<Vec<f64>> {
    let records = sample(kind).into_iter();
    let refused = records.filter(|record| answer(record).number == 4);
    refused
        .map(|record| kernels::divisors(kind, &Call::of(&record).inputs))
        .collect()
}

/// Whether it has one with zero divisors at these places alone.
fn sampled_alone(kind: u64, places: &[usize]) -> bool {
    sampled_by_four(kind).iter().any(|divisors| {
        let zeros = (0..divisors.len()).filter(|i| divisors[*i] == 0.0);
        zeros.eq(places.iter().copied())
    })
}

#[test]
fn zero_divisors_of_the_sample_have_either_sign() {
    for kind in [STVK, PLATE] {
        for zero in [0.0f64, -0.0] {
            let of_sign = |x: &f64| *x != 0.0 || x.to_bits() == zero.to_bits();
            let divisors = sampled_by_four(kind);
            let alone = divisors.iter().any(|list| list.iter().all(of_sign));
            assert!(alone, "kind {kind}, {zero}");
        }
    }
}

#[test]
fn divisors_vanish_alone_in_the_sample() {
    assert!(sampled_alone(BENDING, &[2, 3]) && sampled_alone(BENDING, &[4, 5]));
    assert!(sampled_alone(BENDING, &[0, 1]) && sampled_alone(BENDING, &[0, 1, 6]));
    for kind in [STRAIN, STVK] {
        for place in 1..4 {
            assert!(
                sampled_alone(kind, &[place]),
                "kind {kind}, divisor {place}"
            );
        }
    }
    for place in 2..5 {
        assert!(sampled_alone(PLATE, &[place]), "divisor {place}");
    }
    for place in 0..3 {
        assert!(sampled_alone(GREEN_LAGRANGE, &[place]), "divisor {place}");
    }
}

/// A rotational mass overflows though the share it is made of does not.
#[test]
fn rotation_overflows_alone() {
    let thick = 2f64.powi(343);
    let material = for_masses(thick, 1.0);
    let answer = masses::masses(&[0, 1, 2], &SQUARE[..6], &material, &[7.0; 9]);
    assert_eq!((answer.number, answer.values), (5, vec![0.0; 9]));
    let share = 6.0 * thick;
    assert!(share.is_finite() && !(share * thick * thick).is_finite());
}

#[test]
fn the_sample_gives_every_refusal() {
    for (kind, count, accepted, refusals) in [
        (BENDING, 400, 200, &[0, 3, 4, 5][..]),
        (STRAIN, 400, 200, &[0, 3, 4, 5]),
        (GREEN_LAGRANGE, 400, 200, &[0, 3, 4, 5]),
        (STVK, 700, 350, &[0, 3, 4, 5, 7]),
        (PLATE, 1200, 420, &[0, 3, 4, 5, 6, 7]),
        (record::MASSES, 1200, 600, &[0, 1, 2, 3, 5, 6]),
        (record::SKIN, 800, 400, &[0, 1, 2, 3, 4, 5, 7]),
    ] {
        let numbers: Vec<u64> = sample(kind).iter().map(|r| answer(r).number).collect();
        assert!(numbers.len() >= count, "kind {kind}");
        let zeros = numbers.iter().filter(|number| **number == 0).count();
        assert!(zeros >= accepted, "kind {kind}: {zeros}");
        let given: BTreeSet<u64> = numbers.into_iter().collect();
        assert!(given.iter().eq(refusals), "kind {kind}: {given:?}");
    }
}

/// Whether the sums of a record's triangles are finite: the energy's, and the gradient's.
fn finite_sums(record: &Record) -> (bool, bool) {
    let count = |i: usize| record.words[i] as usize;
    let (material, lists) = record.words[record::SKIN_LENGTHS..].split_at(material::WORDS);
    let (ini, def) = (
        numbers_of(&lists[..count(0)]),
        numbers_of(&lists[count(0)..][..count(1)]),
    );
    let material = Material::read(material);
    let mut w = 0.0;
    let mut dw = vec![0.0; ini.len()];
    for names in lists[count(0) + count(1)..][..count(2)].chunks(3) {
        let values = skin::single(&ini, &def, names, &material).values;
        w += values[0];
        for (i, x) in values[1..10].iter().enumerate() {
            dw[names[i / 3] as usize * 3 + i % 3] += x;
        }
    }
    (f64::is_finite(w), kernels::finite(&dw))
}

/// A skin's places: of every refusal past the first triangle, and with only a sum
/// beyond the range, the energy's or the gradient's.
#[test]
fn the_sample_gives_places() {
    let records = sample(record::SKIN);
    let answers: Vec<_> = records.iter().map(|r| (r, answer(r))).collect();
    let triangles = |record: &Record| record.words[2] / 3;
    for number in [3, 4, 5] {
        let middle = |(record, answer): &(&Record, answer::Answer)| {
            let place = answer.place.unwrap();
            answer.number == number && 0 < place && place + 1 < triangles(record)
        };
        assert!(answers.iter().any(middle), "number {number}");
    }
    let sums: Vec<_> = answers
        .iter()
        .filter(|(record, answer)| answer.number == 5 && answer.place == Some(triangles(record)))
        .map(|(record, _)| finite_sums(record))
        .collect();
    for finite in [(false, true), (true, false)] {
        assert!(sums.contains(&finite), "energy, gradient: {finite:?}");
    }
    assert!(!sums.contains(&(true, true)));
}

#[test]
fn most_generated_records_are_accepted() {
    for kind in KINDS {
        let mut random = Random::of(11);
        let accepted = (0..1000)
            .filter(|_| answer(&generated(kind, &mut random)).number == 0)
            .count();
        assert!(accepted >= 500, "kind {kind}: {accepted}");
    }
}

fn lines(words: &[u64], cut: usize) -> String {
    let bytes: Vec<u8> = words.iter().flat_map(|word| word.to_be_bytes()).collect();
    let mut out = Vec::new();
    answer::write_lines(&bytes[..bytes.len() - cut], &mut out).unwrap();
    String::from_utf8(out).unwrap()
}

#[test]
fn malformed_records_end_the_answers() {
    let four = 4f64.to_bits();
    let good = "0000000000000000 4000000000000000\n";
    assert_eq!(lines(&[], 0), "");
    assert_eq!(lines(&[1, four], 0), good);
    assert_eq!(lines(&[1, four, 1, four], 1), format!("{good}?\n"));
    assert_eq!(lines(&[1, four, 1], 0), format!("{good}?\n"));
    assert_eq!(lines(&[1, four, 1], 3), format!("{good}?\n"));
    for kind in [0, 10, u64::MAX] {
        assert_eq!(lines(&[kind, four, 1, four], 0), "?\n");
    }
    for helper in [0, 12, u64::MAX] {
        assert_eq!(
            lines(&[[9, helper].to_vec(), vec![four; 9]].concat(), 0),
            "?\n"
        );
    }
    for (kind, lists) in [(6, 3), (7, 4)] {
        for place in 1..=lists {
            let mut words = vec![0; 5000];
            words[0] = kind;
            words[place] = 4097;
            words[lists + 1] = 2;
            assert_eq!(lines(&words, 0), "?\n");
        }
    }
    let zero = "0000000000000000";
    assert_eq!(
        lines(&[6, 0, 0, 0, 2, four, four, four, four], 0),
        format!("{zero}\n")
    );
    assert_eq!(
        lines(&[7, 0, 0, 0, 0, 3, four, four, four, four], 0),
        format!("{zero} {zero} {zero}\n")
    );
}

/// A material's first word is 2 or 3, used or not.
#[test]
fn unknown_stiffnesses_end_the_answers() {
    for (kind, before) in [(4, 18), (5, 15), (6, 3), (7, 4)] {
        let record = |first: u64| {
            let mut words = vec![0; 1 + before + material::WORDS];
            words[0] = kind;
            words[1 + before] = first;
            words
        };
        for first in [0, 1, 4, 5, (1 << 32) + 2, (1 << 63) + 3, 2f64.to_bits()] {
            assert_eq!(lines(&record(first), 0), "?\n", "kind {kind}, {first}");
            assert_eq!(lines(&record(first), 1), "?\n", "kind {kind}, {first}");
            assert_eq!(lines(&record(first)[..2 + before], 0), "?\n");
        }
        for first in [2, 3] {
            assert_eq!(lines(&record(first), 0).lines().count(), 1);
            assert_ne!(lines(&record(first), 0), "?\n", "kind {kind}, {first}");
            assert_eq!(lines(&record(first), 1), "?\n", "kind {kind}, {first}");
        }
    }
}

#[test]
fn written_records_are_read_back() {
    for kind in KINDS {
        let records = sample(kind);
        let mut bytes = Vec::new();
        records
            .iter()
            .for_each(|record| record.write(&mut bytes).unwrap());
        let read: Vec<Record> = Records::of(&bytes).map(Result::unwrap).collect();
        assert_eq!(read, records);
    }
}

#[test]
fn a_comparison_names_the_first_difference() {
    let result = compare::compare("0 1\n0 2 3\n0 4\n", "0 1\n0 2 4\n1 4\n");
    assert_eq!((result.compared, result.differ), (3, 2));
    assert_eq!(result.first.unwrap(), "record 2, word 2: expected 3, got 4");
}
