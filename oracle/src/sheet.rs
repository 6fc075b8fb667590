//! The panels of `crates/panel` and what it prints of them, the numbers by Rust's own exact formatting.

use crate::answer::word;
use crate::masses::masses;
use crate::material::Material;
use crate::material_cases::lame;
use std::fmt::Write as _;

const REFUSALS: [(u64, &str); 5] = [
    (1, "a length or a limit is wrong"),
    (2, "a triangle names a vertex that does not exist"),
    (3, "a number is NaN or infinite"),
    (6, "a triangle turns right: its corners run clockwise"),
    (5, "a mass is NaN or infinite"),
];

pub fn lines() -> String {
    [
        "Square panel\n",
        &square([0, 1, 2, 1, 3, 2]),
        "\nWall strip, 240 by 40 by 0.5 cm, in kg and cm\n",
        "hinge row: vertices 0 to 10\n",
        &strip(),
        "\nSquare panel, turned round\n",
        &square([0, 2, 1, 1, 2, 3]),
        "\nSquare panel, a name too far\n",
        &square([0, 1, 2, 1, 4, 2]),
    ]
    .concat()
}

fn square(names: [u64; 6]) -> String {
    let xy = [0.0, 0.0, 6.0, 0.0, 0.0, 6.0, 6.0, 6.0];
    sized(&names, &xy, 1.0, 2.0)
}

/// Two rows of eleven vertices, and two triangles in each cell between them.
fn strip() -> String {
    let row = |y: f64| (0..11).flat_map(move |c| [24.0 * c as f64, y]);
    let xy: Vec<f64> = row(0.0).chain(row(40.0)).collect();
    let names: Vec<u64> = (0..10)
        .flat_map(|c| [c, c + 1, c + 11, c + 1, c + 12, c + 11])
        .collect();
    sized(&names, &xy, 0.5, 1.0 / 512.0)
}

fn sized(names: &[u64], xy: &[f64], thick: f64, rho: f64) -> String {
    let mut text = format!(
        "vertices {}, triangles {}, density {}, thickness {}\n",
        xy.len() / 2,
        names.len() / 3,
        shown(rho),
        shown(thick)
    );
    let material = Material {
        density: rho,
        thickness: thick,
        stiffness: lame([f64::NAN; 2]),
    };
    let answer = masses(names, xy, &material, &vec![0.0; xy.len() / 2 * 3]);
    if let Some((number, words)) = REFUSALS.iter().find(|row| row.0 == answer.number) {
        writeln!(text, "refused: {words} ({number})").unwrap();
        return text;
    }
    text += "vertex  translation       rotation x        rotation y\n";
    for (vertex, m) in answer.values.chunks(3).enumerate() {
        let [a, b, c] = [m[0], m[1], m[2]].map(shown);
        writeln!(text, "{vertex:<6}  {a:<16}  {b:<16}  {c}").unwrap();
    }
    let translations = answer.values.iter().step_by(3);
    let sum = translations.fold(0.0, |sum, x| sum + x);
    writeln!(text, "sum of translations {}", shown(sum)).unwrap();
    text
}

/// Ten places are all that a multiple of 2^-10 has, so nothing is rounded.
fn shown(x: f64) -> String {
    if (x * 1024.0).fract() != 0.0 || x.abs() >= 2f64.powi(40) || !x.is_finite() {
        return format!("{:016x}", word(x));
    }
    let decimal = format!("{x:.10}");
    let decimal = decimal.trim_end_matches('0').trim_end_matches('.');
    decimal.to_string()
}

#[cfg(test)]
mod tests {
    use super::*;

    #[test]
    fn numbers_for_a_person() {
        let cases = [
            (72.0, "72"),
            (-0.0, "-0"),
            (0.15625, "0.15625"),
            (-1.0 / 1024.0, "-0.0009765625"),
            (1.0 / 2048.0, "3f40000000000000"),
            (2f64.powi(40), "4270000000000000"),
            (2f64.powi(40) - 1.0, "1099511627775"),
            (f64::NAN, "7ff8000000000000"),
        ];
        for (x, text) in cases {
            assert_eq!(shown(x), text);
        }
    }

    #[test]
    fn example_three() {
        assert!(lines().contains("\nsum of translations 72\n"));
    }

    #[test]
    fn turned_round() {
        let refused = "refused: a triangle turns right: its corners run clockwise (6)\n";
        assert_eq!(square([0, 2, 1, 1, 2, 3]).lines().count(), 2);
        assert!(square([0, 2, 1, 1, 2, 3]).ends_with(refused));
    }
}
