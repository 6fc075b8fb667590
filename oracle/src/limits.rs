//! The masses and the skin at their limits and one past each, at full size. Panels,
//! skins and lines are those of `crates/limits`.

use crate::answer::word;
use crate::masses::masses;
use crate::material::{Material, Stiffness};
use crate::skin::skin;

const VERTICES: u64 = 65_536;

const MATERIAL: Material = Material {
    density: 2.0,
    thickness: 1.0,
    stiffness: Stiffness::Lame {
        lambda: 1.0,
        myu: 2.0,
    },
};

/// How many coordinates, names and places of the buffer, and the last name.
const PANELS: [(usize, usize, usize, u64); 7] = [
    (131_072, 393_216, 196_608, 65_535),
    (131_073, 393_216, 196_608, 65_535),
    (131_074, 393_216, 196_611, 65_535),
    (131_072, 393_219, 196_608, 65_535),
    (131_072, 393_217, 196_608, 65_535),
    (131_072, 393_216, 196_609, 65_535),
    (131_072, 393_216, 196_608, 65_536),
];

/// How many numbers at rest and deformed, names and places of the buffer, and the
/// last name. The last triangle's others are 65,535 and 255.
const SKINS: [(usize, usize, usize, usize, u64); 10] = [
    (196_608, 196_608, 393_216, 196_608, 0),
    (196_608, 196_608, 393_216, 196_608, 65_535),
    (196_611, 196_611, 393_216, 196_611, 0),
    (196_608, 196_608, 393_219, 196_608, 0),
    (196_608, 196_608, 393_217, 196_608, 0),
    (196_609, 196_608, 393_216, 196_608, 0),
    (196_608, 196_609, 393_216, 196_608, 0),
    (196_608, 196_608, 393_216, 196_609, 0),
    (196_609, 196_609, 393_216, 196_609, 0),
    (196_608, 196_608, 393_216, 196_608, 65_536),
];

pub fn lines() -> String {
    let panels = PANELS.iter().copied().map(panel_line);
    let skins = SKINS.iter().copied().map(skin_line);
    panels.chain(skins).collect()
}

/// Ends with the number, and the sum of the buffer's places on return.
fn panel_line((coordinates, names, places, last): (usize, usize, usize, u64)) -> String {
    let buffer = vec![7.0; places];
    let answer = masses(
        &tri2vtx(names, last),
        &squares(0, coordinates),
        &MATERIAL,
        &buffer,
    );
    let (number, sum) = (answer.number, sum(&answer.values));
    format!("{coordinates} {names} {places} {last} {number} {sum:016x}\n")
}

/// Ends with the number, the place, the energy, and the sum of the buffer's places on return.
fn skin_line((ini, def, names, places, last): (usize, usize, usize, usize, u64)) -> String {
    let buffer = vec![7.0; places];
    let answer = skin(
        &squares(0, ini),
        &squares(3, def),
        &tri2vtx(names, last),
        &MATERIAL,
        &buffer,
    );
    let (w, dw) = (word(answer.values[0]), sum(&answer.values[1..]));
    let (number, place) = (answer.number, answer.place.unwrap());
    format!("{ini} {def} {names} {places} {last} {number} {place} {w:016x} {dw:016x}\n")
}

/// The squares of the numbers from `first` on.
fn squares(first: usize, count: usize) -> Vec<f64> {
    (first..first + count).map(|i| (i * i) as f64).collect()
}

fn sum(values: &[f64]) -> u64 {
    word(values.iter().fold(0.0, |sum, x| sum + x))
}

fn tri2vtx(names: usize, last: u64) -> Vec<u64> {
    let mut tri2vtx: Vec<u64> = (0..names as u64).map(name).collect();
    tri2vtx[names - 1] = last;
    tri2vtx
}

/// Triangle t names the vertices t, t + 256 and t + 1, counted round.
fn name(place: u64) -> u64 {
    (place / 3 + [0, 256, 1][place as usize % 3]) % VERTICES
}

#[cfg(test)]
mod tests {
    use super::*;
    use crate::masses::turn;
    use crate::turn::Turn;

    /// But for the last one, which names a vertex twice.
    #[test]
    fn triangles_turn_left() {
        let (coordinates, names, _, last) = PANELS[0];
        let (xy, names) = (squares(0, coordinates), tri2vtx(names, last));
        let mut turns = names.chunks(3).map(|names| turn(names, &xy));
        assert_eq!(turns.next_back(), Some(Turn::Flat));
        assert!(turns.all(|turn| turn == Turn::Left));
    }
}
