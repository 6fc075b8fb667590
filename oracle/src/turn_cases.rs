//! Triangles of plates and panels, turned round.

use crate::helpers::points;
use crate::masses::turn;
use crate::material;
use crate::random::Random;
use crate::record::{numbers_of, Record, MASSES, MASSES_LENGTHS, PLATE};
use crate::turn::Turn;

/// Exchanges two corners of a plate, at rest and deformed.
pub fn exchange<T>(corners: &mut [T], a: usize, b: usize) {
    (0..2).for_each(|axis| corners.swap(2 * a + axis, 2 * b + axis));
    (6..9).for_each(|axis| corners.swap(3 * a + axis, 3 * b + axis));
}

/// Whatever turns right has corners 1 and 2 exchanged; the rest stays.
pub fn turned_left(mut record: Record) -> Record {
    match record.kind {
        PLATE => turn_corners(&mut record.words),
        MASSES => turn_names(&mut record.words),
        _ => unreachable!("plates and panels alone are refused for their turn"),
    }
    record
}

fn turn_corners(words: &mut [u64]) {
    if Turn::of(&points(&numbers_of(&words[..6]))) == Turn::Right {
        exchange(words, 1, 2);
    }
}

fn turn_names(words: &mut [u64]) {
    let vertices = words[0] / 2;
    let (xy, names) = lists(words);
    for names in names.chunks_exact_mut(3) {
        let known = names.iter().all(|name| *name < vertices);
        if known && turn(names, &xy) == Turn::Right {
            names.swap(1, 2);
        }
    }
}

/// The coordinates and the names of a panel.
fn lists(words: &mut [u64]) -> (Vec<f64>, &mut [u64]) {
    let [n, t] = [words[0], words[1]].map(|length| length as usize);
    let (xy, behind) = words[MASSES_LENGTHS + material::WORDS..].split_at_mut(n);
    (numbers_of(xy), &mut behind[..t])
}

/// Of plates that turn right three in ten stay so.
pub fn mostly_left(random: &mut Random, plate: Record) -> Record {
    if random.percent(30) {
        plate
    } else {
        turned_left(plate)
    }
}

/// A quarter stay as they are drawn; in another quarter one triangle is turned round, flat or not.
pub fn some_right(random: &mut Random, panel: Record) -> Record {
    let which = random.below(4);
    if which == 0 {
        return panel;
    }
    let mut panel = turned_left(panel);
    if which == 1 {
        let (_, names) = lists(&mut panel.words);
        turn_one(random, names);
    }
    panel
}

fn turn_one(random: &mut Random, names: &mut [u64]) {
    let triangles = names.len() as u64 / 3;
    if triangles > 0 {
        let triangle = random.below(triangles) as usize;
        names[3 * triangle..][..3].swap(1, 2);
    }
}
