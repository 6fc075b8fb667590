//! Sheets whose strain by the book is exact in doubles: at rest on (0,0), (a,0), (0,b), each of
//! a and b one of 1, 2, 4, .., 1,024; deformed coordinates whole, from -1,024 to 1,024.

use crate::random::Random;
use crate::record::{Record, GREEN_LAGRANGE};
use std::array::from_fn;

pub const LARGEST: i32 = 1024;

/// How many powers of two there are for a side.
const POWERS: u64 = 11;

/// The corners, then `count` drawn members.
pub fn records(count: u64, random: &mut Random) -> Vec<Record> {
    let drawn = (0..count).map(|turn| drawn(turn, random));
    corners().into_iter().chain(drawn).collect()
}

/// Both sides and every deformed coordinate at an end of its range.
pub fn corners() -> Vec<Record> {
    let ends = |pattern: u32, low: i32, place: usize| match pattern >> place & 1 {
        0 => low,
        _ => LARGEST,
    };
    let corner = |pattern: u32| {
        let sides = [9, 10].map(|place| ends(pattern, 1, place));
        member(sides, from_fn(|place| ends(pattern, -LARGEST, place)))
    };
    (0..1 << 11).map(corner).collect()
}

/// The pairs of sides take turns, so that 121 members in a row have them all.
pub fn drawn(turn: u64, random: &mut Random) -> Record {
    let sides = [turn / POWERS % POWERS, turn % POWERS].map(|e| 1 << e);
    member(sides, from_fn(|_| random.between(-LARGEST, LARGEST)))
}

fn member([a, b]: [i32; 2], deformed: [i32; 9]) -> Record {
    let inputs = [0, 0, a, 0, 0, b].into_iter().chain(deformed);
    let inputs: Vec<f64> = inputs.map(f64::from).collect();
    Record::of_numbers(GREEN_LAGRANGE, &inputs)
}
