//! Inputs of the helpers.

use crate::numbers::{self, moved};
use crate::random::Random;
use crate::record::{Record, HELPER_INPUTS};

const RECORDS_OF_EACH: usize = 170;

pub fn generated(random: &mut Random) -> Record {
    let helper = random.below(HELPER_INPUTS.len() as u64) as usize + 1;
    case(random, helper)
}

pub fn sample() -> Vec<Record> {
    let mut random = Random::of(9);
    (1..=HELPER_INPUTS.len())
        .flat_map(|helper| (0..RECORDS_OF_EACH).map(move |_| helper))
        .map(|helper| case(&mut random, helper))
        .collect()
}

fn case(random: &mut Random, helper: usize) -> Record {
    let dimensions = if helper == 7 { 2 } else { 3 };
    let inputs = inputs(random, HELPER_INPUTS[helper - 1], dimensions);
    Record::of_helper(helper, &inputs)
}

fn inputs(random: &mut Random, count: usize, dimensions: usize) -> Vec<f64> {
    match random.below(12) {
        0 => numbers::list(count, || numbers::special(random)),
        1 => numbers::list(count, || numbers::small(random)),
        2 => numbers::list(count, || signed_zero_or_one(random)),
        3 => numbers::list(count, || numbers::wild(random)),
        4 => numbers::list(count, || numbers::any(random)),
        5 => numbers::list(count, || numbers::square_edge(random)),
        6 => with_special(random, count),
        7 => with_equal_points(random, count, dimensions),
        8 => with_parallel_points(random, count, dimensions),
        9 => nearly_equal(random, count, dimensions),
        10 => at_any_scale(random, count),
        _ => numbers::similar(random, count, 3, 6),
    }
}

fn signed_zero_or_one(random: &mut Random) -> f64 {
    random.pick(&[0.0, -0.0, 1.0, -1.0])
}

fn with_special(random: &mut Random, count: usize) -> Vec<f64> {
    let mut inputs = numbers::similar(random, count, 3, 6);
    inputs[random.below(count as u64) as usize] = numbers::special(random);
    inputs
}

fn with_equal_points(random: &mut Random, count: usize, dimensions: usize) -> Vec<f64> {
    let mut inputs = numbers::similar(random, count, 3, 6);
    if count >= 2 * dimensions {
        inputs.copy_within(..dimensions, dimensions);
    }
    inputs
}

/// Every point is a whole multiple of the first, so crosses and areas vanish.
fn with_parallel_points(random: &mut Random, count: usize, dimensions: usize) -> Vec<f64> {
    let first = numbers::list(dimensions, || numbers::small(random));
    (0..count)
        .map(|i| first[i % dimensions] * (i / dimensions + 1) as f64)
        .collect()
}

fn nearly_equal(random: &mut Random, count: usize, dimensions: usize) -> Vec<f64> {
    let first = numbers::similar(random, dimensions, 3, 6);
    (0..count)
        .map(|i| moved(first[i % dimensions], random.between(-3, 3)))
        .collect()
}

fn at_any_scale(random: &mut Random, count: usize) -> Vec<f64> {
    let top = random.between(-1022, 1023);
    numbers::similar(random, count, top, 4)
}
