//! Inputs of the kernels.

use crate::kernels;
use crate::material::{Material, Stiffness};
use crate::material_cases::{drawn_unused, either, lame};
use crate::numbers::{self, moved};
use crate::random::Random;
use crate::record::{Record, BENDING, GREEN_LAGRANGE, PLATE, STRAIN, STVK};
use crate::turn_cases::mostly_left;

/// What the original takes: corners at rest come first, then what is known of them
/// deformed, then the single numbers.
pub struct Layout {
    kind: u64,
    dimensions: usize,
    corners: usize,
    deformed: usize,
    singles: usize,
}

pub fn layout(kind: u64) -> Layout {
    let of = |dimensions, corners, deformed, singles| Layout {
        kind,
        dimensions,
        corners,
        deformed,
        singles,
    };
    match kind {
        BENDING => of(3, 4, 12, 0),
        STRAIN | GREEN_LAGRANGE => of(2, 3, 9, 0),
        STVK => of(3, 3, 9, 2),
        PLATE => of(2, 3, 9, 3),
        _ => unreachable!("no kernel"),
    }
}

impl Layout {
    pub fn rest(&self) -> usize {
        self.dimensions * self.corners
    }

    pub fn inputs(&self) -> usize {
        self.rest() + self.deformed + self.singles
    }

    /// The original's inputs as a record, `unused` for what the kernel does not look at.
    pub fn record(&self, inputs: &[f64], unused: [f64; 2]) -> Record {
        if self.singles == 0 {
            return Record::of_numbers(self.kind, inputs);
        }
        self.case(inputs).with_unused(unused).record()
    }

    /// The single numbers as a material.
    pub fn case(&self, inputs: &[f64]) -> Case {
        assert_eq!(inputs.len(), self.inputs());
        let (corners, singles) = inputs.split_at(self.rest() + self.deformed);
        let (thickness, pair) = match *singles {
            [lambda, myu] => (f64::NAN, [lambda, myu]),
            [thickness, lambda, myu] => (thickness, [lambda, myu]),
            _ => unreachable!("no material"),
        };
        Case {
            kind: self.kind,
            corners: corners.to_vec(),
            material: Material {
                density: f64::NAN,
                thickness,
                stiffness: lame(pair),
            },
        }
    }
}

/// A call of StVK or of the plate.
#[derive(Clone)]
pub struct Case {
    pub kind: u64,
    pub corners: Vec<f64>,
    pub material: Material,
}

impl Case {
    pub fn with_stiffness(mut self, stiffness: Stiffness) -> Case {
        self.material.stiffness = stiffness;
        self
    }

    /// A density, and for StVK a thickness.
    pub fn with_unused(mut self, [density, thickness]: [f64; 2]) -> Case {
        self.material.density = density;
        if self.kind == STVK {
            self.material.thickness = thickness;
        }
        self
    }

    pub fn record(&self) -> Record {
        Record::of_corners(self.kind, &self.corners, &self.material)
    }
}

/// Where there is a material, half have Young's modulus.
pub fn generated(kind: u64, random: &mut Random) -> Record {
    let layout = layout(kind);
    let inputs = drawn(random, &layout);
    if layout.singles == 0 {
        return Record::of_numbers(kind, &inputs);
    }
    let case = layout.case(&inputs).with_unused(drawn_unused(random));
    let stiffness = either(random, case.material.stiffness.given());
    let record = case.with_stiffness(stiffness).record();
    match kind {
        PLATE => mostly_left(random, record),
        _ => record,
    }
}

/// Inputs of the original.
pub fn drawn(random: &mut Random, layout: &Layout) -> Vec<f64> {
    if random.percent(68) {
        tame(random, layout.inputs())
    } else {
        boundary(random, layout)
    }
}

fn tame(random: &mut Random, count: usize) -> Vec<f64> {
    match random.below(7) {
        0 => numbers::list(count, || numbers::small(random)),
        1 => numbers::list(count, || numbers::small(random) / 10.0),
        2 => with_zeros(random, count),
        3 => numbers::list(count, || {
            random.pick(&[-2.0, -1.0, -0.0, 0.0, 1.0, 2.0, 3.0])
        }),
        4 => {
            let top = random.between(-40, 40);
            numbers::similar(random, count, top, 3)
        }
        _ => numbers::similar(random, count, 2, 5),
    }
}

fn with_zeros(random: &mut Random, count: usize) -> Vec<f64> {
    let mut inputs = numbers::similar(random, count, 2, 5);
    for x in &mut inputs {
        if random.percent(30) {
            *x = random.pick(&[0.0, -0.0]);
        }
    }
    inputs
}

fn boundary(random: &mut Random, layout: &Layout) -> Vec<f64> {
    let count = layout.inputs();
    match random.below(12) {
        0 => numbers::list(count, || numbers::special(random)),
        1 => numbers::list(count, || numbers::any(random)),
        2 => numbers::list(count, || numbers::wild(random)),
        3 => numbers::list(count, || numbers::square_edge(random)),
        4 => {
            let top = random.between(-1022, 1023);
            numbers::similar(random, count, top, 4)
        }
        5 => equal_corners(random, layout),
        6 => collinear(random, layout),
        7 => nearly_collinear(random, layout),
        8 => nearly_equal(random, layout),
        9 => scales_apart(random, layout),
        _ => one_special(random, count),
    }
}

fn one_special(random: &mut Random, count: usize) -> Vec<f64> {
    let mut inputs = tame(random, count);
    inputs[random.below(count as u64) as usize] = numbers::special(random);
    inputs
}

fn equal_corners(random: &mut Random, layout: &Layout) -> Vec<f64> {
    let mut inputs = tame(random, layout.inputs());
    let corner = |random: &mut Random| random.below(layout.corners as u64) as usize;
    let (from, to) = (
        corner(random) * layout.dimensions,
        corner(random) * layout.dimensions,
    );
    inputs.copy_within(from..from + layout.dimensions, to);
    inputs
}

/// Rest corners on one line, in whole steps from the first.
fn collinear(random: &mut Random, layout: &Layout) -> Vec<f64> {
    let mut inputs = tame(random, layout.inputs());
    let start = numbers::list(layout.dimensions, || numbers::small(random));
    let step = numbers::list(layout.dimensions, || numbers::small(random));
    for i in 0..layout.rest() {
        let (corner, axis) = (i / layout.dimensions, i % layout.dimensions);
        inputs[i] = start[axis] + step[axis] * corner as f64;
    }
    inputs
}

/// Rest corners on a line but for the last places: products cancel.
pub fn nearly_collinear(random: &mut Random, layout: &Layout) -> Vec<f64> {
    let mut inputs = tame(random, layout.inputs());
    let step = numbers::similar(random, layout.dimensions, 2, 5);
    for i in 0..layout.rest() {
        let (corner, axis) = (i / layout.dimensions, i % layout.dimensions);
        let x = step[axis] * [0.0, 1.0, 3.0, -1.5][corner];
        inputs[i] = if x == 0.0 {
            x
        } else {
            moved(x, random.between(-2, 2))
        };
    }
    inputs
}

fn nearly_equal(random: &mut Random, layout: &Layout) -> Vec<f64> {
    let mut inputs = tame(random, layout.inputs());
    let first = numbers::similar(random, layout.dimensions, 2, 5);
    for i in 0..layout.rest() {
        inputs[i] = moved(first[i % layout.dimensions], random.between(-4, 4));
    }
    inputs
}

/// Rest corners, the deformed ones and each single number at scales of their own.
fn scales_apart(random: &mut Random, layout: &Layout) -> Vec<f64> {
    let groups = [layout.rest(), layout.deformed]
        .into_iter()
        .chain(vec![1; layout.singles]);
    groups
        .flat_map(|count| {
            let top = random.between(-300, 300);
            numbers::similar(random, count, top, 4)
        })
        .collect()
}

/// Tame inputs over the given rest corners.
pub fn over(random: &mut Random, layout: &Layout, rest: &[f64]) -> Vec<f64> {
    let others = tame(random, layout.inputs() - rest.len());
    [rest, &others].concat()
}

/// Rest corners with the edges (a, 0) and (0, b) from corner 0; the bending
/// pair has those edges on its shared edge's either side.
pub fn right_angle(layout: &Layout, a: f64, b: f64) -> Vec<f64> {
    match layout.kind {
        BENDING => vec![0.0, b, 0.0, 0.0, -b, 0.0, 0.0, 0.0, 0.0, a, 0.0, 0.0],
        STVK => vec![0.0, 0.0, 0.0, a, 0.0, 0.0, 0.0, b, 0.0],
        _ => vec![0.0, 0.0, a, 0.0, 0.0, b],
    }
}

/// Inputs whose zero divisors are exactly those at `places`; found by
/// drawing rest corners that nearly lie on a line.
pub fn with_zero_divisors(random: &mut Random, layout: &Layout, places: &[usize]) -> Vec<f64> {
    loop {
        let inputs = nearly_collinear(random, layout);
        let divisors = kernels::divisors(layout.kind, &inputs);
        let zeros: Vec<usize> = (0..divisors.len())
            .filter(|i| divisors[*i] == 0.0)
            .collect();
        if zeros == places {
            return inputs;
        }
    }
}

/// Inputs of an energy whose value at `place` alone is infinite: one where it
/// is the largest by far, with stiffnesses raised until it overflows. A plate may
/// turn either way.
pub fn with_one_infinite(random: &mut Random, layout: &Layout, place: usize) -> Vec<f64> {
    let values = |inputs: &[f64]| kernels::values_and_divisors(layout.kind, inputs).0;
    loop {
        let inputs = numbers::similar(random, layout.inputs(), 2, 5);
        let usual = values(&inputs);
        let top = usual[place].abs();
        let others = [&usual[..place], &usual[place + 1..]].concat();
        if top < 2.0 || others.iter().any(|x| x.abs() > 0.9 * top) {
            continue;
        }
        let below = stiffer(&inputs, f64::MAX / top * 0.95);
        let above = stiffer(&inputs, f64::MAX / top * 1.05);
        if kernels::finite(&values(&below)) && !kernels::finite(&values(&above)) {
            return above;
        }
    }
}

/// The two Lamé parameters, which come last, times a factor.
fn stiffer(inputs: &[f64], factor: f64) -> Vec<f64> {
    let (others, lame) = inputs.split_at(inputs.len() - 2);
    [others.to_vec(), vec![lame[0] * factor, lame[1] * factor]].concat()
}
