//! The four kernels of the original files and the book's strain, with the refusals
//! that the inputs, the material and a traced run of the same text show.

use crate::answer::{word, Answer};
use crate::green_lagrange::wdw_green_lagrange;
use crate::helpers::points;
use crate::material::Material;
use crate::record::{self, numbers_of, Record, PLATE_CORNERS, STVK_CORNERS};
use crate::traced::{self, Traced};
use crate::turn::Turn;
use del_fem_cpu::{mitc_tri3, quadratic_bending, stvk_tri3};
use num_traits::{AsPrimitive, Float};
use std::ops::{AddAssign, MulAssign};

pub trait Number: Float + AddAssign + MulAssign + 'static {}

impl Number for f64 {}
impl Number for Traced {}

/// A call: the numbers that 3 looks at, whether 7 has no cause, whether 6 has one, and what
/// the original is run on.
pub struct Call {
    pub given: Vec<f64>,
    pub admitted: bool,
    pub turned: bool,
    pub inputs: Vec<f64>,
}

impl Call {
    /// Of a kernel without a material, or with the plate's thickness and a Lamé pair behind
    /// the corners.
    fn plain(kind: u64, inputs: &[f64]) -> Call {
        Call {
            given: inputs.to_vec(),
            admitted: true,
            turned: turned(kind, inputs),
            inputs: inputs.to_vec(),
        }
    }

    pub fn of(record: &Record) -> Call {
        let corners = match record.kind {
            record::STVK => STVK_CORNERS,
            record::PLATE => PLATE_CORNERS,
            _ => return Call::plain(record.kind, &numbers_of(&record.words)),
        };
        let (corners, material) = record.words.split_at(corners);
        Call::with_material(record.kind, &numbers_of(corners), &Material::read(material))
    }

    /// The plate uses thickness and stiffness, StVK the stiffness.
    fn with_material(kind: u64, corners: &[f64], material: &Material) -> Call {
        let thickness: &[f64] = match kind {
            record::PLATE => &[material.thickness],
            _ => &[],
        };
        let before = [corners, thickness].concat();
        let stiffness = material.stiffness;
        Call {
            given: [&before[..], &stiffness.given()].concat(),
            admitted: stiffness.admitted(),
            turned: turned(kind, corners),
            inputs: [&before[..], &stiffness.lame()].concat(),
        }
    }
}

/// Of the kernels the plate alone asks which way its rest corners turn.
fn turned(kind: u64, corners: &[f64]) -> bool {
    kind == record::PLATE && Turn::of(&points(&corners[..6])) == Turn::Right
}

pub fn answer(kind: u64, inputs: &[f64]) -> Answer {
    answer_of(kind, &Call::plain(kind, inputs))
}

pub fn with_material(kind: u64, corners: &[f64], material: &Material) -> Answer {
    answer_of(kind, &Call::with_material(kind, corners, material))
}

pub fn of_record(record: &Record) -> Answer {
    answer_of(record.kind, &Call::of(record))
}

fn answer_of(kind: u64, call: &Call) -> Answer {
    match kind {
        record::BENDING => judge(call, bending, bending),
        record::STRAIN => judge(call, strain, strain),
        record::STVK => judge(call, stvk, stvk),
        record::PLATE => judge(call, plate, plate),
        record::GREEN_LAGRANGE => judge(call, green_lagrange, green_lagrange),
        _ => unreachable!("the reader lets no other kind through"),
    }
}

fn judge(
    call: &Call,
    plain: impl Fn(&[f64]) -> Vec<f64>,
    traced: impl Fn(&[Traced]) -> Vec<Traced>,
) -> Answer {
    let inputs = &call.inputs;
    let values = plain(inputs);
    let (seen, divisors) = trace(inputs, traced);
    assert!(
        same(&values, &seen),
        "the traced run of {inputs:?} differs from the plain one"
    );
    let number = number(call, &divisors, &values);
    let values = if number == 0 {
        values
    } else {
        vec![0.0; values.len()]
    };
    Answer::of(number, values)
}

fn trace(inputs: &[f64], traced: impl Fn(&[Traced]) -> Vec<Traced>) -> (Vec<f64>, Vec<f64>) {
    let inputs: Vec<Traced> = inputs.iter().copied().map(Traced).collect();
    let (values, divisors) = traced::run(|| traced(&inputs));
    (values.into_iter().map(|x| x.0).collect(), divisors)
}

/// What the routine divides by, in its order.
pub fn divisors(kind: u64, inputs: &[f64]) -> Vec<f64> {
    values_and_divisors(kind, inputs).1
}

pub fn values_and_divisors(kind: u64, inputs: &[f64]) -> (Vec<f64>, Vec<f64>) {
    match kind {
        record::BENDING => trace(inputs, bending),
        record::STRAIN => trace(inputs, strain),
        record::STVK => trace(inputs, stvk),
        record::PLATE => trace(inputs, plate),
        record::GREEN_LAGRANGE => trace(inputs, green_lagrange),
        _ => unreachable!("no kernel"),
    }
}

pub fn same(a: &[f64], b: &[f64]) -> bool {
    a.len() == b.len() && a.iter().zip(b).all(|(a, b)| word(*a) == word(*b))
}

pub fn finite(numbers: &[f64]) -> bool {
    numbers.iter().all(|x| x.is_finite())
}

fn number(call: &Call, divisors: &[f64], values: &[f64]) -> u64 {
    if !finite(&call.given) {
        3
    } else if !call.admitted {
        7
    } else if call.turned {
        6
    } else if divisors.contains(&0.0) {
        4
    } else if !finite(values) {
        5
    } else {
        0
    }
}

fn bending<T: Number>(x: &[T]) -> Vec<T> {
    let (w, dwdp) = quadratic_bending::wdw(&points(&x[..12]), &points(&x[12..]));
    [w.to_vec(), dwdp.concat().concat()].concat()
}

fn strain<T: Number>(x: &[T]) -> Vec<T> {
    let (w, dw) = stvk_tri3::wdw(&points(&x[..6]), &points(&x[6..]));
    [w.to_vec(), dw.concat().concat()].concat()
}

fn green_lagrange<T: Number>(x: &[T]) -> Vec<T> {
    let (w, dw) = wdw_green_lagrange(&points(&x[..6]), &points(&x[6..]));
    [w.to_vec(), dw.concat().concat()].concat()
}

fn stvk<T: Number>(x: &[T]) -> Vec<T> {
    energy(stvk_tri3::wdwddw_(
        points(&x[..9]),
        points(&x[9..]),
        x[18],
        x[19],
    ))
}

fn plate<T: Number>(x: &[T]) -> Vec<T>
where
    f64: AsPrimitive<T>,
{
    let [p0, p1, p2] = points(&x[..6]);
    let u = points(&x[6..]);
    energy(mitc_tri3::w_dw_ddw_plate_bending(
        &[&p0, &p1, &p2],
        &u,
        x[15],
        x[16],
        x[17],
    ))
}

type Energy<T> = (T, [[T; 3]; 3], [[[T; 9]; 3]; 3]);

fn energy<T: Number>((w, dw, ddw): Energy<T>) -> Vec<T> {
    [vec![w], dw.concat(), ddw.concat().concat()].concat()
}
