//! The mass routine of the original, with the refusals tested before it is
//! called: it would stop on what 1 and 2 refuse.

use crate::answer::Answer;
use crate::kernels::{finite, same};
use crate::material::{self, Material};
use crate::record::{numbers_of, MASSES_LENGTHS};
use crate::traced::{self, Traced};
use crate::turn::Turn;
use del_fem_cpu::mitc_tri3;

pub const MOST_VERTICES: usize = 65_536;
pub const MOST_TRIANGLES: usize = 131_072;

/// The words of a masses record, taken apart.
pub fn answer(words: &[u64]) -> Answer {
    let (lengths, behind) = words.split_at(MASSES_LENGTHS);
    let (material, lists) = behind.split_at(material::WORDS);
    let (coordinates, lists) = lists.split_at(lengths[0] as usize);
    let (names, buffer) = lists.split_at(lengths[1] as usize);
    masses(
        names,
        &numbers_of(coordinates),
        &Material::read(material),
        &numbers_of(buffer),
    )
}

/// Thickness and density are all that masses use of the material.
pub fn masses(names: &[u64], xy: &[f64], material: &Material, buffer: &[f64]) -> Answer {
    let (thick, rho) = (material.thickness, material.density);
    if let Some(number) = refused_before(names, xy, thick, rho, buffer.len()) {
        return Answer::of(number, buffer.to_vec());
    }
    let tri2vtx: Vec<usize> = names.iter().map(|name| *name as usize).collect();
    let values = original(&tri2vtx, xy, thick, rho, buffer);
    if finite(&values) {
        Answer::of(0, values)
    } else {
        Answer::of(5, vec![0.0; buffer.len()])
    }
}

fn refused_before(names: &[u64], xy: &[f64], thick: f64, rho: f64, masses: usize) -> Option<u64> {
    let vertices = xy.len() / 2;
    if lengths_wrong(vertices, names.len(), masses) {
        return Some(1);
    }
    if names.iter().any(|name| *name >= vertices as u64) {
        return Some(2);
    }
    let named_finite = names
        .iter()
        .all(|name| finite(&xy[*name as usize * 2..][..2]));
    if !(named_finite && finite(&[thick, rho])) {
        return Some(3);
    }
    let right = |names: &[u64]| turn(names, xy) == Turn::Right;
    names.chunks(3).any(right).then_some(6)
}

/// Of the triangle with these three names.
pub fn turn(names: &[u64], xy: &[f64]) -> Turn {
    let corners = [0, 1, 2].map(|i| {
        let at = names[i] as usize * 2;
        [xy[at], xy[at + 1]]
    });
    Turn::of(&corners)
}

fn lengths_wrong(vertices: usize, names: usize, masses: usize) -> bool {
    vertices > MOST_VERTICES
        || names % 3 != 0
        || names / 3 > MOST_TRIANGLES
        || masses != 3 * vertices
}

fn original(tri2vtx: &[usize], xy: &[f64], thick: f64, rho: f64, buffer: &[f64]) -> Vec<f64> {
    let mut values = buffer.to_vec();
    mitc_tri3::mass_lumped_plate_bending(tri2vtx, xy, thick, rho, &mut values);
    let traced_xy: Vec<Traced> = xy.iter().copied().map(Traced).collect();
    let mut traced: Vec<Traced> = buffer.iter().copied().map(Traced).collect();
    let ((), divisors) = traced::run(|| {
        let (thick, rho) = (Traced(thick), Traced(rho));
        mitc_tri3::mass_lumped_plate_bending(tri2vtx, &traced_xy, thick, rho, &mut traced)
    });
    let traced: Vec<f64> = traced.into_iter().map(|x| x.0).collect();
    assert!(
        same(&values, &traced),
        "the traced masses differ from the plain ones"
    );
    assert!(!divisors.contains(&0.0), "masses divide by constants alone");
    values
}
