//! StVK over a whole skin: the kernel's answer for each triangle, summed from +0
//! as the list goes. The original has no such routine.

use crate::answer::Answer;
use crate::kernels::{self, finite};
use crate::masses::{MOST_TRIANGLES, MOST_VERTICES};
use crate::material::{self, Material};
use crate::record::{numbers_of, SKIN_LENGTHS, STVK};

/// The words of a skin record, taken apart.
pub fn answer(words: &[u64]) -> Answer {
    let (lengths, behind) = words.split_at(SKIN_LENGTHS);
    let (material, lists) = behind.split_at(material::WORDS);
    let (ini, lists) = lists.split_at(lengths[0] as usize);
    let (def, lists) = lists.split_at(lengths[1] as usize);
    let (names, buffer) = lists.split_at(lengths[2] as usize);
    skin(
        &numbers_of(ini),
        &numbers_of(def),
        names,
        &Material::read(material),
        &numbers_of(buffer),
    )
}

/// The values are the energy, then the buffer on return.
pub fn skin(
    ini: &[f64],
    def: &[f64],
    names: &[u64],
    material: &Material,
    buffer: &[f64],
) -> Answer {
    if let Some(number) = refused_before(ini, def, names, buffer.len()) {
        return of(number, 0, 0.0, buffer);
    }
    let zeros = vec![0.0; buffer.len()];
    let mut w = 0.0;
    let mut dw = zeros.clone();
    for (place, names) in names.chunks(3).enumerate() {
        let single = single(ini, def, names, material);
        if single.number != 0 {
            return of(single.number, place, 0.0, &zeros);
        }
        w += single.values[0];
        add(&mut dw, names, &single.values[1..10]);
    }
    if w.is_finite() && finite(&dw) {
        of(0, 0, w, &dw)
    } else {
        of(5, names.len() / 3, 0.0, &zeros)
    }
}

fn of(number: u64, place: usize, w: f64, buffer: &[f64]) -> Answer {
    Answer {
        number,
        place: Some(place as u64),
        values: [&[w], buffer].concat(),
    }
}

fn refused_before(ini: &[f64], def: &[f64], names: &[u64], entries: usize) -> Option<u64> {
    let vertices = ini.len() / 3;
    if vertices > MOST_VERTICES
        || names.len() % 3 != 0
        || names.len() / 3 > MOST_TRIANGLES
        || ini.len() % 3 != 0
        || def.len() != ini.len()
        || entries != ini.len()
    {
        return Some(1);
    }
    let far = names.iter().any(|name| *name >= vertices as u64);
    far.then_some(2)
}

/// The kernel's answer for the triangle of these three names.
pub fn single(ini: &[f64], def: &[f64], names: &[u64], material: &Material) -> Answer {
    let corners = [corners(ini, names), corners(def, names)];
    kernels::with_material(STVK, &corners.concat(), material)
}

fn corners(points: &[f64], names: &[u64]) -> Vec<f64> {
    let corners = names.iter().map(|name| &points[*name as usize * 3..][..3]);
    corners.flatten().copied().collect()
}

fn add(buffer: &mut [f64], names: &[u64], dw: &[f64]) {
    for (name, part) in names.iter().zip(dw.chunks(3)) {
        let entries = &mut buffer[*name as usize * 3..][..3];
        entries.iter_mut().zip(part).for_each(|(sum, x)| *sum += x);
    }
}
