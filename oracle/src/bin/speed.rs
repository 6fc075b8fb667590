//! Calls a routine of the original files, or the book's strain, many times, so that the
//! instructions of one call can be counted. Runs and lines are those of `c/speed.c`.

#[path = "../green_lagrange.rs"]
mod green_lagrange;

use del_fem_cpu::{mitc_tri3, quadratic_bending, stvk_tri3};
use std::io::Read;

const MASSES: u64 = 6;
const SKIN: u64 = 7;

/// By how much every number moves from one call to the next.
const STEP: f64 = 1.0 / 1048576.0;

type Numbers = [f64; 24];

/// First word of a material with a Lamé pair, the only stiffness of a run.
const LAME: u64 = 2;

fn root(x: &Numbers, _: usize) -> f64 {
    x[0].sqrt()
}

fn space<const N: usize>(x: &[f64]) -> [[f64; 3]; N] {
    std::array::from_fn(|i| [x[3 * i], x[3 * i + 1], x[3 * i + 2]])
}

fn bending(x: &Numbers, k: usize) -> f64 {
    let (w, dwdp) = quadratic_bending::wdw(&space(&x[..12]), &space(&x[12..]));
    let at = k % 36;
    w[at % 3] + dwdp[at / 12][at / 3 % 4][at % 3]
}

fn strain(x: &Numbers, k: usize) -> f64 {
    let p_ini = [[x[0], x[1]], [x[2], x[3]], [x[4], x[5]]];
    let (w, dw) = stvk_tri3::wdw(&p_ini, &space(&x[6..15]));
    let at = k % 27;
    w[at % 3] + dw[at / 9][at / 3 % 3][at % 3]
}

fn green_lagrange(x: &Numbers, k: usize) -> f64 {
    let p_ini = [[x[0], x[1]], [x[2], x[3]], [x[4], x[5]]];
    let (w, dw) = green_lagrange::wdw_green_lagrange(&p_ini, &space(&x[6..15]));
    let at = k % 27;
    w[at % 3] + dw[at / 9][at / 3 % 3][at % 3]
}

fn stvk(x: &Numbers, k: usize) -> f64 {
    let (w, dw, ddw) = stvk_tri3::wdwddw_(space(&x[..9]), space(&x[9..18]), x[21], x[22]);
    let at = k % 81;
    w + dw[at / 3 % 3][at % 3] + ddw[at / 27][at / 9 % 3][at % 9]
}

fn plate(x: &Numbers, k: usize) -> f64 {
    let p = [[x[0], x[1]], [x[2], x[3]], [x[4], x[5]]];
    let (w, dw, ddw) = mitc_tri3::w_dw_ddw_plate_bending(
        &[&p[0], &p[1], &p[2]],
        &space(&x[6..15]),
        x[17],
        x[18],
        x[19],
    );
    let at = k % 81;
    w + dw[at / 3 % 3][at % 3] + ddw[at / 27][at / 9 % 3][at % 9]
}

fn nothing(_: &Numbers, _: usize) -> f64 {
    0.0
}

fn sum(call: fn(&Numbers, usize) -> f64, count: u64, x: Numbers) -> f64 {
    let mut s = 0.0;
    let mut sum = 0.0;
    for k in 0..count as usize {
        sum += call(&x.map(|x| x + s), k);
        s += STEP;
    }
    sum
}

/// Calls on a panel, the thickness moved from one to the next.
fn masses(count: u64, tri2vtx: &[usize], vtx2xy: &[f64], thick: f64, rho: f64) -> f64 {
    let mut vtx2mass = vec![0.0; vtx2xy.len() / 2 * 3];
    let mut s = 0.0;
    let mut sum = 0.0;
    for _ in 0..count {
        mitc_tri3::mass_lumped_plate_bending(tri2vtx, vtx2xy, thick + s, rho, &mut vtx2mass);
        sum += vtx2mass.last().copied().unwrap_or(0.0);
        s += STEP;
    }
    sum
}

/// As one adds up a skin over the original: the energy, and the gradient into the buffer.
fn skin(
    vtx2ini: &[f64],
    vtx2def: &[f64],
    tri2vtx: &[usize],
    lambda: f64,
    myu: f64,
    vtx2dw: &mut [f64],
) -> f64 {
    vtx2dw.fill(0.0);
    let mut sum = 0.0;
    for names in tri2vtx.chunks(3) {
        let p0 = std::array::from_fn(|i| point(vtx2ini, names[i]));
        let p1 = std::array::from_fn(|i| point(vtx2def, names[i]));
        let (w, dw, _) = stvk_tri3::wdwddw_(p0, p1, lambda, myu);
        sum += w;
        for (name, part) in names.iter().zip(dw) {
            vtx2dw[name * 3] += part[0];
            vtx2dw[name * 3 + 1] += part[1];
            vtx2dw[name * 3 + 2] += part[2];
        }
    }
    sum
}

fn point(points: &[f64], name: usize) -> [f64; 3] {
    [points[name * 3], points[name * 3 + 1], points[name * 3 + 2]]
}

/// Calls on a skin, lambda moved from one to the next.
fn skins(count: u64, words: &mut impl Iterator<Item = u64>) -> f64 {
    let (numbers, names) = (next(words), next(words));
    let [_, _, lambda, myu] = material(words);
    let vtx2ini = list(words, numbers, f64::from_bits);
    let vtx2def = list(words, numbers, f64::from_bits);
    let tri2vtx = list(words, names, |word| word as usize);
    let mut vtx2dw = vec![0.0; vtx2ini.len()];
    let mut s = 0.0;
    let mut sum = 0.0;
    for _ in 0..count {
        sum += skin(&vtx2ini, &vtx2def, &tri2vtx, lambda + s, myu, &mut vtx2dw);
        sum += vtx2dw.last().copied().unwrap_or(0.0);
        s += STEP;
    }
    sum
}

fn kernel(kind: u64, count: u64, words: &mut impl Iterator<Item = u64>) -> f64 {
    let call = match kind {
        1 => root,
        2 => bending,
        3 => strain,
        4 => stvk,
        5 => plate,
        8 => green_lagrange,
        _ => nothing,
    };
    let words: [u64; 24] = std::array::from_fn(|_| next(words));
    match kind {
        4 => assert_eq!(words[18], LAME),
        5 => assert_eq!(words[15], LAME),
        _ => {}
    }
    sum(call, count, words.map(f64::from_bits))
}

/// Density, thickness, lambda and myu.
fn material(words: &mut impl Iterator<Item = u64>) -> [f64; 4] {
    assert_eq!(next(words), LAME);
    std::array::from_fn(|_| f64::from_bits(next(words)))
}

fn panel(count: u64, words: &mut impl Iterator<Item = u64>) -> f64 {
    let (coordinates, names) = (next(words), next(words));
    let [rho, thick, ..] = material(words);
    let vtx2xy = list(words, coordinates, f64::from_bits);
    let tri2vtx = list(words, names, |word| word as usize);
    masses(count, &tri2vtx, &vtx2xy, thick, rho)
}

fn next(words: &mut impl Iterator<Item = u64>) -> u64 {
    words.next().expect("a word")
}

fn list<T>(words: &mut impl Iterator<Item = u64>, count: u64, of: fn(u64) -> T) -> Vec<T> {
    (0..count).map(|_| of(next(words))).collect()
}

fn main() {
    let mut bytes = Vec::new();
    std::io::stdin()
        .read_to_end(&mut bytes)
        .expect("standard input");
    let mut words = bytes
        .chunks_exact(8)
        .map(|b| u64::from_be_bytes(b.try_into().expect("eight bytes")));
    while let Some(kind) = words.next() {
        let count = words.next().expect("how many calls");
        let sum = match kind {
            MASSES => panel(count, &mut words),
            SKIN => skins(count, &mut words),
            _ => kernel(kind, count, &mut words),
        };
        println!("{:016x}", sum.to_bits());
    }
}
