//! The book's Green-Lagrange strain and its derivatives by the deformed corners. The original
//! has no such routine: the order of operations is that of its `stvk_tri3::wdw`, but the unit
//! normal and the lengths of the contravariant vectors are those of its `stvk_tri3::wdwddw_`.

use del_geo_core::{tri3, vec3};
use num_traits::Float;
use std::array::from_fn;

type Three<T> = [T; 3];

pub fn wdw_green_lagrange<T: Float>(
    p_ini: &[[T; 2]; 3],
    p_def: &[[T; 3]; 3],
) -> (Three<T>, [[Three<T>; 3]; 3]) {
    let flat = p_ini.map(|[x, y]| [x, y, T::zero()]);
    let (rest, deformed) = (edges(&flat), edges(p_def));
    let (normal, _) = tri3::unit_normal_area(&flat[0], &flat[1], &flat[2]);
    let gu_x = contravariant(&rest[1], &normal, &rest[0]);
    let gu_y = contravariant(&normal, &rest[0], &rest[1]);
    let strains = strains(&rest, &deformed);
    let factors = factors(&gu_x, &gu_y);
    let w = factors.map(|f| vec3::dot(&strains, &f));
    let dw = factors.map(|f| derivatives(&f, &deformed));
    (w, dw)
}

/// From corner 0 to the others.
fn edges<T: Float>(p: &[Three<T>; 3]) -> [Three<T>; 2] {
    [vec3::sub(&p[1], &p[0]), vec3::sub(&p[2], &p[0])]
}

/// Square to `a` and `b`, and of dot 1 with its own edge.
fn contravariant<T: Float>(a: &Three<T>, b: &Three<T>, own: &Three<T>) -> Three<T> {
    let c = vec3::cross(a, b);
    vec3::scale(&c, T::one() / vec3::dot(&c, own))
}

/// Along the edges, the third as engineers write it.
fn strains<T: Float>(rest: &[Three<T>; 2], deformed: &[Three<T>; 2]) -> Three<T> {
    let half = T::from(0.5).unwrap();
    let gain =
        |i: usize, j: usize| vec3::dot(&deformed[i], &deformed[j]) - vec3::dot(&rest[i], &rest[j]);
    [half * gain(0, 0), half * gain(1, 1), gain(0, 1)]
}

/// What xx, yy and xy of the sheet take of each strain along the edges.
fn factors<T: Float>(x: &Three<T>, y: &Three<T>) -> [Three<T>; 3] {
    let two = T::one() + T::one();
    let of_axis = |i: usize| [x[i] * x[i], y[i] * y[i], x[i] * y[i]];
    let mixed = x[0] * y[1] + x[1] * y[0];
    let xy = [two * x[0] * x[1], two * y[0] * y[1], mixed];
    [of_axis(0), of_axis(1), xy]
}

/// Of one strain by each corner, from the factors it takes.
fn derivatives<T: Float>(f: &Three<T>, deformed: &[Three<T>; 2]) -> [Three<T>; 3] {
    let sum = |a: T, b: T| from_fn(|i| a * deformed[0][i] + b * deformed[1][i]);
    let corner_0 = sum(-(f[0] + f[2]), -(f[1] + f[2]));
    [corner_0, sum(f[0], f[2]), sum(f[2], f[1])]
}
