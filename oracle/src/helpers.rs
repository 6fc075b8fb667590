//! The helpers by their names in records.

use del_geo_core::{curve_linear_coords, edge, tri2, tri3, vec3};

/// The numbers as points of `D` coordinates each.
pub fn points<T: Copy, const D: usize, const N: usize>(numbers: &[T]) -> [[T; D]; N] {
    std::array::from_fn(|i| std::array::from_fn(|j| numbers[i * D + j]))
}

pub fn values(helper: u64, x: &[f64]) -> Vec<f64> {
    match helper {
        1 => vec![pair(x, vec3::dot)],
        2 => pair(x, vec3::cross).to_vec(),
        3 => pair(x, vec3::sub).to_vec(),
        4 => vec3::scale(&[x[0], x[1], x[2]], x[3]).to_vec(),
        5 => vec![vec3::norm(&[x[0], x[1], x[2]])],
        6 => vec3::normalize(&[x[0], x[1], x[2]]).to_vec(),
        7 => {
            let [p0, p1, p2] = points(x);
            vec![tri2::area(&p0, &p1, &p2)]
        }
        8 => {
            let [p0, p1, p2] = points(x);
            vec![tri3::area(&p0, &p1, &p2)]
        }
        9 => {
            let [p0, p1, p2] = points(x);
            let (normal, area) = tri3::unit_normal_area(&p0, &p1, &p2);
            [normal.to_vec(), vec![area]].concat()
        }
        10 => vec![pair(x, edge::length::<f64, 3>)],
        11 => curve_linear_coords::inverse(&points(x)).concat(),
        _ => unreachable!("the reader lets no other helper through"),
    }
}

fn pair<R>(x: &[f64], of: impl Fn(&[f64; 3], &[f64; 3]) -> R) -> R {
    let [a, b] = points(x);
    of(&a, &b)
}
