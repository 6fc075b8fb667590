use crate::{half, vec3};
use num_traits::Float;

fn normal<T: Float>(p0: &[T; 3], p1: &[T; 3], p2: &[T; 3]) -> [T; 3] {
    vec3::cross(&vec3::sub(p1, p0), &vec3::sub(p2, p0))
}

pub fn area<T: Float>(p0: &[T; 3], p1: &[T; 3], p2: &[T; 3]) -> T {
    half::<T>() * vec3::norm(&normal(p0, p1, p2))
}

pub fn unit_normal_area<T: Float>(p0: &[T; 3], p1: &[T; 3], p2: &[T; 3]) -> ([T; 3], T) {
    let n = normal(p0, p1, p2);
    let norm = vec3::norm(&n);
    (vec3::scale(&n, T::one() / norm), norm * half())
}
