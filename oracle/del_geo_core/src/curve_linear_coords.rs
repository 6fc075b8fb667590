use crate::vec3;
use num_traits::Float;

/// Contravariant vectors of three covariant ones.
pub fn inverse<T: Float>(g: &[[T; 3]; 3]) -> [[T; 3]; 3] {
    [
        contravariant(&g[1], &g[2], &g[0]),
        contravariant(&g[2], &g[0], &g[1]),
        contravariant(&g[0], &g[1], &g[2]),
    ]
}

/// Square to `a` and `b`, and of dot 1 with `own`.
fn contravariant<T: Float>(a: &[T; 3], b: &[T; 3], own: &[T; 3]) -> [T; 3] {
    let c = vec3::cross(a, b);
    vec3::scale(&c, T::one() / vec3::dot(&c, own))
}
