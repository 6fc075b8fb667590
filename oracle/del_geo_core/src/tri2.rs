use crate::half;
use num_traits::Float;

/// Signed: a clockwise triangle has a negative area.
pub fn area<T: Float>(p0: &[T; 2], p1: &[T; 2], p2: &[T; 2]) -> T {
    half::<T>() * ((p1[0] - p0[0]) * (p2[1] - p0[1]) - (p2[0] - p0[0]) * (p1[1] - p0[1]))
}
