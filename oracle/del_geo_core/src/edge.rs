use num_traits::Float;

pub fn length<T: Float, const N: usize>(p0: &[T; N], p1: &[T; N]) -> T {
    let squares = (0..N).map(|i| p0[i] - p1[i]).map(|d| d * d);
    squares
        .reduce(|sum, square| sum + square)
        .map_or(T::zero(), T::sqrt)
}
