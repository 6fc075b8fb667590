use num_traits::Float;

pub fn dot<T: Float>(a: &[T; 3], b: &[T; 3]) -> T {
    a[0] * b[0] + a[1] * b[1] + a[2] * b[2]
}

pub fn cross<T: Float>(a: &[T; 3], b: &[T; 3]) -> [T; 3] {
    [
        a[1] * b[2] - a[2] * b[1],
        a[2] * b[0] - a[0] * b[2],
        a[0] * b[1] - a[1] * b[0],
    ]
}

pub fn cross_mut<T: Float>(c: &mut [T; 3], a: &[T; 3], b: &[T; 3]) {
    *c = cross(a, b);
}

pub fn sub<T: Float>(a: &[T; 3], b: &[T; 3]) -> [T; 3] {
    [a[0] - b[0], a[1] - b[1], a[2] - b[2]]
}

pub fn scale<T: Float>(a: &[T; 3], s: T) -> [T; 3] {
    a.map(|x| x * s)
}

pub fn norm<T: Float>(a: &[T; 3]) -> T {
    dot(a, a).sqrt()
}

pub fn normalize<T: Float>(a: &[T; 3]) -> [T; 3] {
    scale(a, T::one() / norm(a))
}
