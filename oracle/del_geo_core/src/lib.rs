//! The vector and area routines that the original files call, written by the
//! helper rules of the project's scope: sums and products from left to right,
//! every step rounded on its own.

pub mod curve_linear_coords;
pub mod edge;
pub mod tri2;
pub mod tri3;
pub mod vec3;

/// One half as a constant, so that no division is seen for it.
fn half<T: num_traits::Float>() -> T {
    T::from(0.5).unwrap()
}
