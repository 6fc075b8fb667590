//! IEEE 754's squareRoot, to nearest. It refuses nothing.
//!
//! The bits are those of the processor's root, but for NaN:
//!
//! ```
//! use del_fem::root;
//!
//! for x in [0.0, -0.0, 1e-310, 0.1, 2.0, 1e300, f64::INFINITY] {
//!     assert_eq!(root::sqrt(x).to_bits(), x.sqrt().to_bits());
//! }
//! ```
use crate::ffi;

/// The root of `x`. Every NaN and everything below zero gives the NaN with the bits 0x7ff8000000000000.
///
/// ```
/// use del_fem::root::sqrt;
///
/// assert_eq!(sqrt(4.0), 2.0);
/// assert_eq!(sqrt(2.0).to_bits(), 0x3ff6_a09e_667f_3bcd);
/// assert_eq!(sqrt(-0.0).to_bits(), (-0.0_f64).to_bits());
/// assert_eq!(sqrt(-1.0).to_bits(), 0x7ff8_0000_0000_0000);
/// ```
pub fn sqrt(x: f64) -> f64 {
    // SAFETY: takes and gives a number, and touches no memory.
    unsafe { ffi::del_fem_root_sqrt(x) }
}

/// The same on the bits of a number.
///
/// ```
/// use del_fem::root::sqrt_word;
///
/// // 2^-1074 has the root 2^-537; the largest finite number; a signaling NaN.
/// assert_eq!(sqrt_word(1), 0x1e60_0000_0000_0000);
/// assert_eq!(sqrt_word(0x7fef_ffff_ffff_ffff), 0x5fef_ffff_ffff_ffff);
/// assert_eq!(sqrt_word(0x7ff0_0000_0000_0001), 0x7ff8_0000_0000_0000);
/// ```
pub fn sqrt_word(w: u64) -> u64 {
    // SAFETY: takes and gives a number, and touches no memory.
    unsafe { ffi::del_fem_root_sqrt_word(w) }
}
