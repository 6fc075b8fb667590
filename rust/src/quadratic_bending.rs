//! How far two triangles bend about the edge that they share.
//!
//! A flat sheet that moves as it is does not bend:
//!
//! ```
//! use del_fem::quadratic_bending::wdw;
//!
//! let rest = [[0.0, 2.0, 0.0], [0.0, -2.0, 0.0], [0.0, 0.0, 0.0], [2.0, 0.0, 0.0]];
//! let moved = rest.map(|[x, y, z]| [x + 8.0, y, z - 1.0]);
//! assert_eq!(wdw(&rest, &moved)?.0, [0.0, 0.0, 0.0]);
//! # Ok::<(), del_fem::Refusal>(())
//! ```
use crate::{blocks, ffi, Refusal};

/// Three bending values, and their derivatives by value, corner and axis. Corners 2 and 3 are the shared edge. `p_ini` is at rest, `p_def` deformed.
///
/// ```
/// use del_fem::{quadratic_bending::wdw, Refusal};
///
/// let rest = [[0.0, 2.0, 0.0], [0.0, -2.0, 0.0], [0.0, 0.0, 0.0], [2.0, 0.0, 0.0]];
/// let mut deformed = [[0.0; 3]; 4];
/// deformed[0][2] = 1.0;
/// let (w, dwdp) = wdw(&rest, &deformed)?;
/// assert_eq!(w[2].to_bits(), 0xbfeb_b67a_e858_4caa); // half the root of 3, below zero
/// assert_eq!(w[2], dwdp[2][0][2]);
///
/// // An edge without length.
/// let edge = [[0.0, 2.0, 0.0], [0.0, -2.0, 0.0], [0.0; 3], [0.0; 3]];
/// assert_eq!(wdw(&edge, &deformed), Err(Refusal::ZeroDivisor));
/// # Ok::<(), Refusal>(())
/// ```
#[allow(clippy::type_complexity)]
pub fn wdw(
    p_ini: &[[f64; 3]; 4],
    p_def: &[[f64; 3]; 4],
) -> Result<([f64; 3], [[[f64; 3]; 4]; 3]), Refusal> {
    let mut values = [0.0; ffi::BENDING_VALUES];
    // SAFETY: references to arrays of the declared shapes, the lent one a local of its own.
    let number = unsafe { ffi::del_fem_quadratic_bending_wdw(p_ini, p_def, &mut values) };
    Refusal::of(number)?;
    let [[w]] = blocks(&values[..3]);
    Ok((w, blocks(&values[3..])))
}
