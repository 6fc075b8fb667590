//! The strain of a triangle as the original has it and as a book has it, and its StVK energy.
//!
//! The two strains are the same where the heights on both edges at corner 0 are 1. Of a sheet 2 long that is pulled to 4 the original says 6, a book 1.5:
//!
//! ```
//! use del_fem::stvk_tri3::{wdw, wdw_green_lagrange};
//!
//! let rest = [[0.0, 0.0], [2.0, 0.0], [0.0, 1.0]];
//! let pulled = [[0.0, 0.0, 0.0], [4.0, 0.0, 0.0], [0.0, 1.0, 0.0]];
//! assert_eq!(wdw(&rest, &pulled)?.0, [6.0, 0.0, 0.0]);
//! assert_eq!(wdw_green_lagrange(&rest, &pulled)?.0, [1.5, 0.0, 0.0]);
//! # Ok::<(), del_fem::Refusal>(())
//! ```
use crate::{blocks, energy, ffi, Energy, Material, Refusal};

/// Three strains, and their derivatives by strain, deformed corner and axis.
pub type Strain = ([f64; 3], [[[f64; 3]; 3]; 3]);

/// Three strains of a plane rest triangle that is deformed into space, as the original computes them. They are the Green-Lagrange strain only where the heights on both
/// edges at corner 0 are 1.
///
/// ```
/// use del_fem::stvk_tri3::wdw;
///
/// let rest = [[0.0, 0.0], [1.0, 0.0], [0.0, 1.0]];
/// let pulled = [[0.0, 0.0, 0.0], [2.0, 0.0, 0.0], [0.0, 1.0, 0.0]];
/// let (w, dw) = wdw(&rest, &pulled)?;
/// assert_eq!(w, [1.5, 0.0, 0.0]);
/// assert_eq!(dw[0][1], [2.0, 0.0, 0.0]); // the first strain by corner 1
/// # Ok::<(), del_fem::Refusal>(())
/// ```
pub fn wdw(p_ini: &[[f64; 2]; 3], p_def: &[[f64; 3]; 3]) -> Result<Strain, Refusal> {
    let mut values = [0.0; ffi::STRAIN_VALUES];
    // SAFETY: references to arrays of the declared shapes, the lent one a local of its own.
    let number = unsafe { ffi::del_fem_stvk_tri3_wdw(p_ini, p_def, &mut values) };
    strain(number, &values)
}

/// The Green-Lagrange strain of such a triangle in the sheet's own axes: (F^T F - I) / 2, as xx, yy and twice xy.
///
/// ```
/// use del_fem::{stvk_tri3::wdw_green_lagrange, Refusal};
///
/// let rest = [[0.0, 0.0], [2.0, 0.0], [0.0, 1.0]];
/// let pulled = [[0.0, 0.0, 0.0], [4.0, 0.0, 0.0], [0.0, 1.0, 0.0]];
/// let (w, dw) = wdw_green_lagrange(&rest, &pulled)?;
/// assert_eq!(w, [1.5, 0.0, 0.0]);
/// assert_eq!(dw[0][1], [1.0, 0.0, 0.0]); // xx by corner 1
///
/// // Rest corners on a line.
/// let line = [[0.0, 0.0], [1.0, 0.0], [2.0, 0.0]];
/// assert_eq!(wdw_green_lagrange(&line, &pulled), Err(Refusal::ZeroDivisor));
/// # Ok::<(), Refusal>(())
/// ```
pub fn wdw_green_lagrange(p_ini: &[[f64; 2]; 3], p_def: &[[f64; 3]; 3]) -> Result<Strain, Refusal> {
    let mut values = [0.0; ffi::STRAIN_VALUES];
    // SAFETY: references to arrays of the declared shapes, the lent one a local of its own.
    let number = unsafe { ffi::del_fem_stvk_tri3_wdw_green_lagrange(p_ini, p_def, &mut values) };
    strain(number, &values)
}

fn strain(number: u32, values: &[f64; ffi::STRAIN_VALUES]) -> Result<Strain, Refusal> {
    Refusal::of(number)?;
    let [[w]] = blocks(&values[..3]);
    Ok((w, blocks(&values[3..])))
}

/// The StVK energy of a triangle with the corners `p0` at rest and `p1` deformed, with its gradient and Hessian by `p1`. Of the material it looks at the stiffness alone:
/// no thickness enters.
///
/// Refused are, in this order, a number that is not finite, a stiffness that no sheet can have, a divisor that is zero (the rest normal's norm, a dot that scales a
/// contravariant vector), and an answer that is not finite.
///
/// ```
/// use del_fem::{stvk_tri3::wdwddw_, Material, Refusal};
///
/// let rest = [[0.0, 0.0, 0.0], [1.0, 0.0, 0.0], [0.0, 1.0, 0.0]];
/// let pulled = [[0.0, 0.0, 0.0], [2.0, 0.0, 0.0], [0.0, 1.0, 0.0]];
/// let (w, dw, _ddw) = wdwddw_(rest, pulled, Material::lame(1400.0, 0.5, 0.0, 1.0))?;
/// assert_eq!(w, 1.125);
/// assert_eq!(dw.map(|corner| corner[0]), [-3.0, 3.0, 0.0]); // in x
///
/// // Rest corners on a line.
/// let line = [[0.0, 0.0, 0.0], [1.0, 0.0, 0.0], [2.0, 0.0, 0.0]];
/// assert_eq!(wdwddw_(line, pulled, Material::STOCK_SHEET), Err(Refusal::ZeroDivisor));
/// # Ok::<(), Refusal>(())
/// ```
pub fn wdwddw_(
    p0: [[f64; 3]; 3],
    p1: [[f64; 3]; 3],
    material: Material,
) -> Result<Energy, Refusal> {
    let (stiffness, a, b) = material.stiffness.crossing();
    let mut values = [0.0; ffi::ENERGY_VALUES];
    // SAFETY: references to arrays of the declared shapes, the lent one a local of its own.
    let number = unsafe {
        ffi::del_fem_stvk_tri3_wdwddw_(
            &p0,
            &p1,
            stiffness,
            material.density,
            material.thickness,
            a,
            b,
            &mut values,
        )
    };
    Refusal::of(number)?;
    Ok(energy(&values))
}
