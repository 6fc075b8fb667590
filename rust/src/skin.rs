//! The StVK energy of a whole skin.
//!
//! A skin that moves as it is has neither energy nor forces (here no operation rounds):
//!
//! ```
//! use del_fem::{skin::wdw, Material};
//!
//! let rest = [0.0, 0.0, 0.0, 1.0, 0.0, 0.0, 0.0, 1.0, 0.0, 1.0, 1.0, 0.0];
//! let moved = rest.map(|x| x + 4.0);
//! let (two, sheet, mut vtx2dw) = ([0, 1, 2, 1, 3, 2], Material::STOCK_SHEET, [7.5; 12]);
//! assert_eq!(wdw(&rest, &moved, &two, sheet, &mut vtx2dw)?, 0.0);
//! assert_eq!(vtx2dw, [0.0; 12]);
//! # Ok::<(), del_fem::skin::Refused>(())
//! ```
use crate::{ffi, Material, Refusal};
use std::fmt;

/// Why a skin has no energy, and where. Lengths and names are refused before any triangle is looked at and have no place, and of [`Refusal::Unknown`] none is known; the
/// option says so, 0 being the first triangle's.
///
/// ```
/// use del_fem::{skin, Material, Refusal};
///
/// // Corners 0, 1 and 3 stand on a line.
/// let rest = [0.0, 0.0, 0.0, 1.0, 0.0, 0.0, 0.0, 1.0, 0.0, 2.0, 0.0, 0.0];
/// let (sheet, mut vtx2dw) = (Material::STOCK_SHEET, [0.0; 12]);
/// let answer = skin::wdw(&rest, &rest, &[0, 1, 2, 0, 1, 3], sheet, &mut vtx2dw);
/// let refused = answer.unwrap_err();
/// assert_eq!(refused.refusal, Refusal::ZeroDivisor);
/// assert_eq!(refused.place, Some(1));
/// assert_eq!(refused.to_string(), "refused (4): a divisor is zero, at place 1");
/// ```
#[derive(Clone, Copy, Debug, PartialEq, Eq, Hash)]
pub struct Refused {
    pub refusal: Refusal,
    /// The first triangle in the list that is refused, counted from 0, or how many there are where only a sum is not finite.
    pub place: Option<usize>,
}

impl Refused {
    fn at(refusal: Refusal, place: usize) -> Self {
        let place = match refusal {
            Refusal::BadInput
            | Refusal::BadStiffness
            | Refusal::ZeroDivisor
            | Refusal::BadAnswer => Some(place),
            _ => None,
        };
        Self { refusal, place }
    }
}

impl fmt::Display for Refused {
    fn fmt(&self, f: &mut fmt::Formatter) -> fmt::Result {
        match self.place {
            Some(place) => write!(f, "{}, at place {place}", self.refusal),
            None => self.refusal.fmt(f),
        }
    }
}

impl std::error::Error for Refused {}

/// The energy of the skin with the points `vtx2ini` at rest and `vtx2def` deformed, and its gradient by the deformed points into `vtx2dw`: three numbers for each point
/// in all three lists. Both are sums of what [`crate::stvk_tri3::wdwddw_`] gives, in the order of `tri2vtx` from +0. Of the material it looks at the stiffness alone.
///
/// Refused are lists of different lengths or of a length that 3 does not divide, more than [`crate::MAX_VERTICES`] or [`crate::MAX_TRIANGLES`], a name of no vertex;
/// then the first triangle that the kernel refuses, its Hessian included; then a sum that is not finite. Without triangles nothing but the lengths is looked at.
/// After a refusal with a place the buffer is +0 throughout; [`Refusal::BadLength`] and [`Refusal::BadName`] leave it as it was.
///
/// ```
/// use del_fem::{skin::wdw, Material};
///
/// // A square of two triangles, pulled to twice its length in x: 1.125 each.
/// let rest = [0.0, 0.0, 0.0, 1.0, 0.0, 0.0, 0.0, 1.0, 0.0, 1.0, 1.0, 0.0];
/// let pulled = [0.0, 0.0, 0.0, 2.0, 0.0, 0.0, 0.0, 1.0, 0.0, 2.0, 1.0, 0.0];
/// let (material, mut vtx2dw) = (Material::lame(1400.0, 0.5, 0.0, 1.0), [0.0; 12]);
/// let w = wdw(&rest, &pulled, &[0, 1, 2, 1, 3, 2], material, &mut vtx2dw)?;
/// assert_eq!(w, 2.25);
/// assert_eq!(vtx2dw, [-3.0, 0.0, 0.0, 3.0, 0.0, 0.0, -3.0, 0.0, 0.0, 3.0, 0.0, 0.0]);
/// # Ok::<(), del_fem::skin::Refused>(())
/// ```
pub fn wdw(
    vtx2ini: &[f64],
    vtx2def: &[f64],
    tri2vtx: &[usize],
    material: Material,
    vtx2dw: &mut [f64],
) -> Result<f64, Refused> {
    let (stiffness, a, b) = material.stiffness.crossing();
    let (mut place, mut w) = (0, 0.0);
    // SAFETY: each pointer comes with its slice's own length; the lent slice is borrowed alone, place and w are locals.
    let number = unsafe {
        ffi::del_fem_skin_wdw(
            vtx2ini.as_ptr(),
            vtx2ini.len(),
            vtx2def.as_ptr(),
            vtx2def.len(),
            tri2vtx.as_ptr(),
            tri2vtx.len(),
            stiffness,
            material.density,
            material.thickness,
            a,
            b,
            vtx2dw.as_mut_ptr(),
            vtx2dw.len(),
            &mut place,
            &mut w,
        )
    };
    match Refusal::of(number) {
        Ok(()) => Ok(w),
        Err(refusal) => Err(Refused::at(refusal, place)),
    }
}

#[cfg(test)]
mod tests {
    use super::{Refusal, Refused};

    #[test]
    fn only_reasons_of_triangles_and_sums_have_a_place() {
        for number in (1..20).chain([u32::MAX]) {
            let refused = Refused::at(Refusal::of(number).expect_err("a refusal"), 7);
            assert_eq!(refused.place.is_some(), [3, 7, 4, 5].contains(&number));
            assert_eq!(
                refused.to_string().ends_with("at place 7"),
                refused.place == Some(7)
            );
        }
    }
}
