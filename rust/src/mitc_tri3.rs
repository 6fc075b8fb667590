//! A plate triangle's energy, and the masses of a panel of plates. Both lie in the plane of x and y.
//!
//! **The corners of a triangle run counterclockwise**, x to the right and y up. Where they do not, the answer is [`Refusal::Turned`]: exchange two of the triangle's three
//! names; of a wall that is drawn from behind, do so in every triangle. What decides is the area ((x1 - x0)(y2 - y0) - (x2 - x0)(y1 - y0)) times 0.5, each operation
//! rounded: below 0, -infinity included, the triangle turns right and is refused; at a zero of either sign and at a NaN it turns neither way and is not refused for
//! that. So of corners that are nearly in a line rounding decides.
//!
//! **Masses do not see z.** Of a wall in space, a mesh file's for one, they take x and y: one that stands upright weighs 0 and a folded one too little, and no word
//! need be said. So test that all z are one value before you take x and y ([the whole way](crate#from-a-mesh-file-to-masses)):
//!
//! ```
//! use del_fem::{mitc_tri3::mass_lumped_plate_bending, Material};
//!
//! let upright = [[0.0, 0.0, 0.0], [6.0, 0.0, 0.0], [0.0, 0.0, 6.0_f64]];
//! let flat = upright.iter().all(|p| p[2] == upright[0][2]);
//! assert!(!flat);
//!
//! // What comes without the test.
//! let vtx2xy: Vec<f64> = upright.iter().flat_map(|p| [p[0], p[1]]).collect();
//! let mut vtx2mass = [7.5; 9];
//! mass_lumped_plate_bending(&[0, 1, 2], &vtx2xy, Material::STOCK_SHEET, &mut vtx2mass)?;
//! assert_eq!(vtx2mass, [0.0; 9]);
//! # Ok::<(), del_fem::Refusal>(())
//! ```
use crate::{energy, ffi, Energy, Material, Refusal};

/// The energy of a plate over the plane corners `p`, with its gradient and Hessian by `u`: at each corner the displacement in z and the rotations about x and y. The
/// corners have to run counterclockwise (see [the module](self)). The energy in shear is the original's, four times that of plain plate theory where the two edges at
/// corner 0 are perpendicular (`../docs/DIFFERENCES.md`). Of the material it looks at thickness and stiffness.
///
/// Refused are, in this order, a number that is not finite, a stiffness that no sheet can have, corners that turn right, a divisor that is zero (a dot of the inverse, as
/// of a triangle without an area or a plate without thickness), and an answer that is not finite.
///
/// ```
/// use del_fem::{mitc_tri3::w_dw_ddw_plate_bending, Material, Refusal};
///
/// let p = [&[0.0, 0.0], &[1.0, 0.0], &[0.0, 1.0]];
/// let mut u = [[0.0; 3]; 3];
/// u[1][0] = 1.0; // corner 1 is lifted
/// let (w, _dw, _ddw) = w_dw_ddw_plate_bending(&p, &u, Material::lame(1400.0, 2.0, 0.0, 1.0))?;
/// assert_eq!(w, 2.0);
///
/// let clockwise = [p[0], p[2], p[1]];
/// let turned = w_dw_ddw_plate_bending(&clockwise, &u, Material::STOCK_SHEET);
/// assert_eq!(turned, Err(Refusal::Turned));
///
/// let without = Material { thickness: 0.0, ..Material::STOCK_SHEET };
/// assert_eq!(w_dw_ddw_plate_bending(&p, &u, without), Err(Refusal::ZeroDivisor));
/// # Ok::<(), Refusal>(())
/// ```
pub fn w_dw_ddw_plate_bending(
    p: &[&[f64; 2]; 3],
    u: &[[f64; 3]; 3],
    material: Material,
) -> Result<Energy, Refusal> {
    let p = p.map(|corner| *corner);
    let (stiffness, a, b) = material.stiffness.crossing();
    let mut values = [0.0; ffi::ENERGY_VALUES];
    // SAFETY: references to arrays of the declared shapes, the lent one a local of its own.
    let number = unsafe {
        ffi::del_fem_mitc_tri3_w_dw_ddw_plate_bending(
            &p,
            u,
            stiffness,
            material.density,
            material.thickness,
            a,
            b,
            &mut values,
        )
    };
    Refusal::of(number)?;
    Ok(energy(&values))
}

/// The lumped masses of a panel into `vtx2mass`, three for each vertex: for its translation and its two rotations. `tri2vtx` names three vertices for each triangle,
/// `vtx2xy` has x and y of each vertex: of a wall in space z has to be one value throughout, which is the caller's to test (see [the module](self)). The corners of every
/// triangle have to run counterclockwise; one without an area is taken and adds no mass. Of the material it looks at density and thickness, and a mass is below 0 only
/// where one of these is.
///
/// Refused are, in this order, a wrong length or limit, a name of no vertex, a number that is not finite, a triangle that turns right, wherever it stands, and an answer
/// that is not finite. After the last, [`Refusal::BadAnswer`], the buffer is +0 throughout; the others leave it as it was.
///
/// ```
/// use del_fem::{mitc_tri3::mass_lumped_plate_bending, Material, Refusal};
///
/// let vtx2xy = [0.0, 0.0, 6.0, 0.0, 0.0, 6.0, 6.0, 6.0]; // a square
/// let material = Material::lame(2.0, 1.0, 0.0, 1.0);
/// let mut vtx2mass = [0.0; 12];
/// mass_lumped_plate_bending(&[0, 1, 2, 1, 3, 2], &vtx2xy, material, &mut vtx2mass)?;
/// assert_eq!(vtx2mass, [12.0, 1.0, 1.0, 24.0, 2.0, 2.0, 24.0, 2.0, 2.0, 12.0, 1.0, 1.0]);
///
/// // The second triangle runs clockwise; the buffer keeps the masses of before.
/// let turned = mass_lumped_plate_bending(&[0, 1, 2, 1, 2, 3], &vtx2xy, material, &mut vtx2mass);
/// assert_eq!(turned, Err(Refusal::Turned));
/// assert_eq!(vtx2mass[..3], [12.0, 1.0, 1.0]);
///
/// let sheet = Material::STOCK_SHEET;
/// let four = mass_lumped_plate_bending(&[0, 1, 2, 1], &vtx2xy, sheet, &mut vtx2mass);
/// assert_eq!(four, Err(Refusal::BadLength));
/// let nowhere = mass_lumped_plate_bending(&[0, 1, 4], &vtx2xy, sheet, &mut vtx2mass);
/// assert_eq!(nowhere, Err(Refusal::BadName));
/// # Ok::<(), Refusal>(())
/// ```
pub fn mass_lumped_plate_bending(
    tri2vtx: &[usize],
    vtx2xy: &[f64],
    material: Material,
    vtx2mass: &mut [f64],
) -> Result<(), Refusal> {
    let (stiffness, a, b) = material.stiffness.crossing();
    // SAFETY: each pointer comes with its slice's own length; the lent slice is borrowed alone.
    let number = unsafe {
        ffi::del_fem_mitc_tri3_mass_lumped_plate_bending(
            tri2vtx.as_ptr(),
            tri2vtx.len(),
            vtx2xy.as_ptr(),
            vtx2xy.len(),
            stiffness,
            material.density,
            material.thickness,
            a,
            b,
            vtx2mass.as_mut_ptr(),
            vtx2mass.len(),
        )
    };
    Refusal::of(number)
}
