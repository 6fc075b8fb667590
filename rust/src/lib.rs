//! How heavy and how stiff a thin wall panel is: masses, energies, forces and strains of small flat triangles, under the names and in the shapes of nobuyuki83/del-fem.
//!
//! Every routine is a safe call of a proved function (`../include/del_fem.h` says what each gives, `../docs/01-scope.md` by which rules). Where the original would
//! panic or give numbers that mean nothing, the answer is a [`Refusal`]. Not the original's are two modules, [`skin`], which adds up what [`stvk_tri3::wdwddw_`]
//! gives for many triangles, and [`mesh`], which reads points and triangles from a file; [`stvk_tri3::wdw_green_lagrange`], a second strain; and the [`Material`], one
//! record where the original takes numbers one by one.
//!
//! # What it needs
//!
//! x86-64 Linux, Rust 1.63 or newer, and the archive `libdel_fem.a`, which `rt lib` in the repository's `crates/del_fem` writes to its `out`. To take it from
//! another folder, set `DEL_FEM_LIB_DIR` to that folder's absolute path.
//!
//! # Units
//!
//! Any that fit each other. With metres, kilograms and newtons the masses are in kg, Lame's parameters and Young's modulus in N/m^2, a plate's energy in J; StVK's
//! energy has no thickness in it and is for each metre of thickness.
//!
//! Masses take the area alone from the coordinates, which may thus have a unit of their own. With whole millimetres, a thickness in metres and a density in kg/m^3
//! the masses are in milligrams (mm^2 m kg/m^3 = 10^-6 kg), the two for rotations in mg m^2; and since the coordinates are whole numbers, the masses are within a
//! proved distance of what the given doubles make exactly (`../docs/01-scope.md` 6.2: coordinates of size up to 1,048,576, density and thickness from 2^-40 to 2^40).
//!
//! # From a mesh file to masses
//!
//! Masses take x and y. A wall that stands upright weighs 0 there and a folded one too little, and no word need be said; so the wall has to lie flat, all its z one
//! value. The corners of its triangles have to run counterclockwise, x to the right and y up; a wall that is drawn from behind is refused with [`Refusal::Turned`], until
//! two names of each triangle are exchanged:
//!
//! ```
//! use del_fem::{mesh, mitc_tri3, Material};
//! use std::error::Error;
//!
//! /// Three masses for each point of a flat wall.
//! fn masses(file: &[u8], material: Material) -> Result<Vec<f64>, Box<dyn Error>> {
//!     let mesh::Mesh { points, triangles } = mesh::read(file)?;
//!     let (block, cells) = (mesh::points(file)?, mesh::cells(file)?);
//!     let at = |point, axis| mesh::coordinate(block, point, axis).expect("a coordinate");
//!     // A NaN equals nothing and fails.
//!     if !(0..points).all(|point| at(point, 2) == at(0, 2)) {
//!         return Err("the wall is not flat: its z are not one value".into());
//!     }
//!     let vtx2xy: Vec<f64> = (0..2 * points).map(|i| at(i / 2, i % 2)).collect();
//!     let tri2vtx: Vec<usize> = (0..3 * triangles)
//!         .map(|i| mesh::name(cells, i / 3, i % 3).expect("a name"))
//!         .collect();
//!     let mut vtx2mass = vec![0.0; 3 * points];
//!     mitc_tri3::mass_lumped_plate_bending(&tri2vtx, &vtx2xy, material, &mut vtx2mass)?;
//!     Ok(vtx2mass)
//! }
//!
//! // A square of 6 by 6 in two triangles: 36 mm^2 * 1 m * 2 kg/m^3 = 72 mg.
//! let file = std::fs::read("../meshes/files/two.vtk")?;
//! let vtx2mass = masses(&file, Material::lame(2.0, 1.0, 0.0, 1.0))?;
//! assert_eq!(vtx2mass, [12.0, 1.0, 1.0, 24.0, 2.0, 2.0, 24.0, 2.0, 2.0, 12.0, 1.0, 1.0]);
//! assert_eq!(vtx2mass.iter().step_by(3).sum::<f64>(), 72.0);
//!
//! let folded = std::fs::read("../meshes/files/folded.vtk")?;
//! assert!(masses(&folded, Material::STOCK_SHEET).is_err());
//!
//! let mut behind = file; // the square once more, corners 1 and 2 of each triangle exchanged
//! behind[194..226].chunks_mut(16).for_each(|cell| cell[8..].rotate_left(4));
//! let refused = masses(&behind, Material::STOCK_SHEET).unwrap_err();
//! assert_eq!(refused.to_string(), "refused (6): a triangle turns right: its corners run clockwise");
//! # Ok::<(), Box<dyn Error>>(())
//! ```

mod ffi;
mod material;
pub mod mesh;
pub mod mitc_tri3;
pub mod quadratic_bending;
mod refusal;
pub mod root;
pub mod skin;
pub mod stvk_tri3;

pub use material::{Material, Stiffness};
pub use refusal::Refusal;

/// The version of the header that this crate is written after: 1000 times the major number and the minor one.
pub const VERSION: u32 = 3000;

/// The archive's: the crate may use one of the same major number and no lower minor one.
///
/// ```
/// assert_eq!(del_fem::version() / 1000, del_fem::VERSION / 1000);
/// assert!(del_fem::version() >= del_fem::VERSION);
/// ```
pub fn version() -> u32 {
    // SAFETY: takes nothing, gives a number, and touches no memory.
    unsafe { ffi::del_fem_version() }
}

/// The most vertices that a panel, a skin or a mesh file may have.
pub const MAX_VERTICES: usize = 65_536;
/// The most triangles.
pub const MAX_TRIANGLES: usize = 131_072;

/// An energy, its gradient by corner, and its Hessian: a block of nine, row by row, for each pair of corners.
pub type Energy = (f64, [[f64; 3]; 3], [[[f64; 9]; 3]; 3]);

/// A flat list as rows of `A`, `B` rows to a block, `C` blocks.
fn blocks<const A: usize, const B: usize, const C: usize>(flat: &[f64]) -> [[[f64; A]; B]; C] {
    std::array::from_fn(|k| {
        std::array::from_fn(|j| std::array::from_fn(|i| flat[(k * B + j) * A + i]))
    })
}

fn energy(values: &[f64; ffi::ENERGY_VALUES]) -> Energy {
    let [dw] = blocks(&values[1..10]);
    (values[0], dw, blocks(&values[10..]))
}
