//! Mesh files: triangles in binary legacy VTK, version 3.0. `../include/del_fem.h` says how such a file has to be.
//!
//! [`read`] counts, [`points`] and [`cells`] find the blocks, [`coordinate`] and [`name`] read in them. The three numbers of each point are what [`crate::skin`] takes:
//!
//! ```
//! use del_fem::{mesh, skin, Material};
//!
//! let file = std::fs::read("../meshes/files/folded.vtk")?;
//! let mesh::Mesh { points, triangles } = mesh::read(&file)?;
//! let (block, cells) = (mesh::points(&file)?, mesh::cells(&file)?);
//! let vtx2xyz: Vec<f64> = (0..3 * points)
//!     .map(|i| mesh::coordinate(block, i / 3, i % 3).expect("a coordinate"))
//!     .collect();
//! let tri2vtx: Vec<usize> = (0..3 * triangles)
//!     .map(|i| mesh::name(cells, i / 3, i % 3).expect("a name"))
//!     .collect();
//! let mut vtx2dw = vec![0.0; 3 * points];
//! let w = skin::wdw(&vtx2xyz, &vtx2xyz, &tri2vtx, Material::STOCK_SHEET, &mut vtx2dw)?;
//! assert_eq!(w, 0.0); // at rest
//! # Ok::<(), Box<dyn std::error::Error>>(())
//! ```
//!
//! **Masses take x and y alone**: this folded wall would weigh too little and an upright one nothing, and no word need be said. For masses test first that all z
//! are one value, as [the whole way](crate#from-a-mesh-file-to-masses) does.
use crate::{ffi, Refusal};
use std::fmt;

/// How much a file has.
#[derive(Clone, Copy, Debug, PartialEq, Eq, Hash)]
pub struct Mesh {
    pub points: usize,
    pub triangles: usize,
}

/// Why a file is refused, and where.
///
/// ```
/// use del_fem::mesh;
///
/// let refused = mesh::read(b"# vtk DataFile Version 4.2\n").unwrap_err();
/// assert_eq!(refused.place, 0);
/// assert_eq!(refused.to_string(), "refused (8): the mesh file is not as it has to be, at place 0");
/// ```
#[derive(Clone, Copy, Debug, PartialEq, Eq, Hash)]
pub struct Refused {
    /// [`Refusal::BadFile`], or [`Refusal::Unknown`].
    pub refusal: Refusal,
    /// Where the first thing that is wrong begins, counted in bytes from 0: a line, a number in a block, what stands for the newline after a block or behind the last
    /// one; the file's length where it ends early.
    pub place: usize,
}

impl Refused {
    fn of(number: u32, place: usize) -> Result<(), Self> {
        Refusal::of(number).map_err(|refusal| Self { refusal, place })
    }
}

impl fmt::Display for Refused {
    fn fmt(&self, f: &mut fmt::Formatter) -> fmt::Result {
        write!(f, "{}, at place {}", self.refusal, self.place)
    }
}

impl std::error::Error for Refused {}

/// Reads a whole file, at most [`crate::MAX_VERTICES`] points and [`crate::MAX_TRIANGLES`] triangles.
///
/// ```
/// use del_fem::mesh::{read, Mesh};
///
/// let file = std::fs::read("../meshes/files/two.vtk")?;
/// assert_eq!(read(&file)?, Mesh { points: 4, triangles: 2 });
/// assert_eq!(read(&file[..100]).unwrap_err().place, 100); // it ends early
/// # Ok::<(), Box<dyn std::error::Error>>(())
/// ```
pub fn read(file: &[u8]) -> Result<Mesh, Refused> {
    let (mut points, mut triangles, mut place) = (0, 0, 0);
    // SAFETY: the pointer comes with its slice's own length; the others are to locals.
    let number = unsafe {
        ffi::del_fem_mesh_read(
            file.as_ptr(),
            file.len(),
            &mut points,
            &mut triangles,
            &mut place,
        )
    };
    Refused::of(number, place)?;
    Ok(Mesh { points, triangles })
}

type Finder = unsafe extern "C" fn(*const u8, usize, *mut usize, *mut usize) -> u32;

fn block(find: Finder, file: &[u8]) -> Result<&[u8], Refused> {
    let (mut place, mut length) = (0, 0);
    // SAFETY: the pointer comes with its slice's own length; the others are to locals.
    let number = unsafe { find(file.as_ptr(), file.len(), &mut place, &mut length) };
    Refused::of(number, place)?;
    Ok(&file[place..place + length])
}

/// The points of a file, as that very part of it: 24 bytes each. The whole file is read for it.
///
/// ```
/// let file = std::fs::read("../meshes/files/two.vtk")?;
/// assert_eq!(del_fem::mesh::points(&file)?, &file[87..87 + 4 * 24]);
/// # Ok::<(), Box<dyn std::error::Error>>(())
/// ```
pub fn points(file: &[u8]) -> Result<&[u8], Refused> {
    block(ffi::del_fem_mesh_points, file)
}

/// The cells of a file, as that very part of it: 16 bytes for each triangle. The whole file is read for it.
///
/// ```
/// let file = std::fs::read("../meshes/files/two.vtk")?;
/// assert_eq!(del_fem::mesh::cells(&file)?, &file[194..194 + 2 * 16]);
/// # Ok::<(), Box<dyn std::error::Error>>(())
/// ```
pub fn cells(file: &[u8]) -> Result<&[u8], Refused> {
    block(ffi::del_fem_mesh_cells, file)
}

/// Coordinate `axis` (0, 1, 2 for x, y, z) of a point, in the bytes that [`points`] hands back; a file's number may be a NaN. `None` where there is no such point or
/// axis.
///
/// ```
/// use del_fem::mesh::{coordinate, points};
///
/// let file = std::fs::read("../meshes/files/two.vtk")?;
/// let block = points(&file)?;
/// assert_eq!([0, 1, 2].map(|axis| coordinate(block, 1, axis)), [Some(6.0), Some(0.0), Some(0.0)]);
/// assert_eq!(coordinate(block, 4, 0), None);
/// # Ok::<(), Box<dyn std::error::Error>>(())
/// ```
pub fn coordinate(points: &[u8], point: usize, axis: usize) -> Option<f64> {
    if point >= points.len() / 24 || axis >= 3 {
        return None;
    }
    // SAFETY: the pointer comes with its slice's own length.
    Some(unsafe { ffi::del_fem_mesh_coordinate(points.as_ptr(), points.len(), point, axis) })
}

/// The vertex that a triangle names at a corner (0, 1, 2), in the bytes that [`cells`] hands back. `None` where there is no such triangle or corner.
///
/// ```
/// use del_fem::mesh::{cells, name};
///
/// let file = std::fs::read("../meshes/files/two.vtk")?;
/// let block = cells(&file)?;
/// assert_eq!([0, 1, 2].map(|corner| name(block, 1, corner)), [Some(1), Some(3), Some(2)]);
/// assert_eq!(name(block, 2, 0), None);
/// # Ok::<(), Box<dyn std::error::Error>>(())
/// ```
pub fn name(cells: &[u8], triangle: usize, corner: usize) -> Option<usize> {
    // SAFETY: the pointer comes with its slice's own length.
    let name = unsafe { ffi::del_fem_mesh_name(cells.as_ptr(), cells.len(), triangle, corner) };
    (name != ffi::NO_NAME).then_some(name)
}
