//! The exported functions as `../include/del_fem.h` declares them. A slice crosses as its pointer and its length.

pub const BENDING_VALUES: usize = 39;
pub const STRAIN_VALUES: usize = 30;
pub const ENERGY_VALUES: usize = 91;
pub const LAME: u32 = 2;
pub const YOUNG: u32 = 3;
pub const NO_NAME: usize = 0xffff_ffff;
pub const WORDS: usize = 64;

extern "C" {
    pub fn del_fem_version() -> u32;
    pub fn del_fem_meaning(number: u32, words: *mut [u8; WORDS]) -> usize;
    pub fn del_fem_root_sqrt(x: f64) -> f64;
    pub fn del_fem_root_sqrt_word(w: u64) -> u64;
    pub fn del_fem_quadratic_bending_wdw(
        p_ini: *const [[f64; 3]; 4],
        p_def: *const [[f64; 3]; 4],
        values: *mut [f64; BENDING_VALUES],
    ) -> u32;
    pub fn del_fem_stvk_tri3_wdw(
        p_ini: *const [[f64; 2]; 3],
        p_def: *const [[f64; 3]; 3],
        values: *mut [f64; STRAIN_VALUES],
    ) -> u32;
    pub fn del_fem_stvk_tri3_wdw_green_lagrange(
        p_ini: *const [[f64; 2]; 3],
        p_def: *const [[f64; 3]; 3],
        values: *mut [f64; STRAIN_VALUES],
    ) -> u32;
    pub fn del_fem_stvk_tri3_wdwddw_(
        p0: *const [[f64; 3]; 3],
        p1: *const [[f64; 3]; 3],
        stiffness: u32,
        density: f64,
        thickness: f64,
        a: f64,
        b: f64,
        values: *mut [f64; ENERGY_VALUES],
    ) -> u32;
    pub fn del_fem_mitc_tri3_w_dw_ddw_plate_bending(
        p: *const [[f64; 2]; 3],
        u: *const [[f64; 3]; 3],
        stiffness: u32,
        density: f64,
        thickness: f64,
        a: f64,
        b: f64,
        values: *mut [f64; ENERGY_VALUES],
    ) -> u32;
    pub fn del_fem_mitc_tri3_mass_lumped_plate_bending(
        tri2vtx: *const usize,
        tri2vtx_len: usize,
        vtx2xy: *const f64,
        vtx2xy_len: usize,
        stiffness: u32,
        density: f64,
        thickness: f64,
        a: f64,
        b: f64,
        vtx2mass: *mut f64,
        vtx2mass_len: usize,
    ) -> u32;
    pub fn del_fem_skin_wdw(
        vtx2ini: *const f64,
        vtx2ini_len: usize,
        vtx2def: *const f64,
        vtx2def_len: usize,
        tri2vtx: *const usize,
        tri2vtx_len: usize,
        stiffness: u32,
        density: f64,
        thickness: f64,
        a: f64,
        b: f64,
        vtx2dw: *mut f64,
        vtx2dw_len: usize,
        place: *mut usize,
        w: *mut f64,
    ) -> u32;
    pub fn del_fem_mesh_read(
        file: *const u8,
        file_len: usize,
        n: *mut usize,
        m: *mut usize,
        place: *mut usize,
    ) -> u32;
    pub fn del_fem_mesh_points(
        file: *const u8,
        file_len: usize,
        place: *mut usize,
        length: *mut usize,
    ) -> u32;
    pub fn del_fem_mesh_cells(
        file: *const u8,
        file_len: usize,
        place: *mut usize,
        length: *mut usize,
    ) -> u32;
    pub fn del_fem_mesh_coordinate(
        points: *const u8,
        points_len: usize,
        point: usize,
        axis: usize,
    ) -> f64;
    pub fn del_fem_mesh_name(
        cells: *const u8,
        cells_len: usize,
        triangle: usize,
        corner: usize,
    ) -> usize;
}
