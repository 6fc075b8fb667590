use crate::ffi;

/// How stiff a material is: Lame's parameters as they are, or Young's modulus `e` with Poisson's ratio `v`, for which lambda is (e v) / ((1 + v)(1 - 2v)) and myu is
/// e / (2 (1 + v)), each operation rounded, in that order.
///
/// What looks at the stiffness refuses an `e` that is not above 0 and a `v` that is not strictly between -1 and 0.5 with [`BadStiffness`](crate::Refusal::BadStiffness);
/// Lame's parameters may be any finite numbers. A lambda or a myu that comes out infinite from `e` and `v` shows as a zero divisor or a bad answer.
#[derive(Debug, Clone, Copy, PartialEq)]
pub enum Stiffness {
    Lame { lambda: f64, myu: f64 },
    Young { e: f64, v: f64 },
}

impl Stiffness {
    /// As it crosses the border: the word that says which it is, and its two numbers.
    pub(crate) fn crossing(self) -> (u32, f64, f64) {
        match self {
            Self::Lame { lambda, myu } => (ffi::LAME, lambda, myu),
            Self::Young { e, v } => (ffi::YOUNG, e, v),
        }
    }
}

/// What a panel or a skin is made of. A routine looks only at what it uses, and whatever the rest is, a NaN too, it changes nothing:
///
/// | | density | thickness | stiffness |
/// |---|---|---|---|
/// | [`mitc_tri3::mass_lumped_plate_bending`](crate::mitc_tri3::mass_lumped_plate_bending) | yes | yes | |
/// | [`mitc_tri3::w_dw_ddw_plate_bending`](crate::mitc_tri3::w_dw_ddw_plate_bending) | | yes | yes |
/// | [`stvk_tri3::wdwddw_`](crate::stvk_tri3::wdwddw_), [`skin::wdw`](crate::skin::wdw) | | | yes |
///
/// ```
/// use del_fem::{stvk_tri3::wdwddw_, Material, Refusal, Stiffness};
///
/// let rest = [[0.0, 0.0, 0.0], [1.0, 0.0, 0.0], [0.0, 1.0, 0.0]];
/// let pulled = [[0.0, 0.0, 0.0], [2.0, 0.0, 0.0], [0.0, 1.0, 0.0]];
/// let energy = |material| wdwddw_(rest, pulled, material).map(|(w, _, _)| w);
///
/// // E 2.5 and v 0.25 are lambda 1 and myu 1: no operation rounds.
/// let (lame, young) = (Material::lame(1400.0, 0.5, 1.0, 1.0), Material::young(1400.0, 0.5, 2.5, 0.25));
/// assert_eq!(energy(lame)?, 1.6875);
/// assert_eq!(energy(young)?, 1.6875);
///
/// let nowhere = Material { density: f64::NAN, thickness: f64::NAN, ..young };
/// assert_eq!(energy(nowhere)?, 1.6875); // neither is looked at
///
/// let stiffness = Stiffness::Young { e: 2.5, v: 0.5 };
/// assert_eq!(energy(Material { stiffness, ..young }), Err(Refusal::BadStiffness));
/// # Ok::<(), Refusal>(())
/// ```
#[derive(Debug, Clone, Copy, PartialEq)]
pub struct Material {
    pub density: f64,
    pub thickness: f64,
    pub stiffness: Stiffness,
}

impl Material {
    /// The shop's stock sheet: density 1,400, thickness 2^-9, E 2^31, v 0.25.
    ///
    /// ```
    /// use del_fem::Material;
    ///
    /// let sheet = Material::young(1400.0, 1.0 / 512.0, 2_f64.powi(31), 0.25);
    /// assert_eq!(Material::STOCK_SHEET, sheet);
    /// ```
    pub const STOCK_SHEET: Self = Self::young(1400.0, 0.001953125, 2147483648.0, 0.25);

    /// One that is stiff by Lame's parameters.
    pub const fn lame(density: f64, thickness: f64, lambda: f64, myu: f64) -> Self {
        Self {
            density,
            thickness,
            stiffness: Stiffness::Lame { lambda, myu },
        }
    }

    /// One that is stiff by Young's modulus and Poisson's ratio.
    pub const fn young(density: f64, thickness: f64, e: f64, v: f64) -> Self {
        Self {
            density,
            thickness,
            stiffness: Stiffness::Young { e, v },
        }
    }
}
