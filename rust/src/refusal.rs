use crate::ffi;
use std::fmt;

/// Why a routine gives no numbers. Where several reasons hold, the first in the order 1, 2, 3, 7, 6, 4, 5 is given; of a skin's triangles the first that is refused
/// gives its own.
///
/// ```
/// use del_fem::{mitc_tri3, Material, Refusal};
///
/// let (four_names, sheet) = ([0, 1, 2, 1], Material::STOCK_SHEET);
/// let answer = mitc_tri3::mass_lumped_plate_bending(&four_names, &[], sheet, &mut []);
/// let refusal = answer.unwrap_err();
/// assert_eq!(refusal, Refusal::BadLength);
/// assert_eq!(refusal.number(), 1);
/// assert_eq!(refusal.to_string(), "refused (1): a length or a limit is wrong");
/// ```
#[derive(Clone, Copy, Debug, PartialEq, Eq, Hash)]
#[non_exhaustive]
pub enum Refusal {
    /// 1: a length or a limit is wrong.
    BadLength,
    /// 2: a triangle names a vertex that does not exist.
    BadName,
    /// 3: a number that the routine reads is a NaN or an infinity.
    BadInput,
    /// 7: a stiffness is none that a sheet can have.
    BadStiffness,
    /// 6: a triangle turns right: its corners run clockwise. Exchange two of its three names, or two of a plate's corners together with their displacements.
    Turned,
    /// 4: a divisor is zero, of either sign.
    ZeroDivisor,
    /// 5: the finished answer has a NaN or an infinity in it.
    BadAnswer,
    /// 8: a mesh file is not as it has to be.
    BadFile,
    /// Any other number, which only a newer archive than this crate's returns; its words are the archive's own. What a lent buffer then holds is not known.
    Unknown(u32),
}

impl Refusal {
    /// Its number in the scope; of [`Refusal::Unknown`] the one that the archive returned.
    pub fn number(self) -> u32 {
        match self {
            Self::BadLength => 1,
            Self::BadName => 2,
            Self::BadInput => 3,
            Self::BadStiffness => 7,
            Self::Turned => 6,
            Self::ZeroDivisor => 4,
            Self::BadAnswer => 5,
            Self::BadFile => 8,
            Self::Unknown(number) => number,
        }
    }

    /// What the returned number says.
    pub(crate) fn of(number: u32) -> Result<(), Self> {
        match number {
            0 => Ok(()),
            1 => Err(Self::BadLength),
            2 => Err(Self::BadName),
            3 => Err(Self::BadInput),
            7 => Err(Self::BadStiffness),
            6 => Err(Self::Turned),
            4 => Err(Self::ZeroDivisor),
            5 => Err(Self::BadAnswer),
            8 => Err(Self::BadFile),
            _ => Err(Self::Unknown(number)),
        }
    }
}

impl fmt::Display for Refusal {
    fn fmt(&self, f: &mut fmt::Formatter) -> fmt::Result {
        let mut words = [0; ffi::WORDS];
        // SAFETY: the array is a local of the declared length.
        let length = unsafe { ffi::del_fem_meaning(self.number(), &mut words) };
        let words = String::from_utf8_lossy(&words[..length.min(ffi::WORDS)]);
        write!(f, "refused ({}): {words}", self.number())
    }
}

impl std::error::Error for Refusal {}

#[cfg(test)]
mod tests {
    use super::Refusal;

    const LISTED: [u32; 8] = [1, 2, 3, 7, 6, 4, 5, 8];

    #[test]
    fn every_number_but_0_is_a_refusal_that_says_it() {
        assert_eq!(Refusal::of(0), Ok(()));
        for number in (1..1000).chain([u32::MAX - 1, u32::MAX]) {
            let refusal = Refusal::of(number).expect_err("a refusal");
            assert_eq!(refusal.number(), number);
            let start = format!("refused ({number}): ");
            assert!(refusal.to_string().starts_with(&start), "{refusal}");
            let unknown = refusal == Refusal::Unknown(number);
            assert_eq!(unknown, !LISTED.contains(&number), "{refusal:?}");
        }
    }
}
