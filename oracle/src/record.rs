//! Records of big-endian words: a kind, then the inputs of its routine.

use crate::material::{self, Material};
use std::io::{self, Write};

pub const ROOT: u64 = 1;
pub const BENDING: u64 = 2;
pub const STRAIN: u64 = 3;
pub const STVK: u64 = 4;
pub const PLATE: u64 = 5;
pub const MASSES: u64 = 6;
pub const SKIN: u64 = 7;
pub const GREEN_LAGRANGE: u64 = 8;
pub const HELPER: u64 = 9;

pub const KINDS: [u64; 9] = [
    ROOT,
    BENDING,
    STRAIN,
    STVK,
    PLATE,
    MASSES,
    SKIN,
    GREEN_LAGRANGE,
    HELPER,
];

/// Input words of the helpers, the first entry for helper 1.
pub const HELPER_INPUTS: [usize; 11] = [6, 6, 6, 4, 3, 3, 6, 9, 9, 6, 9];

/// Words of corners before the material.
pub const STVK_CORNERS: usize = 18;
pub const PLATE_CORNERS: usize = 15;

/// Lengths before the material of masses, N, T, B, and before that of a skin, N, M, T, B.
pub const MASSES_LENGTHS: usize = 3;
pub const SKIN_LENGTHS: usize = 4;

const LONGEST_LIST: u64 = 4096;

/// A kind and every word after it; a helper's first word is its name.
#[derive(Clone, Debug, PartialEq)]
pub struct Record {
    pub kind: u64,
    pub words: Vec<u64>,
}

impl Record {
    pub fn of_numbers(kind: u64, numbers: &[f64]) -> Record {
        Record {
            kind,
            words: words_of(numbers),
        }
    }

    /// Corners, then a material.
    pub fn of_corners(kind: u64, corners: &[f64], material: &Material) -> Record {
        let words = [&words_of(corners)[..], &material.words()].concat();
        Record { kind, words }
    }

    pub fn of_helper(helper: usize, numbers: &[f64]) -> Record {
        let words = [vec![helper as u64], words_of(numbers)].concat();
        Record {
            kind: HELPER,
            words,
        }
    }

    pub fn write(&self, out: &mut impl Write) -> io::Result<()> {
        out.write_all(&self.kind.to_be_bytes())?;
        self.words
            .iter()
            .try_for_each(|word| out.write_all(&word.to_be_bytes()))
    }
}

pub fn words_of(numbers: &[f64]) -> Vec<u64> {
    numbers.iter().map(|x| x.to_bits()).collect()
}

pub fn numbers_of(words: &[u64]) -> Vec<f64> {
    words.iter().map(|word| f64::from_bits(*word)).collect()
}

/// Cut short, of an unknown kind, helper or stiffness, or with a list that is too long.
#[derive(Debug, PartialEq)]
pub struct Malformed;

pub struct Records<'a> {
    rest: &'a [u8],
}

impl<'a> Records<'a> {
    pub fn of(bytes: &'a [u8]) -> Records<'a> {
        Records { rest: bytes }
    }

    fn word(&mut self) -> Option<u64> {
        let (word, rest) = self.rest.split_first_chunk()?;
        self.rest = rest;
        Some(u64::from_be_bytes(*word))
    }

    fn words(&mut self, count: usize) -> Option<Vec<u64>> {
        (0..count).map(|_| self.word()).collect()
    }

    fn record(&mut self) -> Option<Record> {
        let kind = self.word()?;
        let words = match kind {
            ROOT => self.words(1),
            BENDING => self.words(24),
            STRAIN | GREEN_LAGRANGE => self.words(15),
            STVK => self.before_material(STVK_CORNERS),
            PLATE => self.before_material(PLATE_CORNERS),
            MASSES => self.lists(MASSES_LENGTHS),
            SKIN => self.lists(SKIN_LENGTHS),
            HELPER => self.helper(),
            _ => None,
        }?;
        Some(Record { kind, words })
    }

    /// So many words, then a material.
    fn before_material(&mut self, count: usize) -> Option<Vec<u64>> {
        let words = self.words(count + material::WORDS)?;
        Material::of(&words[count..])?;
        Some(words)
    }

    /// The lists' lengths, a material, then the lists.
    fn lists(&mut self, lengths: usize) -> Option<Vec<u64>> {
        let head = self.before_material(lengths)?;
        let lengths = &head[..lengths];
        if lengths.iter().any(|length| *length > LONGEST_LIST) {
            return None;
        }
        let lists = self.words(lengths.iter().sum::<u64>() as usize)?;
        Some([head, lists].concat())
    }

    fn helper(&mut self) -> Option<Vec<u64>> {
        let helper = self.word()?;
        let place = usize::try_from(helper.checked_sub(1)?).ok()?;
        let inputs = self.words(*HELPER_INPUTS.get(place)?)?;
        Some([vec![helper], inputs].concat())
    }
}

impl Iterator for Records<'_> {
    type Item = Result<Record, Malformed>;

    fn next(&mut self) -> Option<Self::Item> {
        if self.rest.is_empty() {
            return None;
        }
        Some(self.record().ok_or(Malformed))
    }
}
