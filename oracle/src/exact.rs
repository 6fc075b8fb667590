//! Answer lines for the family's sheets, judged by fractions; no number here is a double.

use crate::compare::Comparison;
use crate::family::LARGEST;
use crate::fraction::Fraction;
use crate::helpers::points;
use crate::record::{Malformed, Record, Records, GREEN_LAGRANGE};
use std::array::from_fn;

/// A sheet of the family.
#[derive(Clone)]
struct Sheet {
    sides: [i128; 2],
    deformed: [[i128; 3]; 3],
}

/// Stops at a record that is not of the family.
pub fn judge(records: &[u8], lines: &str) -> Result<Comparison, String> {
    let sheets = Records::of(records)
        .zip(1..)
        .map(|(record, place)| sheet(record, place))
        .collect::<Result<Vec<Sheet>, String>>()?;
    let pairs = sheets.iter().zip(lines.lines());
    let faults: Vec<Option<String>> = pairs.map(|(sheet, line)| sheet.fault(line)).collect();
    let place = |(record, fault): (usize, &Option<String>)| {
        let fault = fault.as_ref()?;
        Some(format!("record {}, {fault}", record + 1))
    };
    Ok(Comparison {
        lines: [sheets.len(), lines.lines().count()],
        compared: faults.len(),
        differ: faults.iter().flatten().count(),
        first: faults.iter().enumerate().find_map(place),
    })
}

fn sheet(record: Result<Record, Malformed>, place: u64) -> Result<Sheet, String> {
    let record = record.map_err(|Malformed| format!("record {place} is malformed"))?;
    Sheet::of(&record).ok_or_else(|| format!("record {place} is not of the family"))
}

impl Sheet {
    fn of(record: &Record) -> Option<Sheet> {
        if record.kind != GREEN_LAGRANGE {
            return None;
        }
        let whole = |word: &u64| Fraction::of_bits(*word)?.whole();
        let numbers: Vec<i128> = record.words.iter().map(whole).collect::<Option<_>>()?;
        let (rest, deformed) = numbers.split_at(6);
        let (a, b, largest) = (rest[2], rest[5], i128::from(LARGEST));
        let side = |x: i128| (1..=largest).contains(&x) && x.count_ones() == 1;
        let of_family = rest == [0, 0, a, 0, 0, b]
            && side(a)
            && side(b)
            && deformed.iter().all(|x| (-largest..=largest).contains(x));
        of_family.then(|| Sheet {
            sides: [a, b],
            deformed: points(deformed),
        })
    }

    /// Half of F^T F - I, the off-diagonal doubled; a column of F is a deformed edge
    /// over its side.
    fn strains(&self) -> [Fraction; 3] {
        let p = &self.deformed;
        let f: [[Fraction; 3]; 2] = from_fn(|edge| {
            from_fn(|axis| Fraction::new(p[edge + 1][axis] - p[0][axis], self.sides[edge]))
        });
        let entry = |i: usize, j: usize| {
            let products = (0..3).map(|axis| f[i][axis] * f[j][axis]);
            let minus_identity = Fraction::new(-i128::from(i == j), 1);
            products.fold(minus_identity, |sum, x| sum + x) * Fraction::new(1, 2)
        };
        [entry(0, 0), entry(1, 1), entry(0, 1) + entry(1, 0)]
    }

    /// By one coordinate of a deformed corner. No strain has a power above the second, so
    /// half the difference of its values one step either side is the derivative itself.
    fn derivatives(&self, corner: usize, axis: usize) -> [Fraction; 3] {
        let [above, below] = [1, -1].map(|step| {
            let mut moved = self.clone();
            moved.deformed[corner][axis] += step;
            moved.strains()
        });
        from_fn(|k| (above[k] - below[k]) * Fraction::new(1, 2))
    }

    /// The strains, then the derivatives of each by corner and axis.
    fn values(&self) -> Vec<Fraction> {
        let places = (0..9).map(|place| self.derivatives(place / 3, place % 3));
        let derivatives: Vec<[Fraction; 3]> = places.collect();
        let of_strain = |k: usize| derivatives.iter().map(move |by_place| by_place[k]);
        let derivatives = (0..3).flat_map(of_strain);
        self.strains().into_iter().chain(derivatives).collect()
    }

    /// The first word that is not as it has to be.
    fn fault(&self, line: &str) -> Option<String> {
        let mut words = line.split(' ');
        let number = words.next().unwrap_or_default();
        if bits(number) != Some(0) {
            return Some(format!("word 0: expected 0, got {number}"));
        }
        for (value, place) in self.values().into_iter().zip(1..) {
            let word = words.next().unwrap_or("nothing");
            if bits(word).and_then(Fraction::of_bits) != Some(value) {
                return Some(format!("word {place}: expected {value}, got {word}"));
            }
        }
        let more = words.next()?;
        Some(format!("expected no more words, got {more}"))
    }
}

/// Of a word in 16 lower-case hexadecimal digits.
fn bits(word: &str) -> Option<u64> {
    let digit = |byte: u8| matches!(byte, b'0'..=b'9' | b'a'..=b'f');
    let right = word.len() == 16 && word.bytes().all(digit);
    right.then(|| u64::from_str_radix(word, 16).ok())?
}
