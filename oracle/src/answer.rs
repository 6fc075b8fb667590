//! What each record has to be answered with.

use crate::record::{self, numbers_of, Malformed, Record, Records};
use crate::root::{root, NAN_WORD};
use crate::{helpers, kernels, masses, skin};
use std::fmt::Write as _;
use std::io::{self, Write};

/// A refusal number, 0 for none; for a skin the place that goes with it; and
/// the values or the buffer on return.
#[derive(Clone, Debug)]
pub struct Answer {
    pub number: u64,
    pub place: Option<u64>,
    pub values: Vec<f64>,
}

impl Answer {
    pub fn of(number: u64, values: Vec<f64>) -> Answer {
        let place = None;
        Answer {
            number,
            place,
            values,
        }
    }

    pub fn line(&self) -> String {
        let mut line = format!("{:016x}", self.number);
        let values = self.values.iter().map(|value| word(*value));
        for word in self.place.into_iter().chain(values) {
            write!(line, " {word:016x}").unwrap();
        }
        line
    }
}

/// The bits of a number, one pattern for all NaNs.
pub fn word(x: f64) -> u64 {
    if x.is_nan() {
        NAN_WORD
    } else {
        x.to_bits()
    }
}

pub fn answer(record: &Record) -> Answer {
    match record.kind {
        record::ROOT => Answer::of(0, vec![root(f64::from_bits(record.words[0]))]),
        record::HELPER => Answer::of(
            0,
            helpers::values(record.words[0], &numbers_of(&record.words[1..])),
        ),
        record::MASSES => masses::answer(&record.words),
        record::SKIN => skin::answer(&record.words),
        _ => kernels::of_record(record),
    }
}

/// One line for each record; `?` and nothing more from a malformed one on.
pub fn write_lines(bytes: &[u8], out: &mut impl Write) -> io::Result<()> {
    for record in Records::of(bytes) {
        match record {
            Ok(record) => writeln!(out, "{}", answer(&record).line())?,
            Err(Malformed) => return writeln!(out, "?"),
        }
    }
    Ok(())
}
