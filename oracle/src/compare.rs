//! Comparison of two files of answer lines.

/// How many lines there should be and how many there are, how many were looked at,
/// how many of those differ, and the first place.
pub struct Comparison {
    pub lines: [usize; 2],
    pub compared: usize,
    pub differ: usize,
    pub first: Option<String>,
}

pub fn compare(expected: &str, actual: &str) -> Comparison {
    let pairs: Vec<_> = expected.lines().zip(actual.lines()).enumerate().collect();
    let different: Vec<_> = pairs.iter().filter(|(_, (e, a))| e != a).collect();
    Comparison {
        lines: [expected.lines().count(), actual.lines().count()],
        compared: pairs.len(),
        differ: different.len(),
        first: different.first().map(|(i, (e, a))| place(i + 1, e, a)),
    }
}

fn place(record: usize, expected: &str, actual: &str) -> String {
    let same = expected
        .split(' ')
        .zip(actual.split(' '))
        .take_while(|(e, a)| e == a)
        .count();
    let word = |line: &str| line.split(' ').nth(same).unwrap_or("nothing").to_string();
    format!(
        "record {record}, word {same}: expected {}, got {}",
        word(expected),
        word(actual)
    )
}
