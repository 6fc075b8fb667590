//! The book's strain: against the ported one, and against exact fractions.

use crate::answer::answer;
use crate::exact::judge;
use crate::family;
use crate::fraction::Fraction;
use crate::kernels;
use crate::random::Random;
use crate::record::{numbers_of, words_of, Record, GREEN_LAGRANGE, KINDS, STRAIN};
use crate::{generated, sample};
use std::collections::HashSet;

/// Rest corners (0,0), (a,0), (0,b), and deformed corners.
fn sheet(a: f64, b: f64, deformed: [f64; 9]) -> Vec<f64> {
    [vec![0.0, 0.0, a, 0.0, 0.0, b], deformed.to_vec()].concat()
}

/// The number and the strains.
fn strains(kind: u64, inputs: &[f64]) -> (u64, [f64; 3]) {
    let answer = kernels::answer(kind, inputs);
    assert_eq!(answer.values.len(), 30);
    (answer.number, [0, 1, 2].map(|i| answer.values[i]))
}

#[test]
fn twice_as_long_is_one_and_a_half() {
    let twice = [0.0, 0.0, 0.0, 4.0, 0.0, 0.0, 0.0, 1.0, 0.0];
    let inputs = sheet(2.0, 1.0, twice);
    assert_eq!(strains(GREEN_LAGRANGE, &inputs), (0, [1.5, 0.0, 0.0]));
    assert_eq!(strains(STRAIN, &inputs), (0, [6.0, 0.0, 0.0]));
    let record = Record::of_numbers(GREEN_LAGRANGE, &inputs);
    assert!(sample(GREEN_LAGRANGE).contains(&record));
}

/// Right angles and a rhombus, each in its four turns.
#[test]
fn the_ported_strain_where_both_heights_are_one() {
    let shapes = [
        [[1.0, 0.0], [0.0, 1.0]],
        [[0.0, 1.0], [1.0, 0.0]],
        [[1.25, 0.0], [0.75, 1.0]],
        [[0.75, 1.0], [1.25, 0.0]],
    ];
    let mut random = Random::of(3);
    for shape in shapes {
        for [cos, sin] in [[1.0, 0.0], [0.0, 1.0], [-1.0, 0.0], [0.0, -1.0]] {
            let turned = shape.map(|[x, y]| [x * cos - y * sin, x * sin + y * cos]);
            for _ in 0..50 {
                let rest = [[0.0; 2], turned[0], turned[1]].concat();
                let deformed = &generated(STRAIN, &mut random).words[6..];
                let words = [&words_of(&rest), deformed].concat();
                let [ported, book] = [STRAIN, GREEN_LAGRANGE].map(|kind| {
                    let words = words.clone();
                    answer(&Record { kind, words }).line()
                });
                assert_eq!(ported, book, "{rest:?}");
            }
        }
    }
}

/// The family's ends, members of all pairs of sides, and what the oracle answers.
fn members() -> (Vec<u8>, String) {
    let mut bytes = Vec::new();
    let mut lines = String::new();
    for record in family::records(242, &mut Random::of(5)) {
        record.write(&mut bytes).unwrap();
        lines += &answer(&record).line();
        lines += "\n";
    }
    (bytes, lines)
}

#[test]
fn members_of_the_family_are_exact() {
    let (records, lines) = members();
    let result = judge(&records, &lines).unwrap();
    assert_eq!(result.lines, [2048 + 242; 2]);
    assert_eq!((result.compared, result.differ), (2048 + 242, 0));
    assert_eq!(result.first, None);
}

#[test]
fn the_family_has_its_corners_and_all_pairs_of_sides() {
    let records = family::records(121, &mut Random::of(1));
    let inputs: Vec<Vec<f64>> = records.iter().map(|r| numbers_of(&r.words)).collect();
    let (corners, drawn) = inputs.split_at(2048);
    let different = |lists: &[Vec<f64>]| {
        let texts = lists.iter().map(|list| format!("{list:?}"));
        texts.collect::<HashSet<String>>().len()
    };
    assert_eq!(different(corners), 2048);
    for x in corners {
        assert!(x[6..].iter().all(|x| x.abs() == 1024.0));
        assert!([x[2], x[5]].iter().all(|side| [1.0, 1024.0].contains(side)));
    }
    let sides: Vec<Vec<f64>> = drawn.iter().map(|x| vec![x[2], x[5]]).collect();
    assert_eq!((drawn.len(), different(&sides)), (121, 121));
}

/// One record and the words of its answer.
fn member() -> (Vec<u8>, Vec<u64>) {
    let (records, lines) = members();
    let line = lines.lines().last().unwrap();
    let words = line.split(' ').map(|word| u64::from_str_radix(word, 16));
    let words = words.collect::<Result<_, _>>().unwrap();
    (records[records.len() - 128..].to_vec(), words)
}

fn line(words: &[u64]) -> String {
    let words: Vec<String> = words.iter().map(|word| format!("{word:016x}")).collect();
    words.join(" ")
}

#[test]
fn a_wrong_last_bit_is_found() {
    let (record, words) = member();
    assert_eq!(judge(&record, &line(&words)).unwrap().differ, 0);
    for place in 0..31 {
        for bit in [0, 52, 63] {
            let mut wrong = words.clone();
            wrong[place] ^= 1 << bit;
            let zero_turned = place > 0 && words[place] << 1 == 0 && bit == 63;
            let result = judge(&record, &line(&wrong)).unwrap();
            assert_eq!(result.differ, usize::from(!zero_turned), "{place}, {bit}");
            let named = result.first.unwrap_or_default();
            let start = format!("record 1, word {place}: expected ");
            assert_eq!(named.starts_with(&start), !zero_turned, "{named}");
        }
    }
}

#[test]
fn a_line_of_another_form_is_found() {
    let (record, words) = member();
    let right = line(&words);
    let wrong = [
        line(&words[..30]),
        format!("{right} {:016x}", 0),
        format!("{right} "),
        right.replace(' ', "  "),
        right.to_uppercase(),
        right.replacen("0000", "+000", 1),
        right[1..].to_string(),
        "?".to_string(),
        "\n".to_string(),
    ];
    for wrong in wrong {
        let result = judge(&record, &wrong).unwrap();
        assert_eq!((result.compared, result.differ), (1, 1), "{wrong}");
    }
    assert_eq!(judge(&record, "").unwrap().lines, [1, 0]);
    let two = format!("{right}\n{right}\n");
    assert_eq!(judge(&record, &two).unwrap().lines, [1, 2]);
}

#[test]
fn other_sheets_are_refused() {
    let (record, words) = member();
    let refused = |record: &[u8]| judge(record, &line(&words)).is_err();
    assert!(!refused(&record));
    assert!(refused(&record[..127]));
    for place in 0..15 {
        let others: &[f64] = match place {
            0 | 1 | 3 | 4 => &[1.0, -1.0, f64::from_bits(1)],
            2 | 5 => &[0.0, -1.0, 0.5, 3.0, 2048.0, f64::NAN],
            _ => &[0.5, 1025.0, -1025.0, f64::INFINITY],
        };
        for x in others {
            let mut other = record.clone();
            other[8 + 8 * place..][..8].copy_from_slice(&x.to_be_bytes());
            assert!(refused(&other), "{place}: {x}");
        }
    }
    for kind in KINDS {
        let mut other = Vec::new();
        sample(kind)[0].write(&mut other).unwrap();
        assert!(refused(&other), "kind {kind}");
    }
}

#[test]
fn fractions_of_doubles() {
    let of = |x: f64| Fraction::of_bits(x.to_bits()).map(|x| x.to_string());
    let some = |text: &str| Some(text.to_string());
    assert_eq!(of(0.0), some("0"));
    assert_eq!(of(-0.0), some("0"));
    assert_eq!(of(-1.5), some("-3/2"));
    assert_eq!(of(1024.0), some("1024"));
    assert_eq!(of(0.1), some("3602879701896397/36028797018963968"));
    assert_eq!(of(2f64.powi(126)), None);
    assert_eq!(of(f64::NAN), None);
    assert_eq!(of(f64::from_bits(1)), None);
}
