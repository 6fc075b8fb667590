//! Expected answers of the port: makes records, answers them, compares lines.

mod answer;
mod compare;
mod exact;
mod family;
mod fraction;
mod green_lagrange;
mod helper_cases;
mod helpers;
mod kernel_cases;
mod kernel_samples;
mod kernels;
mod limits;
mod mass_cases;
mod mass_samples;
mod masses;
mod material;
mod material_cases;
mod material_samples;
#[cfg(test)]
mod material_tests;
mod numbers;
mod random;
mod record;
mod root;
mod roots;
mod sheet;
mod skin;
mod skin_cases;
mod skin_samples;
mod strain_samples;
#[cfg(test)]
mod strain_tests;
#[cfg(test)]
mod tests;
mod traced;
mod turn;
mod turn_cases;
mod turn_samples;
#[cfg(test)]
mod turn_tests;

use random::Random;
use record::Record;
use std::io::{self, BufWriter, Read, Write};
use std::process::ExitCode;

const USAGE: &str = "usage:
  oracle sample KINDS                 the fixed sample of these kinds, and a record cut short
  oracle generate KINDS COUNT SEED    COUNT fresh records of each kind
  oracle answer                       records in, answer lines out
  oracle compare EXPECTED ACTUAL      two files of answer lines
  oracle family COUNT SEED            sheets whose strain by the book is exact: the corners, and COUNT drawn ones
  oracle exact RECORDS LINES          answer lines for such sheets, judged by fractions
  oracle runs KINDS COUNT             runs of COUNT calls for `speed`, kinds 2 to 5 on the original files'
                                      own test inputs, 8 on that of 3, 1 on 2, 9 for calls of nothing
  oracle panel TRIANGLES COUNT        a run of COUNT calls of masses on a grid of so many triangles
  oracle panel TRIANGLES COUNT nan    the same with a vertex that is not named and has no finite number
  oracle skin TRIANGLES COUNT         a run of COUNT calls of a whole skin on a grid of so many triangles
  oracle limits                       the lines of `limits`
  oracle sheet                        the lines of `panel`
KINDS is a list such as 1,9 or the word all.";

fn main() -> ExitCode {
    let arguments: Vec<String> = std::env::args().skip(1).collect();
    let arguments: Vec<&str> = arguments.iter().map(String::as_str).collect();
    match run(&arguments) {
        Ok(code) => code,
        Err(message) => {
            eprintln!("{message}");
            ExitCode::from(2)
        }
    }
}

fn run(arguments: &[&str]) -> Result<ExitCode, String> {
    match arguments {
        ["sample", kinds] => {
            let records = parsed_kinds(kinds)?.into_iter().flat_map(sample).collect();
            write_records(records, &cut_short())
        }
        ["generate", kinds, count, seed] => {
            let count = parsed(count)?;
            let mut random = Random::of(parsed(seed)?);
            let kinds = parsed_kinds(kinds)?;
            let kinds = kinds
                .into_iter()
                .flat_map(|kind| (0..count).map(move |_| kind));
            write_records(
                kinds.map(|kind| generated(kind, &mut random)).collect(),
                &[],
            )
        }
        ["answer"] => answer_lines(),
        ["runs", kinds, count] => {
            let count = parsed(count)?;
            let kinds = parsed_kinds(kinds)?;
            let runs = kinds.into_iter().map(|kind| run_of(kind, count));
            write_records(runs.collect(), &[])
        }
        ["panel", triangles, count] => {
            let run = mass_cases::run_of(parsed(triangles)?, parsed(count)?, &[]);
            write_records(vec![run], &[])
        }
        ["panel", triangles, count, "nan"] => {
            let run = mass_cases::run_of(parsed(triangles)?, parsed(count)?, &[f64::NAN; 2]);
            write_records(vec![run], &[])
        }
        ["skin", triangles, count] => {
            let run = skin_cases::run_of(parsed(triangles)?, parsed(count)?);
            write_records(vec![run], &[])
        }
        ["limits"] => {
            print!("{}", limits::lines());
            Ok(ExitCode::SUCCESS)
        }
        ["sheet"] => {
            print!("{}", sheet::lines());
            Ok(ExitCode::SUCCESS)
        }
        ["family", count, seed] => {
            let mut random = Random::of(parsed(seed)?);
            write_records(family::records(parsed(count)?, &mut random), &[])
        }
        ["compare", expected, actual] => {
            let result = compare::compare(&text(expected)?, &text(actual)?);
            Ok(report(&result, "compared"))
        }
        ["exact", records, lines] => {
            let result = exact::judge(&bytes(records)?, &text(lines)?)?;
            Ok(report(&result, "judged"))
        }
        _ => Err(USAGE.to_string()),
    }
}

fn parsed(text: &str) -> Result<u64, String> {
    text.parse()
        .map_err(|_| format!("{text} is no whole number"))
}

fn parsed_kinds(text: &str) -> Result<Vec<u64>, String> {
    if text == "all" {
        return Ok(record::KINDS.to_vec());
    }
    let kinds: Vec<u64> = text.split(',').map(parsed).collect::<Result<_, _>>()?;
    match kinds.iter().find(|kind| !record::KINDS.contains(kind)) {
        Some(kind) => Err(format!("{kind} is no kind of record")),
        None => Ok(kinds),
    }
}

fn sample(kind: u64) -> Vec<Record> {
    match kind {
        record::ROOT => roots::sample(),
        record::HELPER => helper_cases::sample(),
        record::MASSES => mass_samples::sample(),
        record::SKIN => skin_samples::sample(),
        kernel => kernel_samples::sample(kernel),
    }
}

fn generated(kind: u64, random: &mut Random) -> Record {
    match kind {
        record::ROOT => roots::generated(random),
        record::HELPER => helper_cases::generated(random),
        record::MASSES => mass_cases::generated(random),
        record::SKIN => skin_cases::generated(random),
        kernel => kernel_cases::generated(kernel, random),
    }
}

/// The routine's number, how many calls, and 24 words, the inputs first. A
/// kind that `speed` does not know stands for calls of nothing.
fn run_of(kind: u64, count: u64) -> Record {
    let mut inputs = match kind {
        record::ROOT => record::words_of(&[2.0]),
        record::MASSES | record::SKIN | record::HELPER => Vec::new(),
        kernel => {
            let layout = kernel_cases::layout(kernel);
            let original = kernel_samples::original(kernel);
            layout.record(&original, [1.7, 0.3]).words
        }
    };
    inputs.resize(24, 0);
    let words = [vec![count], inputs].concat();
    Record { kind, words }
}

/// The sample's end: a root without its last byte, which is answered by `?`.
fn cut_short() -> Vec<u8> {
    let mut bytes = Vec::new();
    let root = Record::of_numbers(record::ROOT, &[4.0]);
    root.write(&mut bytes).expect("a list takes every byte");
    bytes.pop();
    bytes
}

fn write_records(records: Vec<Record>, end: &[u8]) -> Result<ExitCode, String> {
    let mut out = BufWriter::new(io::stdout().lock());
    records
        .iter()
        .try_for_each(|record| record.write(&mut out))
        .and_then(|()| out.write_all(end))
        .map_err(|e| e.to_string())?;
    out.flush().map_err(|e| e.to_string())?;
    Ok(ExitCode::SUCCESS)
}

fn answer_lines() -> Result<ExitCode, String> {
    let mut bytes = Vec::new();
    io::stdin()
        .lock()
        .read_to_end(&mut bytes)
        .map_err(|e| e.to_string())?;
    let mut out = BufWriter::new(io::stdout().lock());
    answer::write_lines(&bytes, &mut out).map_err(|e| e.to_string())?;
    out.flush().map_err(|e| e.to_string())?;
    Ok(ExitCode::SUCCESS)
}

fn bytes(file: &str) -> Result<Vec<u8>, String> {
    std::fs::read(file).map_err(|e| format!("{file}: {e}"))
}

fn text(file: &str) -> Result<String, String> {
    std::fs::read_to_string(file).map_err(|e| format!("{file}: {e}"))
}

fn report(result: &compare::Comparison, done: &str) -> ExitCode {
    if let Some(first) = &result.first {
        println!("{first}");
    }
    let [lines, others] = result.lines;
    if lines != others {
        println!("{lines} lines expected, {others} lines there");
    }
    println!("{} {done}, {} differ", result.compared, result.differ);
    if result.differ == 0 && lines == others {
        ExitCode::SUCCESS
    } else {
        ExitCode::FAILURE
    }
}
