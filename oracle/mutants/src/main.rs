//! Builds the oracle with one slip at a time and asks whether the fixed sample
//! shows it. Works on copies below `target/`. Arguments: the kinds of the sample
//! that are looked at, `all` unless given, then parts of the names to try.

use std::path::{Path, PathBuf};
use std::process::{Command, Stdio};
use std::{env, fs};

const ORIGINALS: [&str; 3] = ["mitc_tri3.rs", "quadratic_bending.rs", "stvk_tri3.rs"];
const TREE: [&str; 7] = [
    ".cargo",
    "Cargo.toml",
    "del_geo_core",
    "del_fem_cpu",
    "mutants",
    "sha256",
    "src",
];
/// Sums of the originals, without which the oracle does not build.
const SUMS: &str = "del_fem_cpu/originals.sha256";

/// One slip: a name, a file and the substitutions in it.
struct Mutant {
    name: String,
    file: String,
    edits: Vec<Edit>,
}

/// Replaces the occurrence `which` of exactly `of`, or all of them for 0.
struct Edit {
    which: usize,
    of: usize,
    old: String,
    new: String,
}

fn main() {
    let mut arguments: Vec<String> = env::args().skip(1).collect();
    let kinds = match arguments.first() {
        Some(first) if first.starts_with(|c: char| c.is_ascii_digit()) => arguments.remove(0),
        _ => "all".to_string(),
    };
    let oracle = Path::new(env!("CARGO_MANIFEST_DIR")).parent().unwrap();
    let mutants = parsed(&fs::read_to_string(oracle.join("mutants/mutants.txt")).unwrap());
    let bench = Bench::new(oracle);
    let records = bench.run(&["sample", &kinds], &[]).expect("the sample");
    let expected = bench
        .run(&["answer"], &records)
        .expect("answers without a slip");
    let chosen = mutants.iter().filter(|mutant| {
        arguments.is_empty() || arguments.iter().any(|part| mutant.name.contains(part))
    });
    let (mut caught, mut missed) = (0, 0);
    for mutant in chosen {
        let verdict = bench.verdict(mutant, &records, &expected);
        println!("{verdict}: {}", mutant.name);
        if verdict == "missed" {
            missed += 1;
        } else {
            caught += 1;
        }
    }
    println!("{caught} caught, {missed} missed");
    std::process::exit(i32::from(missed > 0));
}

/// Blocks between blank lines: the name, the file, then for each substitution
/// `WHICH/OF`, the old text after `- ` and the new after `+ `.
fn parsed(text: &str) -> Vec<Mutant> {
    text.split("\n\n")
        .filter(|block| !block.trim_start().starts_with('#'))
        .map(mutant)
        .collect()
}

fn mutant(block: &str) -> Mutant {
    let lines: Vec<&str> = block.trim_matches('\n').lines().collect();
    assert!(
        lines.len() >= 5 && lines.len() % 3 == 2,
        "a block of wrong length:\n{block}"
    );
    let edits = lines[2..]
        .chunks(3)
        .map(|lines| edit(lines[0], lines[1], lines[2]))
        .collect();
    Mutant {
        name: lines[0].to_string(),
        file: lines[1].to_string(),
        edits,
    }
}

fn edit(place: &str, old: &str, new: &str) -> Edit {
    let (which, of) = place
        .split_once('/')
        .unwrap_or_else(|| panic!("no place: {place}"));
    let which = if which == "all" {
        0
    } else {
        which.parse().unwrap()
    };
    let text = |line: &str, sign: &str| {
        let text = line
            .strip_prefix(sign)
            .unwrap_or_else(|| panic!("no {sign}: {line}"));
        text.trim_start_matches(' ').replace("\\n", "\n")
    };
    Edit {
        which,
        of: of.parse().unwrap(),
        old: text(old, "-"),
        new: text(new, "+"),
    }
}

/// All edits are placed in the text as it was, so that two may change places.
fn edited(text: &str, mutant: &Mutant) -> String {
    let mut places: Vec<(usize, &Edit)> = Vec::new();
    for edit in &mutant.edits {
        let found: Vec<usize> = text.match_indices(&edit.old).map(|(at, _)| at).collect();
        let (name, old) = (&mutant.name, &edit.old);
        assert_eq!(
            found.len(),
            edit.of,
            "{name}: the count of `{old}` is another"
        );
        let chosen = (1..=edit.of).filter(|i| edit.which == 0 || edit.which == *i);
        places.extend(chosen.map(|i| (found[i - 1], edit)));
    }
    places.sort_by_key(|(at, _)| *at);
    let mut result = String::new();
    let mut done = 0;
    for (at, edit) in places {
        result += &text[done..at];
        result += &edit.new;
        done = at + edit.old.len();
    }
    result + &text[done..]
}

/// Copies of the oracle and of the originals, and where they are built.
struct Bench {
    tree: PathBuf,
    originals: PathBuf,
    build: PathBuf,
}

impl Bench {
    fn new(oracle: &Path) -> Bench {
        let folder = oracle.join("target/mutants");
        let bench = Bench {
            tree: folder.join("tree"),
            originals: folder.join("originals"),
            build: folder.join("build"),
        };
        let _ = fs::remove_dir_all(&bench.tree);
        for name in TREE {
            copy(&oracle.join(name), &bench.tree.join(name));
        }
        let source = env::var("DEL_FEM_SRC").expect("DEL_FEM_SRC names the originals' folder");
        for name in ORIGINALS {
            copy(&Path::new(&source).join(name), &bench.originals.join(name));
        }
        assert!(bench.built(), "the oracle does not build");
        bench
    }

    fn built(&self) -> bool {
        Command::new("cargo")
            .args(["build", "--quiet", "--offline", "-j1", "--bin", "oracle"])
            .current_dir(&self.tree)
            .env("CARGO_TARGET_DIR", &self.build)
            .env("CARGO_PROFILE_DEV_OPT_LEVEL", "0")
            .env("CARGO_PROFILE_DEV_DEBUG", "0")
            .env("DEL_FEM_SRC", &self.originals)
            .env("RUSTFLAGS", "-Awarnings")
            .status()
            .unwrap()
            .success()
    }

    /// What the oracle prints, or nothing where it stops.
    fn run(&self, arguments: &[&str], input: &[u8]) -> Option<Vec<u8>> {
        let input_file = self.build.join("input");
        fs::write(&input_file, input).unwrap();
        let output = Command::new(self.build.join("debug/oracle"))
            .args(arguments)
            .stdin(fs::File::open(&input_file).unwrap())
            .stderr(Stdio::null())
            .output()
            .unwrap();
        output.status.success().then_some(output.stdout)
    }

    /// Has the copy take an original with another text.
    fn sum_replaced(&self, old: &str, new: &str) {
        let file = self.tree.join(SUMS);
        let sums = fs::read_to_string(&file).unwrap();
        let [old, new] = [old, new].map(|text| sha256::sum(text.as_bytes()));
        fs::write(&file, sums.replace(&old, &new)).unwrap();
    }

    fn verdict(&self, mutant: &Mutant, records: &[u8], expected: &[u8]) -> String {
        let original = ORIGINALS.contains(&mutant.file.as_str());
        let folder = if original {
            &self.originals
        } else {
            &self.tree
        };
        let file = folder.join(&mutant.file);
        let text = fs::read_to_string(&file).unwrap_or_else(|e| panic!("{}: {e}", mutant.file));
        let slipped = edited(&text, mutant);
        if original {
            self.sum_replaced(&text, &slipped);
        }
        fs::write(&file, &slipped).unwrap();
        let built = self.built();
        if original {
            self.sum_replaced(&slipped, &text);
        }
        fs::write(&file, &text).unwrap();
        assert!(built, "{} does not build", mutant.name);
        match self.run(&["answer"], records) {
            None => "caught, it stops".to_string(),
            Some(lines) if lines == expected => "missed".to_string(),
            Some(lines) => format!("caught by {}", different(expected, &lines)),
        }
    }
}

fn different(expected: &[u8], actual: &[u8]) -> usize {
    let lines = |bytes| <[u8]>::split(bytes, |byte| *byte == b'\n');
    lines(expected)
        .zip(lines(actual))
        .filter(|(a, b)| a != b)
        .count()
}

fn copy(from: &Path, to: &Path) {
    if !from.is_dir() {
        fs::create_dir_all(to.parent().unwrap()).unwrap();
        let text = fs::read(from).unwrap_or_else(|e| panic!("{}: {e}", from.display()));
        return fs::write(to, text).unwrap();
    }
    for entry in fs::read_dir(from).unwrap() {
        let entry = entry.unwrap();
        copy(&entry.path(), &to.join(entry.file_name()));
    }
}
