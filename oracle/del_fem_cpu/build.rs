//! Names the original files, which stay where the environment says they are, and holds each against its sum.

use std::path::Path;
use std::{env, fs, process};

/// The sums of the originals, as `sha256sum` prints and checks them.
const SUMS: &str = "originals.sha256";

fn main() {
    println!("cargo:rerun-if-changed=build.rs");
    println!("cargo:rerun-if-changed={SUMS}");
    println!("cargo:rerun-if-env-changed=DEL_FEM_SRC");
    if let Err(words) = modules().and_then(written) {
        eprintln!("oracle: {words}");
        process::exit(1);
    }
}

fn written(modules: String) -> Result<(), String> {
    let out = env::var("OUT_DIR").map_err(|e| format!("OUT_DIR: {e}"))?;
    let file = Path::new(&out).join("originals.rs");
    fs::write(&file, modules).map_err(|e| format!("{}: {e}", file.display()))
}

/// The text that names each original as a module, or what is wrong with each that is not as it has to be.
fn modules() -> Result<String, String> {
    let folder = env::var("DEL_FEM_SRC")
        .map_err(|_| "set DEL_FEM_SRC to the folder del-fem-cpu/src of del-fem")?;
    let folder = Path::new(&folder);
    if !folder.is_absolute() {
        return Err("DEL_FEM_SRC has to be an absolute path".to_string());
    }
    let sums = fs::read_to_string(SUMS).map_err(|e| format!("{SUMS}: {e}"))?;
    let (mut modules, mut wrong) = (String::new(), Vec::new());
    for line in sums.lines() {
        match module(folder, line) {
            Ok(text) => modules += &text,
            Err(words) => wrong.push(words),
        }
    }
    if wrong.is_empty() {
        Ok(modules)
    } else {
        Err(wrong.join("\noracle: "))
    }
}

fn module(folder: &Path, line: &str) -> Result<String, String> {
    let (want, name) = line
        .split_once("  ")
        .ok_or_else(|| format!("{SUMS}: no sum and name: {line}"))?;
    let file = folder.join(name);
    let shown = file.display();
    println!("cargo:rerun-if-changed={shown}");
    let bytes = fs::read(&file).map_err(|e| format!("DEL_FEM_SRC: {shown}: {e}"))?;
    let found = sha256::sum(&bytes);
    if found != want {
        return Err(format!(
            "DEL_FEM_SRC: {shown} differs from the file that the stored answers were made with, {name} of nobuyuki83/del-fem, commit 0412b8702e\n  \
             its sha256 is {found}\n  it has to be  {want}"
        ));
    }
    let module = name.trim_end_matches(".rs");
    Ok(format!(
        "#[path = {:?}]\npub mod {module};\n",
        shown.to_string()
    ))
}
