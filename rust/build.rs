//! Links the proved archive `libdel_fem.a`, from the folder that DEL_FEM_LIB_DIR names or else from the repository's crates/del_fem/out. Says in words why it cannot.
use std::path::{Path, PathBuf};
use std::{env, process};

fn main() {
    println!("cargo:rerun-if-changed=build.rs");
    println!("cargo:rerun-if-env-changed=DEL_FEM_LIB_DIR");
    if let Err(words) = target().and_then(|()| link(&folder()?)) {
        eprintln!("del_fem: {words}");
        process::exit(1);
    }
}

/// The archive holds machine code for one target alone.
fn target() -> Result<(), String> {
    let of = |name: &str| env::var(name).unwrap_or_default();
    let (arch, os) = (of("CARGO_CFG_TARGET_ARCH"), of("CARGO_CFG_TARGET_OS"));
    if arch == "x86_64" && os == "linux" {
        return Ok(());
    }
    Err(format!(
        "the archive is for x86-64 Linux (x86_64, linux) and no other target; this target is {arch}, {os}"
    ))
}

/// Where the archive is looked for.
fn folder() -> Result<PathBuf, String> {
    match env::var_os("DEL_FEM_LIB_DIR").map(PathBuf::from) {
        Some(folder) if folder.is_absolute() => Ok(folder),
        Some(folder) => Err(format!(
            "DEL_FEM_LIB_DIR has to be an absolute path; it is \"{}\"",
            folder.display()
        )),
        None => {
            let here = env::var_os("CARGO_MANIFEST_DIR").ok_or("CARGO_MANIFEST_DIR is not set")?;
            Ok(Path::new(&here)
                .with_file_name("crates")
                .join("del_fem")
                .join("out"))
        }
    }
}

fn link(folder: &Path) -> Result<(), String> {
    let archive = folder.join("libdel_fem.a");
    let name = archive
        .to_str()
        .ok_or_else(|| format!("a path has to be UTF-8: {}", archive.display()))?;
    if !archive.is_file() {
        return Err(format!(
            "there is no archive {name}\n\
             \x20 To make it, run `rt lib` in the repository's crates/del_fem, which writes crates/del_fem/out/libdel_fem.a.\n\
             \x20 To take it from another folder, set DEL_FEM_LIB_DIR to that folder's absolute path."
        ));
    }
    println!("cargo:rerun-if-changed={name}");
    println!("cargo:rustc-link-search=native={}", folder.display());
    println!("cargo:rustc-link-lib=static=del_fem");
    Ok(())
}
