//! Proves and builds `librimjhodek.a` with `rt lib` in `crates/rimjhodek`, and links it.

use std::path::{Path, PathBuf};
use std::process::Command;
use std::{env, fs, io};

/// What the archive is built for.
const TARGET: &str = "x86_64-unknown-linux-gnu";

/// Names a folder that holds a `librimjhodek.a`, in place of building one.
const BUILT: &str = "RIMJHODEK_LIB";

fn main() {
    println!("cargo::rerun-if-changed=build.rs");
    println!("cargo::rerun-if-env-changed={BUILT}");
    println!("cargo::rustc-link-lib=static=rimjhodek");
    let target = env::var("TARGET").unwrap();
    if target != TARGET {
        // The crate can still be checked for any target; it is only not linked.
        println!(
            "cargo::warning=librimjhodek.a is for {TARGET} and cannot be linked for {target}; \
             on Arm Linux, bindings/test builds for x86-64 and runs under an emulator"
        );
        return;
    }
    match folder() {
        Ok(folder) => println!("cargo::rustc-link-search=native={}", folder.display()),
        Err(why) => println!("cargo::error={why}"),
    }
}

/// The folder that holds `librimjhodek.a`.
fn folder() -> Result<PathBuf, String> {
    let Some(given) = env::var_os(BUILT) else {
        return build();
    };
    let folder = fs::canonicalize(&given).map_err(|e| format!("{BUILT}={given:?}: {e}"))?;
    println!("cargo::rerun-if-changed={}", folder.join("librimjhodek.a").display());
    Ok(folder)
}

/// Proves the library from the repository's sources, and writes the archive.
fn build() -> Result<PathBuf, String> {
    let root = Path::new(&env::var_os("CARGO_MANIFEST_DIR").unwrap()).join("../..");
    let root = fs::canonicalize(root).map_err(|e| format!("the repository's root: {e}"))?;
    watch(&root).map_err(|e| format!("the repository's crates: {e}"))?;
    let folder = root.join("crates/rimjhodek");
    let ran = Command::new("rt").arg("lib").current_dir(&folder).output();
    let said = ran.map_err(|e| {
        format!(
            "`rt` does not run ({e}): put Rattle's command on the path, \
             or name a folder that holds a built librimjhodek.a in {BUILT}"
        )
    })?;
    if !said.status.success() {
        for text in [said.stdout, said.stderr] {
            let text = String::from_utf8_lossy(&text);
            text.lines().for_each(|line| println!("cargo::error={line}"));
        }
        return Err(format!("`rt lib` failed in {}", folder.display()));
    }
    Ok(folder.join("out"))
}

/// Names the sources to cargo, and not what `rt` writes beside them.
fn watch(root: &Path) -> io::Result<()> {
    println!("cargo::rerun-if-changed={}", root.join("crates.txt").display());
    for folder in fs::read_dir(root.join("crates"))? {
        let folder = folder?.path();
        for part in ["src", "specs", "proofs"] {
            let source = folder.join(part);
            if source.is_dir() {
                println!("cargo::rerun-if-changed={}", source.display());
            }
        }
    }
    Ok(())
}
