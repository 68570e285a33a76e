//! Finds the original's files and writes `original.rs`, which compiles them where they stand, and
//! `pipeline.rs`, what is used of one more.

use std::path::{Path, PathBuf};
use std::{env, fs};

/// The files that the port follows.
const MODULES: [&str; 5] = ["cop0", "tlb", "addr", "exception", "cache"];

/// Where the files are when `RUSTYN64_SRC` is not set, from the repository's root.
const DEFAULT: &str = "../shared/docs/src";

fn main() {
    println!("cargo::rerun-if-env-changed=RUSTYN64_SRC");
    let folder = folder();
    let mut text = String::new();
    for module in MODULES {
        let file = find(&folder, module);
        text += &format!("#[allow(clippy::all)]\n#[path = {file:?}]\npub mod {module};\n");
    }
    let out = PathBuf::from(env::var_os("OUT_DIR").unwrap());
    fs::write(out.join("original.rs"), text).unwrap();
    fs::write(out.join("pipeline.rs"), pipeline(&find(&folder, "pipeline"))).unwrap();
}

/// What is used of the original's pipeline: the exceptions, and how it makes an access of Status.
fn pipeline(file: &Path) -> String {
    let exception = cut(file, "pub enum Exception {");
    let access_mode = cut(file, "    fn access_mode(&self) -> crate::addr::Access {");
    let erl = cut(file, "    fn erl(&self) -> bool {");
    format!("{exception}\nimpl Pipeline<'_> {{\n{access_mode}\n{erl}}}\n")
}

/// The folder that holds the original. A relative name counts from the repository's root.
fn folder() -> PathBuf {
    let here = PathBuf::from(env::var_os("CARGO_MANIFEST_DIR").unwrap());
    let given = env::var_os("RUSTYN64_SRC").unwrap_or_else(|| DEFAULT.into());
    let folder = here.join("../..").join(given);
    fs::canonicalize(&folder).unwrap_or_else(|_| lost(&folder))
}

/// The file of one module, in the folder of flat names or in a checkout.
fn find(folder: &Path, module: &str) -> PathBuf {
    let names = [
        format!("src--crates--rustyn64-cpu--src--{module}.rs.txt"),
        format!("crates/rustyn64-cpu/src/{module}.rs"),
    ];
    let found = names.iter().map(|name| folder.join(name)).find(|file| file.is_file());
    let file = found.unwrap_or_else(|| lost(&folder.join(&names[1])));
    println!("cargo::rerun-if-changed={}", file.display());
    file
}

/// One item of a file, or of a block in it, with its attributes and its documentation.
fn cut(file: &Path, head: &str) -> String {
    let text = fs::read_to_string(file).unwrap();
    let lines: Vec<&str> = text.lines().collect();
    let at = lines.iter().position(|line| *line == head);
    let at = at.unwrap_or_else(|| panic!("{} has no line `{head}`", file.display()));
    let above = lines[..at].iter().rev().map(|line| line.trim_start());
    let above = above.take_while(|line| line.starts_with("///") || line.starts_with("#["));
    let from = at - above.count();
    let indent = &head[..head.len() - head.trim_start().len()];
    let last = format!("{indent}}}");
    let length = lines[at..].iter().position(|line| *line == last).unwrap();
    lines[from..=at + length].join("\n") + "\n"
}

fn lost(path: &Path) -> ! {
    panic!(
        "{} is not there: set RUSTYN64_SRC to a checkout of RustyN64, \
         or to the folder that holds its files under flat names",
        path.display()
    )
}
