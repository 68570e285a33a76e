//! The library's sources, `src/ffi` and the C header declare the same functions and the same
//! structs, and the binding's numbers by name are the library's.
//!
//! Types are compared in one spelling, Rust's: `[u64; 38]` after `&` is C's `cop0[38]`, whose length
//! the header has by name, and a slice is a pointer and a length.

use std::collections::BTreeMap;
use std::fs;
use std::path::{Path, PathBuf};

/// Functions or structs by name, each with its types: of the parameters and then of the answer, or
/// of the fields.
type Declared = BTreeMap<String, Vec<String>>;

fn root() -> PathBuf {
    Path::new(env!("CARGO_MANIFEST_DIR")).join("../../..")
}

/// A file of the repository, or all files of a folder, without comments.
fn text(name: &str) -> String {
    let path = root().join(name);
    if path.is_dir() {
        let files = fs::read_dir(path).unwrap().map(|file| file.unwrap().file_name());
        return files.map(|file| text(&format!("{name}/{}", file.to_str().unwrap()))).collect();
    }
    let text = fs::read_to_string(&path).unwrap_or_else(|e| panic!("{}: {e}", path.display()));
    let lines = text.lines().filter(|line| !line.trim_start().starts_with("//"));
    lines.map(|line| format!("{line}\n")).collect()
}

/// The header, without comments of C and lines for the preprocessor.
fn header() -> String {
    let text = text("bindings/rimjhodek.h");
    let mut parts = text.split("/*");
    let first = parts.next().unwrap().to_string();
    let rest = parts.map(|part| part.split_once("*/").unwrap().1);
    let code = rest.fold(first, |code, part| code + part);
    code.lines().filter(|line| !line.starts_with('#')).map(|line| format!("{line}\n")).collect()
}

/// What stands before a closing mark.
fn until<'a>(text: &'a str, close: &str) -> &'a str {
    text.split_once(close).unwrap().0
}

/// What a list has between its commas, those within brackets aside.
fn listed(list: &str) -> Vec<String> {
    let (mut items, mut depth) = (vec![String::new()], 0);
    for c in list.chars() {
        match c {
            '[' => depth += 1,
            ']' => depth -= 1,
            _ => (),
        }
        match c {
            ',' if depth == 0 => items.push(String::new()),
            _ => items.last_mut().unwrap().push(c),
        }
    }
    let items = items.iter().map(|item| item.trim().to_string());
    items.filter(|item| !item.is_empty()).collect()
}

/// The types of a parameter, in Rattle or in Rust.
fn rust_types(item: &str) -> Vec<String> {
    let of = item.split_once(": ").unwrap().1;
    let one = of.replace("*const ", "&").replace("*mut ", "&mut ");
    match one.strip_suffix(']') {
        Some(slice) if !slice.contains(';') => vec![slice.replace('[', ""), "usize".into()],
        _ => vec![one],
    }
}

/// The functions that a text of Rattle or Rust declares after a word.
fn rust_functions(text: &str, word: &str) -> Declared {
    let heads = text.split(word).skip(1).filter(|head| head.starts_with("rimjhodek_"));
    let function = |head: &str| {
        let (name, rest) = head.split_once('(').unwrap();
        let (parameters, rest) = rest.split_once(')').unwrap();
        let mut types: Vec<String> =
            listed(parameters).iter().flat_map(|p| rust_types(p)).collect();
        let rest = rest.trim_start();
        let answer =
            rest.strip_prefix("-> ").map(|rest| rest.split([';', '{', '\n']).next().unwrap());
        types.push(answer.unwrap_or("()").trim().to_string());
        (name.to_string(), types)
    };
    heads.map(function).collect()
}

/// A declaration in C as its name and its type.
fn c_type(item: &str) -> (String, String) {
    let (item, length) = match item.split_once('[') {
        Some((item, length)) => (item.to_string(), Some(header_numbers()[until(length, "]")])),
        None => (item.to_string(), None),
    };
    let (of, name) = item.rsplit_once([' ', '*']).unwrap();
    let pointer = item.contains('*');
    let (constant, of) = match of.trim().strip_prefix("const ") {
        Some(of) => (true, of),
        None => (false, of.trim()),
    };
    let of = match of.trim_end_matches([' ', '*']) {
        "uint8_t" => "u8",
        "uint32_t" => "u32",
        "uint64_t" => "u64",
        "size_t" => "usize",
        "bool" => "bool",
        "void" => "()",
        of => of.strip_prefix("Rimjhodek").expect("a type of the header's own"),
    };
    let of = length.map_or(of.to_string(), |length| format!("[{of}; {length}]"));
    let by = match (pointer, constant) {
        (true, false) => "&mut ",
        (true, true) => "&",
        (false, _) => "",
    };
    (name.trim().to_string(), format!("{by}{of}"))
}

/// A parameter in C; an array there is a pointer to one.
fn c_parameter(item: &str) -> String {
    let of = c_type(item).1;
    match (of.starts_with('['), item.starts_with("const ")) {
        (true, true) => format!("&{of}"),
        (true, false) => format!("&mut {of}"),
        _ => of,
    }
}

fn c_functions(text: &str) -> Declared {
    let statements = text.split([';', '}']).filter(|statement| statement.contains(" rimjhodek_"));
    let function = |statement: &str| {
        let (head, parameters) = statement.split_once('(').unwrap();
        let (name, answer) = c_type(head.trim());
        let parameters = until(parameters, ")").replace('\n', " ");
        let mut types: Vec<String> = listed(&parameters).iter().map(|p| c_parameter(p)).collect();
        types.push(answer);
        (name, types)
    };
    statements.map(function).collect()
}

/// The structs that a text of Rattle or Rust declares by C's rules.
fn rust_structs(text: &str) -> Declared {
    let heads = text.split("#[repr(C").skip(1);
    let structure = |head: &str| {
        let (_, head) = head.split_once("pub struct ").unwrap();
        let (name, fields) = head.split_once(" {").unwrap();
        let fields = listed(until(fields, "}"));
        let fields = fields.iter().map(|field| field.trim_start_matches("pub ").to_string());
        (name.to_string(), fields.collect())
    };
    heads.map(structure).collect()
}

fn c_structs(text: &str) -> Declared {
    let heads = text.split("typedef struct Rimjhodek").skip(1);
    let structure = |head: &str| {
        let (name, fields) = head.split_once(" {").unwrap();
        let fields = until(fields, "}").split(';').map(str::trim);
        let fields = fields.filter(|field| !field.is_empty()).map(c_type);
        (name.to_string(), fields.map(|(name, of)| format!("{name}: {of}")).collect())
    };
    heads.map(structure).collect()
}

/// The header's numbers by name, without what all names begin with.
fn header_numbers() -> BTreeMap<String, u64> {
    let text = header();
    let items = text.split("enum {").skip(1).flat_map(|part| until(part, "}").split(','));
    let number = |item: &str| {
        let (name, value) = item.split_once(" = ").expect("an enum's item has its value");
        (name.trim().to_string(), value.trim().parse().expect("a number in decimal"))
    };
    items.map(number).collect()
}

/// Those of them whose names begin with some words, under the rest of their names.
fn header_numbers_of(prefix: &str) -> BTreeMap<String, u64> {
    let prefix = format!("RIMJHODEK_{prefix}");
    let numbers = header_numbers().into_iter();
    let rest = numbers.filter_map(|(name, n)| Some((name.strip_prefix(&prefix)?.to_string(), n)));
    rest.collect()
}

#[test]
fn functions_are_the_same_in_all_three() {
    let exported = rust_functions(&text("crates/rimjhodek/src"), "pub extern \"C\" fn ");
    assert_eq!(exported.len(), 64);
    let caches = text("bindings/rust/src/ffi/caches.rs");
    let mut declared = rust_functions(&text("bindings/rust/src/ffi.rs"), "    pub safe fn ");
    let lent = rust_functions(&caches, "    pub fn ");
    declared.extend(lent.clone());
    assert_eq!(declared, exported, "src/ffi");
    // A cache's function has a wrapper, which takes slices.
    assert_eq!(rust_functions(&caches, "\npub fn "), lent, "src/ffi/caches.rs");
    assert_eq!(c_functions(&header()), exported, "rimjhodek.h");
}

#[test]
fn structs_are_the_same_in_all_three() {
    let crossing = rust_structs(&text("crates/rimjhodek/src"));
    assert_eq!(crossing.len(), 13);
    let structs = rust_structs(&text("bindings/rust/src/ffi/structs.rs"));
    assert_eq!(structs, crossing, "src/ffi/structs.rs");
    assert_eq!(c_structs(&header()), crossing, "rimjhodek.h");
}

/// Constants of one type by name, with their values.
fn constants(text: &str, of: &str) -> BTreeMap<String, u64> {
    let lines = text.lines().filter_map(|line| line.trim().strip_prefix("pub const "));
    let constant = |line: &str| {
        let (name, value) = line.split_once(&format!(": {of} = "))?;
        Some((name.to_string(), value.strip_suffix(';')?.parse().ok()?))
    };
    lines.filter_map(constant).collect()
}

/// The names of the registers in the library's order, as its sources write them.
fn named_registers() -> Vec<String> {
    let registers = text("crates/cop0/src/registers.rt");
    let (_, list) = registers.split_once("fn numbers() -> [u8; 25]").expect("the list of them");
    let (_, list) = list.split_once("        [").expect("the list's start");
    let names = until(list, "]").split(',').map(str::trim);
    let names = names.filter_map(|name| name.strip_prefix("Self::"));
    names.map(str::to_string).collect()
}

#[test]
fn register_numbers_are_the_librarys() {
    let mut numbers = [0; 25];
    rimjhodek::ffi::rimjhodek_numbers(&mut numbers);
    let told = numbers.map(u64::from);
    let told: BTreeMap<String, u64> = named_registers().into_iter().zip(told).collect();
    assert_eq!(told.len(), 25);
    assert_eq!(constants(&text("bindings/rust/src/cop0.rs"), "u8"), told, "src/cop0.rs");
    let header = header_numbers();
    for (name, number) in told {
        assert_eq!(header.get(&format!("RIMJHODEK_{name}")), Some(&number), "{name}");
    }
}

#[test]
fn codes_are_the_librarys() {
    let codes = constants(&text("crates/exception/src"), "u64");
    assert_eq!(codes.len(), 16);
    assert_eq!(constants(&text("bindings/rust/src/exception.rs"), "u64"), codes);
    assert_eq!(header_numbers_of("CODE_"), codes, "rimjhodek.h");
}

/// An enum's variants in Rust or Rattle, in their order, as C would spell them.
fn variants(text: &str, of: &str) -> Vec<String> {
    let (_, body) = text.split_once(&format!("pub enum {of} {{\n")).expect("the enum");
    let lines = until(body, "\n}").lines();
    let names = lines.filter_map(|line| line.strip_prefix("    "));
    let names = names.filter(|line| line.starts_with(|c: char| c.is_ascii_uppercase()));
    names.map(|name| shouted(name.split([',', ' ', '(']).next().unwrap())).collect()
}

/// `TlbRefill` as `TLB_REFILL`.
fn shouted(name: &str) -> String {
    let mut shout = String::new();
    for c in name.chars() {
        if c.is_ascii_uppercase() && !shout.is_empty() {
            shout.push('_');
        }
        shout.push(c.to_ascii_uppercase());
    }
    shout
}

/// The header's numbers of some kind are the places of the library's variants, from a first one,
/// and so are the crate's.
fn are_numbered(prefix: &str, of: &str, rattle: &str, rust: &str, first: u64) {
    let library = variants(&text(rattle), of);
    let numbered: BTreeMap<String, u64> = library.iter().cloned().zip(first..).collect();
    assert_eq!(header_numbers_of(prefix), numbered, "rimjhodek.h");
    assert_eq!(variants(&text(rust), of), library, "{rust}");
}

#[test]
fn exceptions_vectors_and_modes_are_the_librarys() {
    let rust = "bindings/rust/src/exception.rs";
    are_numbered("EXCEPTION_", "Exception", "crates/exception/src", rust, 0);
    are_numbered("VECTOR_", "VectorKind", "crates/exception/src", rust, 0);
    are_numbered("MODE_", "Mode", "crates/addr/src", "bindings/rust/src/addr.rs", 0);
}

#[test]
fn refusals_have_one_name_and_number() {
    let refusals = text("bindings/rust/src/refusal.rs");
    let (_, body) = refusals.split_once("pub enum Refusal {").expect("the enum");
    let items = until(body, "\n}").split(',').filter_map(|item| item.trim().split_once(" = "));
    let numbered: BTreeMap<String, u64> =
        items.map(|(name, n)| (shouted(name), n.parse().expect("a number"))).collect();
    assert_eq!(numbered.len(), 7);
    assert_eq!(header_numbers_of("REFUSED_"), numbered);
}

/// The places of words, and the lengths of what is lent, by name in the crate and in the header.
#[test]
fn places_and_lengths_have_one_number() {
    let mut places = constants(&text("bindings/rust/src/cop0.rs"), "usize");
    places.extend(constants(&text("bindings/rust/src/tlb.rs"), "usize"));
    places.retain(|_, place| *place >= 32);
    places.remove("JTLB_ENTRIES");
    assert_eq!(header_numbers_of("WORD_"), places);
    let header = header_numbers();
    let lent = [
        ("COP0_WORDS", rimjhodek::ffi::COP0_WORDS),
        ("TLB_WORDS", rimjhodek::ffi::TLB_WORDS),
        ("DCACHE_BYTES", rimjhodek::cache::Dcache::new().lines.len()),
        ("DCACHE_LINE", rimjhodek::cache::DCACHE_LINE as usize),
        ("ICACHE_BYTES", rimjhodek::cache::Icache::new().lines.len()),
        ("ICACHE_LINE", rimjhodek::cache::ICACHE_LINE as usize),
        ("CACHE_TAGS", rimjhodek::cache::Icache::new().tags.len()),
        ("NAMED_REGISTERS", named_registers().len()),
    ];
    for (name, length) in lent {
        assert_eq!(header[&format!("RIMJHODEK_{name}")], length as u64, "{name}");
    }
}
