//! The declarations in raw.rs are those of the C header, and so are the numbers of the refusals and
//! of the interface. No compiler compares the two, and a call with other types would go wrong
//! silently.

use std::mem::size_of;

use vektrid::raw::{self, Cursor, FileWalk, SheetCursor};
use vektrid::{Flips, Refusal, ABI};

const HEADER: &str = include_str!(concat!(env!("CARGO_MANIFEST_DIR"), "/../../include/vektrid.h"));
const RAW: &str = include_str!(concat!(env!("CARGO_MANIFEST_DIR"), "/src/raw.rs"));

/// The header without its comments.
fn header() -> String {
    let mut parts = HEADER.split("/*");
    let first = parts.next().unwrap_or("").to_string();
    parts.fold(first, |text, part| text + part.split_once("*/").map_or("", |(_, code)| code))
}

/// `name(parameter: type, ..) -> type` for each function of the header.
fn declared_in_c() -> Vec<String> {
    let header = header();
    let functions = header.split(';').filter(|statement| statement.contains('('));
    functions.map(|function| c_function(function.trim())).collect()
}

fn c_function(function: &str) -> String {
    let (start, parameters) = function.split_once('(').unwrap();
    // What stands before the first function of the header is on lines of its own.
    let (answer, name) = start.lines().last().unwrap().rsplit_once(' ').unwrap();
    let parameters = parameters.trim_end_matches(')').split(',');
    let parameters = parameters.filter(|&parameter| parameter != "void").map(c_parameter);
    let parameters = parameters.collect::<Vec<_>>().join(", ");
    match answer.trim() {
        "void" => format!("{name}({parameters})"),
        answer => format!("{name}({parameters}) -> {}", rust_type(answer)),
    }
}

fn c_parameter(parameter: &str) -> String {
    let (c_type, name) = parameter.trim().rsplit_once(' ').unwrap();
    match (name.strip_prefix('*'), c_type.strip_prefix("const ")) {
        (Some(name), Some(target)) => format!("{name}: *const {}", rust_type(target)),
        (Some(name), None) => format!("{name}: *mut {}", rust_type(c_type)),
        (None, _) => format!("{name}: {}", rust_type(c_type)),
    }
}

fn rust_type(c_type: &str) -> &'static str {
    match c_type {
        "uint8_t" => "u8",
        "uint32_t" => "u32",
        "uint64_t" => "u64",
        "int32_t" => "i32",
        "size_t" => "usize",
        "float" => "f32",
        "double" => "f64",
        "vektrid_file_walk" => "FileWalk",
        "vektrid_cursor" => "Cursor",
        "vektrid_sheet_cursor" => "SheetCursor",
        other => panic!("a type that raw.rs does not have: {other}"),
    }
}

/// The same for each function of raw.rs.
fn declared_in_rust() -> Vec<String> {
    let code: Vec<&str> = RAW.lines().filter(|line| !line.trim().starts_with("//")).collect();
    let code = code.join(" ");
    let functions = code.split(';').filter_map(|statement| statement.split_once("pub fn "));
    let words = functions.map(|(_, function)| function.split_whitespace().collect::<Vec<_>>());
    let joined = words.map(|words| words.join(" ").replace("( ", "(").replace(", )", ")"));
    joined.collect()
}

#[test]
fn declarations_are_those_of_the_header() {
    let (c, rust) = (declared_in_c(), declared_in_rust());
    assert_eq!(c.len(), 23);
    assert_eq!(c[0], "vektrid_abi() -> u32");
    assert_eq!(c[3].split_once(',').unwrap().0, "vektrid_point(words: *const u32");
    assert_eq!(c, rust);
}

#[test]
fn interface_has_the_number_of_the_header() {
    assert!(header().contains(&format!("\n#define VEKTRID_ABI {ABI}\n")));
    // SAFETY: no pointer is passed.
    assert_eq!(unsafe { raw::vektrid_abi() }, ABI);
}

#[test]
fn structures_have_the_words_of_the_header() {
    let structures = [
        ("file_walk", size_of::<FileWalk>()),
        ("cursor", size_of::<Cursor>()),
        ("sheet_cursor", size_of::<SheetCursor>()),
    ];
    for (name, size) in structures {
        let start = format!("typedef struct vektrid_{name} {{\n    uint32_t words[{}];", size / 4);
        assert!(header().contains(&start));
    }
}

#[test]
fn flips_have_the_bytes_of_the_header() {
    let array = format!("static const uint8_t vektrid_no_flips[{}] = {{0}};", Flips::BYTES);
    assert!(header().contains(&array));
}

#[test]
fn refusals_have_the_names_and_numbers_of_the_header() {
    let refusals = [
        Refusal::WordCount,
        Refusal::Level,
        Refusal::NotNet { m: 1, a: 0, j: 1 },
        Refusal::Size,
        Refusal::Shape,
        Refusal::Cell,
        Refusal::Block,
        Refusal::BufferLengths,
        Refusal::IndexRange,
        Refusal::Region,
        Refusal::FileLength,
        Refusal::ReservedBytes,
        Refusal::MissingRecord,
        Refusal::ChainReturns,
        Refusal::VisitCount,
        Refusal::Field,
        Refusal::FlipBytes,
        Refusal::FlipBit,
    ];
    let header = header();
    let constants = header.lines().filter_map(|line| line.trim().strip_prefix("VEKTRID_"));
    let constants: Vec<(&str, &str)> =
        constants.filter_map(|line| line.split_once(" = ")).collect();
    assert_eq!(constants[0], ("ACCEPTED", "0,"));
    assert_eq!(constants.len(), 1 + refusals.len());
    for (refusal, (name, number)) in refusals.iter().zip(&constants[1..]) {
        assert_eq!(camel_case(name), format!("{refusal:?}").split(' ').next().unwrap());
        assert_eq!(number.trim_end_matches([' ', ',']), refusal.number().to_string());
    }
}

fn camel_case(name: &str) -> String {
    let words = name.split('_').filter(|word| !word.is_empty());
    words.map(|word| word[..1].to_string() + &word[1..].to_lowercase()).collect()
}
