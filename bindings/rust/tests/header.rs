//! `include/cyrs.h` and this crate say the same: limits, refusals, and the parameters of each call.

use cyrs::{limits, number};
use std::collections::BTreeMap;
use std::fs;
use std::path::Path;

fn file(name: &str) -> String {
    fs::read_to_string(Path::new(env!("CARGO_MANIFEST_DIR")).join(name)).unwrap()
}

/// The header with no comments.
fn header() -> String {
    let text = file("../../include/cyrs.h");
    let behind = |part: &str| part.split_once("*/").map(|(_, rest)| rest.to_string());
    let mut parts = text.split("/*");
    let first = parts.next().unwrap().to_string();
    parts
        .filter_map(behind)
        .fold(first, |all, part| all + &part)
}

/// The numbers that the header gives to names with this front: `#define NAME NUMBER` or `NAME = NUMBER`.
fn numbers(front: &str) -> BTreeMap<String, u64> {
    let header = header();
    let one = |line: &str| {
        let mut words = line
            .split_whitespace()
            .filter(|w| !matches!(*w, "#define" | "="));
        let name = words.next()?.strip_prefix(front)?.to_string();
        let number = words.next()?.trim_end_matches([',', 'U']);
        Some((name, number.parse().ok()?))
    };
    header.lines().filter_map(one).collect()
}

macro_rules! named {
    ($module:ident: $($name:ident)*) => {
        [$((stringify!($name).to_string(), $module::$name as u64)),*].into()
    };
}

#[test]
fn the_limits() {
    let expected: BTreeMap<String, u64> = named!(limits:
        SHEET_LIMIT WORK_SIZE UNIFY_OUTPUT REGULAR_OUTPUT STACK NAME_LIMIT COUNT_LIMIT DEPTH_LIMIT TYPE_LIMIT NESTING_LIMIT
        OLD_LIMIT STORE_SIZE STORE_ROOM STORE_HEAD STORE_NUMBERS STORE_USES);
    let mut found = numbers("CYRS_");
    found.retain(|name, _| name != "ACCEPTED" && !name.starts_with("REFUSED_"));
    assert_eq!(found, expected);
}

#[test]
fn the_refusals() {
    let expected: BTreeMap<String, u64> = named!(number:
        SHEET_LENGTH WORK STORE LINE RANGE DEPTH TYPE_SIZE OUTPUT TYPE_LINE MISMATCH OLD_LINE STORE_ROOM STORE_NUMBERS NOT_LIVE);
    assert_eq!(numbers("CYRS_REFUSED_"), expected);
}

/// The functions of a text: the name and the parameters, each as one text, by what stands between the brackets.
fn functions(
    text: &str,
    before: &str,
    parameter: fn(&str) -> String,
) -> BTreeMap<String, Vec<String>> {
    let one = |part: &str| {
        let (name, rest) = part.split_once('(').unwrap();
        let inside = rest.split_once(')').unwrap().0;
        let given = inside.split(',').map(str::trim).filter(|p| !p.is_empty());
        (name.trim().to_string(), given.map(parameter).collect())
    };
    text.split(before).skip(1).map(one).collect()
}

/// A parameter of C as Rust has it.
fn translated(parameter: &str) -> String {
    let (kind, name) = parameter.rsplit_once([' ', '*']).unwrap();
    let kind = match (kind.trim(), parameter.contains('*')) {
        ("const uint8_t", true) => "*const u8",
        ("uint8_t", true) => "*mut u8",
        ("uint64_t", true) => "*mut u64",
        ("uint64_t", false) => "u64",
        ("size_t", false) => "usize",
        other => panic!("{other:?}"),
    };
    format!("{name}: {kind}")
}

#[test]
fn the_calls() {
    let in_c = functions(&header(), "uint32_t ", translated);
    let in_rust = functions(&file("src/raw.rs"), "pub fn ", str::to_string);
    assert_eq!(in_c, in_rust);
    assert_eq!(in_c.len(), 7);
}
