//! What README shows: its sheet and report, its other examples, and its Rust, which is the example of the crate's own page.

use cyrs::{number, Refusal};
use std::fs;
use std::path::Path;

fn file(name: &str) -> String {
    let path = Path::new(env!("CARGO_MANIFEST_DIR")).join(name);
    fs::read_to_string(&path).unwrap_or_else(|e| panic!("{}: {e}", path.display()))
}

/// The blocks of a section of README: what stands behind the opening fence, and the text.
fn blocks(section: &str) -> Vec<(String, String)> {
    let readme = file("../../README.md");
    let lines = readme.lines().skip_while(|&line| line != section).skip(1);
    let mut blocks: Vec<(String, String)> = Vec::new();
    let mut inside = false;
    for line in lines.take_while(|line| !line.starts_with("## ")) {
        match (line.strip_prefix("```"), inside) {
            (Some(language), false) => blocks.push((language.to_string(), String::new())),
            (None, true) => blocks.last_mut().unwrap().1.push_str(&format!("{line}\n")),
            _ => {}
        }
        inside ^= line.starts_with("```");
    }
    blocks
}

/// README's sheet and its report.
fn shown() -> (String, String) {
    let blocks = blocks("## A sheet and its report");
    (blocks[0].1.clone(), blocks[1].1.clone())
}

#[test]
fn the_sheet_and_its_report() {
    let (sheet, expected) = shown();
    let report = cyrs::infer_types(sheet.as_bytes()).unwrap();
    assert_eq!(report.text(), expected.as_bytes());
    assert_eq!(
        report.lines().collect::<Vec<_>>(),
        expected.lines().map(str::as_bytes).collect::<Vec<_>>()
    );
    assert_eq!(report.types().collect::<Vec<_>>(), [b"P,"]);
    assert_eq!(report.faults().collect::<Vec<_>>(), [b"2009,Bool"]);
    assert_eq!((report.type_count(), report.fault_count()), (1, 1));
    assert_eq!(report.into_text(), expected.into_bytes());
}

#[test]
fn the_refused_sheet() {
    let sheet = shown().0.replace("bool,1", "bool,2");
    let refusal = Refusal::new(number::RANGE, 7);
    assert_eq!(cyrs::infer_types(sheet.as_bytes()), Err(refusal));
    assert_eq!(cyrs::check_sheet(sheet.as_bytes()), Err(refusal));
}

#[test]
fn the_old_line() {
    assert_eq!(cyrs::regular_line(b"O,O,!,D,!,").unwrap(), b"O,D,P,!,");
}

#[test]
fn the_rust_is_tried() {
    let page = file("src/lib.rs");
    let mut blocks = blocks("## Calling it from C and Rust");
    blocks.retain(|(language, _)| language == "rust");
    assert_eq!(blocks.len(), 1);
    for line in blocks[0].1.lines() {
        let tried = format!("//! {line}");
        assert!(page.lines().any(|l| l == tried), "{line}");
    }
}
