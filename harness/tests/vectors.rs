//! The stored answers are the reference's, and are what the command writes.

use cyrs_harness::catalogue::cases::{settle, REFERENCE};
use cyrs_harness::catalogue::vectors::{self as stores, STORES_FILE};
use cyrs_harness::library::{linked, NOT_LINKED};
use cyrs_harness::limits::WORK_BYTES;
use cyrs_harness::old::vectors as old;
use cyrs_harness::old::vectors::OLD_FILE;
use cyrs_harness::stated::{self, stated_cases, STATED_FILE};
use cyrs_harness::vectors::{answer, file_text, read, PAIRS_FILE, SHEETS_FILE};
use std::collections::BTreeSet;
use std::fs;
use std::path::Path;

fn stored(file: &str) -> Vec<u8> {
    let path = Path::new(env!("CARGO_MANIFEST_DIR"))
        .join("vectors")
        .join(file);
    fs::read(&path).unwrap_or_else(|e| panic!("{}: {e}", path.display()))
}

fn replay(file: &str) -> BTreeSet<u32> {
    let text = stored(file);
    let cases = read(&text).unwrap_or_else(|e| panic!("{file}: {e}"));
    assert!(cases.len() > 500);
    let mut numbers = BTreeSet::new();
    for (i, (case, expected)) in cases.iter().enumerate() {
        assert_eq!(answer(case), *expected, "{file}, case {i}");
        numbers.insert(expected.case_number);
    }
    let cases: Vec<_> = cases.into_iter().map(|c| c.0).collect();
    assert_eq!(file_text(&cases), text);
    numbers
}

/// The program `replay` has no file to open: it is fed all, one behind the other.
#[test]
fn replay_input() {
    let path = Path::new(env!("CARGO_MANIFEST_DIR")).join("../crates/replay/stdin");
    let input = fs::read(&path).unwrap_or_else(|e| panic!("{}: {e}", path.display()));
    assert!(
        input
            == [SHEETS_FILE, PAIRS_FILE, OLD_FILE, STATED_FILE]
                .map(stored)
                .concat()
    );
}

#[test]
fn sheets() {
    let numbers: Vec<u32> = replay(SHEETS_FILE).into_iter().collect();
    assert_eq!(numbers, [0, 1, 2, 3, 4, 5, 6, 7]);
}

#[test]
fn pairs() {
    let numbers: Vec<u32> = replay(PAIRS_FILE).into_iter().collect();
    assert_eq!(numbers, [0, 2, 6, 7, 8, 9]);
}

/// The stated answers are the reference's too, and the file holds them all.
#[test]
fn stated_answers() {
    assert!(stored(STATED_FILE) == stated::file_text());
    let cases = stated_cases();
    assert_eq!(cases.len(), 1_340);
    let mut numbers = BTreeSet::new();
    for (i, stated) in cases.iter().enumerate() {
        assert_eq!(
            answer(&stated.case),
            stated.answer,
            "{STATED_FILE}, case {i}"
        );
        numbers.insert(stated.answer.case_number);
    }
    let numbers: Vec<u32> = numbers.into_iter().collect();
    assert_eq!(numbers, [0, 1, 2, 3, 4, 5, 6, 7, 8, 9]);
}

#[test]
fn old_lines() {
    let text = stored(OLD_FILE);
    let cases = old::read(&text).expect("the form of old lines");
    let mut numbers = BTreeSet::new();
    for (i, (case, expected)) in cases.iter().enumerate() {
        assert_eq!(old::answer(case), *expected, "{OLD_FILE}, case {i}");
        assert!(case.work <= WORK_BYTES + 1 && case.out <= WORK_BYTES);
        numbers.insert(expected.case_number);
    }
    let cases: Vec<_> = cases.into_iter().map(|c| c.0).collect();
    assert!(cases == old::old_cases() && old::file_text(&cases) == text);
    assert!(text.len() < 300_000);
    assert_eq!(numbers.into_iter().collect::<Vec<_>>(), [0, 2, 6, 7, 12]);
}

#[test]
fn store_answers() {
    let text = stored(STORES_FILE);
    assert!(text.len() <= 700_000);
    let cases = stores::read(&text).unwrap_or_else(|e| panic!("{STORES_FILE}: {e}"));
    assert_eq!(cases.len(), 500);
    assert!(stores::file_text(REFERENCE, &cases) == text);
    let numbers = cases.iter().map(|c| settle(REFERENCE, c).0.number);
    let numbers: BTreeSet<u32> = numbers.collect();
    let numbers: Vec<u32> = numbers.into_iter().collect();
    assert_eq!(numbers, [0, 2, 8, 13, 14, 15]);
}

#[test]
#[cfg_attr(not(cyrs_linked), ignore = "no library is linked (CYRS_LIB)")]
fn linked_store_answers() {
    let calls = linked().expect(NOT_LINKED).store;
    let text = stored(STORES_FILE);
    let cases = stores::read(&text).unwrap_or_else(|e| panic!("{STORES_FILE}: {e}"));
    assert!(stores::file_text(calls, &cases) == text);
}

/// The program `replay_store` is fed the store calls, if it is there.
#[test]
fn replay_store_input() {
    let path = Path::new(env!("CARGO_MANIFEST_DIR")).join("../crates/replay_store/stdin");
    if let Ok(input) = fs::read(path) {
        assert!(input == stored(STORES_FILE));
    }
}
