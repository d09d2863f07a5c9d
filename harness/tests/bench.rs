//! The inputs of the bench are what their names say.

use cyrs_harness::bench::sheets::kinds;
use cyrs_harness::calls::{self, sheet_report};
use cyrs_harness::library::{linked, SheetCall};
use cyrs_harness::limits::{SHEET_BYTES, WORK_BYTES};

/// Every sheet fits and is answered with its kind's number; a refused one names a line near its end.
#[test]
fn sheets_are_answered_as_named() {
    for kind in kinds() {
        for sheet in (kind.make)() {
            assert!(sheet.len() <= SHEET_BYTES, "{}", kind.name);
            let lines = sheet.split(|b| *b == b'\n').count() as u64 - 1;
            match sheet_report(&sheet) {
                Ok(report) => {
                    assert_eq!(kind.number, 0, "{}", kind.name);
                    assert!(report.len() <= SHEET_BYTES, "{}", kind.name);
                }
                Err((number, line)) => {
                    assert_eq!(number, kind.number, "{} at {line}", kind.name);
                    assert!(line + 12 > lines, "{}: {line} of {lines}", kind.name);
                }
            }
        }
    }
}

/// Each size is twice the one before, but for what every sheet has.
#[test]
fn sizes_double() {
    let mut before = 0;
    for kind in kinds() {
        let bytes = (kind.make)()[0].len();
        if kind.doubles {
            let times = bytes as f64 / before as f64;
            assert!((1.6..2.4).contains(&times), "{}: {times}", kind.name);
        }
        before = bytes;
    }
}

/// A sheet's answer: both numbers and every byte of the output.
fn answer(call: SheetCall, sheet: &[u8]) -> ((u32, u64), Vec<u8>) {
    let (mut work, mut out) = (vec![0; WORK_BYTES], vec![1; SHEET_BYTES + 1]);
    (call(sheet, &mut work, &mut out), out)
}

/// What is measured is the same work: the linked library answers every sheet as the reference does.
#[test]
fn both_sides_answer_alike() {
    for kind in kinds() {
        for sheet in (kind.make)() {
            if let Some(library) = linked() {
                let expected = answer(calls::sheet_call, &sheet);
                assert!(answer(library.sheet, &sheet) == expected, "{}", kind.name);
                assert_eq!((library.check)(&sheet), calls::check_call(&sheet), "{}", kind.name);
            }
        }
    }
}
