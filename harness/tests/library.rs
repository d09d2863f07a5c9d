//! The linked library against the reference, briefly; the long run is a command.

use cyrs_harness::calls::sheet_report;
use cyrs_harness::cases::Case;
use cyrs_harness::differential::{run, run_cases, Kind};
use cyrs_harness::generate::sheets::tree;
use cyrs_harness::generate::tree::{Line, Tree};
use cyrs_harness::library::{linked, Library, NOT_LINKED, REFERENCE};
use cyrs_harness::library::{CheckCall, RegularCall, SheetCall, UnifyCall};
use cyrs_harness::old::call::regular_call;
use cyrs_harness::random::Random;
use cyrs_harness::shrink::{smallest, smallest_sheet};
use cyrs_harness::{calls, limits, validation};

#[test]
#[cfg_attr(not(cyrs_linked), ignore = "no library is linked (CYRS_LIB)")]
fn linked_library() {
    let library = linked().expect(NOT_LINKED);
    assert!(run_cases(library, Kind::Both, 5_000, 3));
    assert!(validation::run(library.check, 5_000, 3));
}

/// The comparison itself: the reference against itself is equal, and against one with a fault is not.
#[test]
fn a_faulty_library_shows() {
    assert!(run_cases(REFERENCE, Kind::Both, 300, 4));
    let sheet: SheetCall = |sheet, work, out| {
        let answer = calls::sheet_call(sheet, work, out);
        if answer.0 == 3 && work.len() == limits::WORK_BYTES {
            work[65_535] = 1;
        }
        answer
    };
    let faulty = Library { sheet, ..REFERENCE };
    assert!(!run_cases(faulty, Kind::Sheets, 300, 4));
    assert!(!run_cases(faulty, Kind::Both, 300, 4));
    let unify: UnifyCall = |a, b, work, out| {
        let (number, first, second) = calls::unify_call(a, b, work, out);
        (number, first, second + u64::from(number == 8))
    };
    let faulty = Library { unify, ..REFERENCE };
    assert!(!run_cases(faulty, Kind::Pairs, 300, 4));
    assert!(!run_cases(faulty, Kind::Both, 300, 4));
}

#[test]
fn faulty_validation_shows() {
    let check: CheckCall = |sheet| {
        let (number, place) = calls::check_call(sheet);
        (number, place + u64::from(number == 5))
    };
    assert!(validation::run(calls::check_call, 300, 4));
    assert!(!validation::run(check, 300, 4));
}

/// When all calls are compared, a fault in one is not lost behind those that agree.
#[test]
fn one_fault_among_all_calls_shows() {
    let regular: RegularCall = |line, work, out| {
        let (number, first) = regular_call(line, work, out);
        (number, first + u64::from(number == 12))
    };
    let faulty = Library {
        regular,
        ..REFERENCE
    };
    assert!(!run(faulty, 300, 4));
}

/// The search for a smallest input gets through the structure of a sheet and of a type.
#[test]
fn differences_shrink() {
    let tree = (1..)
        .map(|seed| tree(&mut Random::new(seed)).text())
        .find(|t| {
            let text = String::from_utf8_lossy(t);
            t.len() > 2_000 && text.contains("\nlpr,") && sheet_report(t).is_ok()
        })
        .unwrap();
    let case = Case::Sheet {
        sheet: tree,
        work: 0,
        out: 0,
    };
    let least = smallest(case, |c| match c {
        Case::Sheet { sheet, .. } => {
            let text = String::from_utf8_lossy(sheet);
            text.contains("\nlpr,") && sheet_report(sheet).is_ok()
        }
        Case::Pair { .. } => false,
    });
    let Case::Sheet { sheet, .. } = least else {
        panic!("another kind of case");
    };
    assert!(sheet.len() < 60, "{}", String::from_utf8_lossy(&sheet));
}

/// A long sheet shrinks too, whether it is refused or not.
#[test]
fn long_sheets_shrink() {
    let items = vec![Line::new("exi", &[], Vec::new()); 9_000];
    let list = Line::new("lis", &["9000"], items);
    let long = Tree::returning(vec![list]).text();
    let has_list = |s: &[u8]| s.starts_with(b"cyrs,1\n") && s.windows(4).any(|w| w == b"lis,");
    let least = smallest_sheet(long.clone(), |s| has_list(s) && calls::check_call(s).0 == 0);
    assert_eq!(least, b"cyrs,1\nret,0,1\npro,-\nlis,0\nend\n");
    let refused = [&long[..], b"x"].concat();
    let least = smallest_sheet(refused, |s| has_list(s) && calls::check_call(s).0 == 3);
    assert_eq!(least, b"cyrs,1\nlis,");
}
