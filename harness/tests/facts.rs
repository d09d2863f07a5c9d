//! The facts for the checker: what is drawn, and how it is written.

use cyrs_harness::cases::Case;
use cyrs_harness::facts::{
    bytes, readable, record, Drawer, Fact, Left, Settled, SMALL_BYTES, SMALL_LINES,
};
use cyrs_harness::generate::table::ROWS;
use cyrs_harness::limits::WORK_BYTES;
use std::collections::BTreeSet;

fn numbers(facts: &[Fact]) -> [usize; 10] {
    let mut numbers = [0; 10];
    for fact in facts {
        numbers[Settled::of(&fact.case).number as usize] += 1;
    }
    numbers
}

#[test]
fn sheets_are_small_and_of_every_kind() {
    let facts = Drawer::new().sheets(1_000, 1);
    assert_eq!(facts.len(), 1_000);
    let mut words = BTreeSet::new();
    let mut faults = BTreeSet::new();
    for fact in &facts {
        let Case::Sheet { sheet, .. } = &fact.case else {
            panic!("no sheet")
        };
        let lines: Vec<&[u8]> = sheet.split_inclusive(|&b| b == b'\n').collect();
        assert!(sheet.len() <= SMALL_BYTES && lines.len() <= SMALL_LINES + 1);
        if let Left::Wrote(report) = Settled::of(&fact.case).left {
            words.extend(lines.iter().map(|l| first_field(l)));
            let lines = report.split(|&b| b == b'\n');
            faults.extend(lines.filter_map(|l| l.strip_prefix(b"F,")).map(first_field));
        }
    }
    let seen = |row: &&cyrs_harness::generate::table::Row| words.contains(row.word);
    assert_eq!(ROWS.iter().filter(seen).count(), ROWS.len());
    assert_eq!(faults.len(), 6);
    let numbers = numbers(&facts);
    assert!(numbers[0] > 400, "{numbers:?}");
    assert!([3, 4, 5, 6, 7].iter().all(|&n| numbers[n] > 20));
}

fn first_field(line: &[u8]) -> String {
    let end = line.iter().position(|b| b",\n".contains(b));
    String::from_utf8_lossy(&line[..end.unwrap_or(line.len())]).into_owned()
}

#[test]
fn pairs_are_of_every_kind() {
    let facts = Drawer::new().pairs(1_000, 1);
    assert_eq!(facts.len(), 1_000);
    let numbers = numbers(&facts);
    assert!([0, 6, 7, 8, 9].iter().all(|&n| numbers[n] > 40));
}

#[test]
fn a_seed_repeats_its_call() {
    let drawer = Drawer::new();
    let all = drawer.sheets(30, 500);
    let last = &all[29];
    let seed = last.from.rsplit(' ').next().and_then(|s| s.parse().ok());
    let again = drawer.sheets(1, seed.expect("a seed"));
    assert_eq!(again[0].case, last.case);
}

#[test]
fn bytes_as_text() {
    assert_eq!(bytes(b""), "text \"\"");
    assert_eq!(bytes(b"a,\"\\\n"), r#"text "a,\"\\\n""#);
    assert_eq!(
        bytes(b"ab\0\xffc\r"),
        r#"(text "ab" ++ (0 ∷ (255 ∷ (text "c" ++ (13 ∷ [])))))"#
    );
}

#[test]
fn calls_as_records() {
    let sheet = Case::Sheet {
        sheet: b"cyrs,1\nend\n".to_vec(),
        work: WORK_BYTES,
        out: 9,
    };
    let mut fact = Fact {
        case: sheet,
        from: String::new(),
        whole: false,
    };
    assert_eq!(
        record(&fact),
        r#"record { question = typed (text "cyrs,1\nend\n"); lent = output 9; number = 0; first = 8; second = 0; left = wrote (text "end,0,0\n") }"#
    );
    fact.whole = true;
    assert!(record(&fact).contains("lent = sized 65536 9;"));
    fact.case = Case::Pair {
        a: b"D,".to_vec(),
        b: b"K,!,".to_vec(),
        work: WORK_BYTES,
        out: 2_048,
    };
    assert_eq!(
        record(&fact),
        r#"record { question = unified (text "D,") (text "K,!,"); lent = sized 65536 2048; number = 9; first = 2; second = 4; left = wrote (text "D,K,!,") }"#
    );
    fact.case = Case::Pair {
        a: b"D,".to_vec(),
        b: b"D".to_vec(),
        work: 3,
        out: 2_048,
    };
    assert_eq!(
        record(&fact),
        r#"record { question = unified (text "D,") (text "D"); lent = sized 3 2048; number = 2; first = 0; second = 0; left = as_lent }"#
    );
}

#[test]
fn messages_are_readable() {
    assert_eq!(
        readable("has `accepted (84 ∷ 44 ∷ 10 ∷ [])` and 7"),
        "has `accepted (\"T,\\n\")` and 7"
    );
    assert_eq!(readable("out = [] ∷ 3"), "out = [] ∷ 3");
}
