//! What the generators reach, and that the reference agrees with itself on it.

use cyrs_harness::calls::{check_call, sheet_report, unify_texts, Unified};
use cyrs_harness::cases::{check_sheet, random_sheet};
use cyrs_harness::generate::exhaustive;
use cyrs_harness::generate::hostile::EVERY_WORD;
use cyrs_harness::generate::sheets::tree;
use cyrs_harness::generate::table::{Class, Field, ROWS};
use cyrs_harness::generate::types::text_pair;
use cyrs_harness::limited::unify::Stop;
use cyrs_harness::limits::{DEPTH, SHEET_BYTES};
use cyrs_harness::random::Random;
use cyrs_harness::reference::unify::unify;
use cyrs_harness::self_check;
use cyrs_harness::type_line::read_type_line;
use std::collections::BTreeSet;

#[test]
fn every_word_flag_and_field_shape() {
    let mut rng = Random::new(1);
    let mut seen: BTreeSet<(&str, usize, String)> = BTreeSet::new();
    let (mut longest, mut deepest, mut most_bindings) = (0, 0, 0);
    for _ in 0..3_000 {
        let tree = tree(&mut rng);
        longest = longest.max(tree.text().len().min(SHEET_BYTES));
        most_bindings = most_bindings.max(tree.bindings.len());
        tree.clauses
            .iter()
            .for_each(|c| deepest = deepest.max(c.depth()));
        tree.visit(&mut |line| {
            for (i, field) in line.fields.iter().enumerate() {
                let shape = match line.row.fields[i] {
                    Field::UpTo(_) | Field::Flags(_) => field.clone(),
                    _ => (field == "-").to_string(),
                };
                seen.insert((line.row.word, i, shape));
            }
            if line.fields.is_empty() {
                seen.insert((line.row.word, 0, String::new()));
            }
        });
    }
    assert_eq!(longest, SHEET_BYTES);
    assert!(deepest > DEPTH);
    assert!(most_bindings > 1_000);
    for row in ROWS.iter().skip(3) {
        assert!(seen.iter().any(|s| s.0 == row.word), "{}", row.word);
        for (i, field) in row.fields.iter().enumerate() {
            let shapes: Vec<String> = match field {
                Field::UpTo(most) => (0..=*most).map(|n| n.to_string()).collect(),
                Field::Flags(bits) => (0..1 << bits).map(|n: u64| n.to_string()).collect(),
                Field::OptionalVar | Field::Bound | Field::Alias => {
                    vec!["true".into(), "false".into()]
                }
                _ => vec!["false".into()],
            };
            for shape in shapes {
                let one = (row.word, i, shape);
                assert!(seen.contains(&one), "{one:?}");
            }
        }
    }
}

#[test]
fn every_number_and_every_fault() {
    let mut rng = Random::new(2);
    let mut numbers = BTreeSet::new();
    let mut faults: BTreeSet<Vec<u8>> = BTreeSet::new();
    for _ in 0..4_000 {
        match sheet_report(&random_sheet(&mut rng)) {
            Err((number, _)) => {
                numbers.insert(number);
            }
            Ok(report) => {
                numbers.insert(0);
                let lines = report
                    .split(|&b| b == b'\n')
                    .filter(|l| l.starts_with(b"F,"));
                faults.extend(lines.map(|l| l[..6].to_vec()));
            }
        }
        match unify_texts(&text_pair(&mut rng).0, &text_pair(&mut rng).1) {
            Unified::Line(_) => numbers.insert(10),
            Unified::Mismatch(..) => numbers.insert(9),
            Unified::TooLarge => numbers.insert(16),
            Unified::NoTypeLine(_) => numbers.insert(8),
        };
    }
    assert_eq!(
        numbers.into_iter().collect::<Vec<_>>(),
        [0, 3, 4, 5, 6, 8, 9, 10, 16]
    );
    let codes: BTreeSet<&[u8]> = faults.iter().map(|f| &f[2..6]).collect();
    assert_eq!(codes.len(), 6);
}

/// Every number of validation, every word as the first that is wrong, and every expression as the first too deep.
#[test]
fn every_refusal_of_every_word() {
    let mut rng = Random::new(3);
    let mut numbers = BTreeSet::new();
    let mut refused = BTreeSet::new();
    for _ in 0..20_000 {
        let sheet = check_sheet(&mut rng);
        let (number, place) = check_call(&sheet);
        numbers.insert(number);
        if number >= 3 {
            let line = sheet.split(|&b| b == b'\n').nth(place as usize - 1);
            let word = line.and_then(|l| l.split(|&b| b == b',').next());
            refused.insert((word.unwrap_or(b"").to_vec(), number));
        }
    }
    assert_eq!(numbers.into_iter().collect::<Vec<_>>(), [0, 1, 3, 4, 5]);
    assert_eq!(check_call(EVERY_WORD.as_bytes()), (0, 0));
    for row in &ROWS {
        let word = row.word.as_bytes().to_vec();
        assert!(refused.contains(&(word.clone(), 3)), "{}", row.word);
        assert!(
            row.class != Class::Expr || refused.contains(&(word, 5)),
            "{}",
            row.word
        );
        let mut lines = EVERY_WORD.lines();
        assert!(
            lines.any(|l| l.split(',').next() == Some(row.word)),
            "{}",
            row.word
        );
    }
}

#[test]
fn the_reference_agrees_with_itself() {
    let seen = self_check::run(4_000, 77).unwrap_or_else(|e| panic!("{e}"));
    assert!(seen.chains_accepted > 1_000);
    assert!(seen.accepted_around_refused > 0);
    assert!(seen.steps.iter().all(|&n| n > 100));
    // Repeatable from its seed.
    assert_eq!(
        seen,
        self_check::run(4_000, 77).unwrap_or_else(|e| panic!("{e}"))
    );
}

#[test]
fn small_inputs_in_full() {
    let mut seen = self_check::Seen::default();
    for (name, sheet) in exhaustive::sheets() {
        assert!(sheet_report(&sheet).is_ok(), "{name}");
        self_check::check_sheet(&sheet, &mut seen).unwrap_or_else(|e| panic!("{name}: {e}"));
    }
    for (a, b) in exhaustive::pairs() {
        let (x, y) = (read_type_line(&a).unwrap(), read_type_line(&b).unwrap());
        let limited = cyrs_harness::limited::unify::unify(&x, &y);
        match (unify(&x, &y), limited) {
            (Ok(t), Ok(u)) => assert_eq!(t, u),
            (Err(m), Err(Stop::Mismatch(n))) => assert_eq!(m, n),
            other => panic!("{other:?}"),
        }
    }
}
