//! Old type lines made regular (RULES 10.3, ask 11): cases, both sides of every limit, the meaning, the comparison itself.

use cyrs_harness::generate::old::{
    any_old, damaged_everywhere, loosened, old_probes, small_lines, stretched, EVERY_LETTER,
};
use cyrs_harness::generate::types::{any_type, large, Domain};
use cyrs_harness::library::{linked, RegularCall, NOT_LINKED};
use cyrs_harness::limits::{REGULAR_OUT_BYTES, TYPE_NESTING, WORK_BYTES};
use cyrs_harness::old::call::{regular_call, regular_line};
use cyrs_harness::old::compare;
use cyrs_harness::old::meaning::{meaning, Meaning};
use cyrs_harness::old::read::read_old;
use cyrs_harness::old::self_check::{check_line, round, Seen};
use cyrs_harness::old::shrink::smallest_line;
use cyrs_harness::old::tree::Old;
use cyrs_harness::random::Random;
use std::collections::{BTreeMap, BTreeSet};

/// The regular line, or the number.
fn regular(line: &str) -> Result<String, u32> {
    regular_line(line.as_bytes()).map(|l| String::from_utf8_lossy(&l).into_owned())
}

#[test]
fn cases() {
    for (line, expected) in [
        // Members in any order or repeated; Any, Null and Unknown take nothing in.
        ("O,G,D,!,", "O,D,G,!,"),
        ("O,D,D,D,!,", "D,"),
        ("O,P,B,D,A,B,!,", "O,A,B,D,P,!,"),
        // Unions inside unions, inner types first.
        ("O,D,O,C,O,G,C,!,!,!,", "O,C,D,G,!,"),
        ("O,O,O,D,!,!,!,", "D,"),
        ("J,O,O,G,!,D,!,", "J,O,D,G,!,"),
        ("O,J,O,D,!,J,D,!,", "J,D,"),
        ("O,J,O,G,D,!,J,O,D,G,!,!,", "J,O,D,G,!,"),
        // An empty union means Unknown.
        ("O,!,", "P,"),
        ("O,O,!,D,!,", "O,D,P,!,"),
        ("O,P,O,!,!,", "P,"),
        ("K,61,O,!,!,", "K,61,P,!,"),
        // Labels are sets; none given is not an empty set.
        ("L,+,62,61,62,!,", "L,+,61,62,!,"),
        ("L,+,61,,!,", "L,+,,61,!,"),
        ("O,L,+,!,L,!,!,", "O,L,!,L,+,!,!,"),
        ("O,L,+,62,61,!,L,+,61,62,!,!,", "L,+,61,62,!,"),
        // Entries in any order.
        ("K,62,D,61,G,!,", "K,61,G,62,D,!,"),
        ("K,6161,D,61,G,,C,!,", "K,,C,61,G,6161,D,!,"),
        ("O,K,62,D,61,O,G,!,!,K,61,G,62,D,!,!,", "K,61,G,62,D,!,"),
        ("O,M,+,62,M,+,61,M,!,M,+,61,!,", "O,M,!,M,+,61,M,+,62,!,"),
    ] {
        assert_eq!(regular(line), Ok(expected.to_string()), "{line}");
        assert_eq!(regular(expected), Ok(expected.to_string()));
    }
    for line in [
        "K,61,D,61,G,!,",
        "K,61,D,61,D,!,",
        "O,D,",
        "D,D,",
        "",
        "J,!,",
    ] {
        assert_eq!(regular(line), Err(12), "{line}");
    }
    assert!(regular(EVERY_LETTER).is_ok());
}

#[test]
fn probes() {
    let mut numbers = BTreeSet::new();
    for p in old_probes() {
        let (mut work, mut out) = (vec![7; p.work], vec![9; p.out]);
        let (number, first) = regular_call(&p.line, &mut work, &mut out);
        let shown = || format!("{}: {}", p.name, p.line.escape_ascii());
        assert_eq!(number, p.number, "{}", shown());
        numbers.insert(number);
        let (work_is, out_is) = match number {
            0 => (0, 9),
            2 => (7, 9),
            _ => (0, 0),
        };
        assert_eq!(first == 0, number != 0);
        assert!(work.iter().all(|&b| b == work_is), "{}", shown());
        assert!(out[first as usize..].iter().all(|&b| b == out_is));
        if number == 0 {
            assert_eq!(regular_line(&p.line).as_deref(), Ok(&out[..first as usize]));
        }
    }
    assert_eq!(numbers.into_iter().collect::<Vec<_>>(), [0, 2, 6, 7, 12]);
}

/// Over all small lines: equal bytes exactly if the same meaning.
#[test]
fn small_lines_in_full() {
    let mut meanings: BTreeMap<Vec<u8>, Meaning> = BTreeMap::new();
    let mut lines: BTreeMap<Meaning, Vec<u8>> = BTreeMap::new();
    let mut seen = Seen::default();
    for line in small_lines(5) {
        check_line(&line, &mut seen).unwrap_or_else(|e| panic!("{e}"));
        if let (Some(old), Ok(made)) = (read_old(&line), regular_line(&line)) {
            let means = meaning(&old);
            let met = meanings.entry(made.clone()).or_insert(means.clone());
            assert_eq!(*met, means, "{}", line.escape_ascii());
            let met = lines.entry(means).or_insert(made.clone());
            assert_eq!(*met, made, "{}", line.escape_ascii());
        }
    }
    assert!(seen.lines > 40_000 && lines.len() > 2_000 && seen.regular > 2_000);
    for line in damaged_everywhere() {
        check_line(&line, &mut seen).unwrap_or_else(|e| panic!("{e}"));
    }
}

#[test]
fn random_lines_and_pairs() {
    let mut seen = Seen::default();
    for seed in 0..4_000 {
        round(&mut Random::new(seed), &mut seen).unwrap_or_else(|e| panic!("seed {seed}: {e}"));
    }
    assert!(seen.lines_too_large > 300);
    assert!(seen.regular > 500);
    assert!(seen.lines - seen.lines_read > 300);
    assert!(seen.pairs_same > 1_000);
    assert!(seen.apart_same > 300 && seen.apart_other > 300);
}

/// What is said otherwise keeps to the nesting it is given.
#[test]
fn other_words_have_room() {
    let mut rng = Random::new(6);
    let mut deepest = 0;
    for i in 0..2_000 {
        let ty = match i % 3 {
            0 => large(&mut rng, Domain::All),
            _ => any_type(&mut rng, Domain::All, 5),
        };
        let old = Old::of(&ty);
        let often = rng.between(2, 12);
        let other = loosened(&mut rng, &old, often, TYPE_NESTING);
        assert!(other.nesting() <= TYPE_NESTING.max(old.nesting()));
        assert_eq!(meaning(&other), meaning(&old));
        deepest = deepest.max(other.nesting().min(TYPE_NESTING));
    }
    assert_eq!(deepest, TYPE_NESTING);
}

/// A line is made as long as it is to be.
#[test]
fn lines_are_stretched() {
    let mut rng = Random::new(7);
    for _ in 0..3_000 {
        let nesting = rng.between(1, 4);
        let old = any_old(&mut rng, nesting);
        let bytes = old.line().len() + rng.between(20, 3_000);
        assert_eq!(stretched(&mut rng, &old, bytes).line().len(), bytes);
    }
}

#[test]
#[cfg_attr(not(cyrs_linked), ignore = "no library is linked (CYRS_LIB)")]
fn linked_library() {
    let library = linked().expect(NOT_LINKED);
    assert!(compare::run(library.regular, 5_000, 3));
}

/// The comparison itself: the reference against itself is equal, and against one with a fault is not.
#[test]
fn a_faulty_library_shows() {
    assert!(compare::run(regular_call, 300, 4));
    let faults: [RegularCall; 4] = [
        // A byte of the work area stays.
        |line, work, out| {
            let answer = regular_call(line, work, out);
            if answer.0 == 6 {
                work[WORK_BYTES - 1] = 1;
            }
            answer
        },
        // Unions of the text that vanish do not count.
        |line, work, out| {
            let answer = regular_call(line, work, out);
            match line.starts_with(b"O,O,") && answer.0 == 12 {
                true => regular_call(&line[2..line.len() - 2], work, out),
                false => answer,
            }
        },
        // 12 before 7.
        |line, work, out| match regular_call(line, work, out) {
            (7, _) if read_old(line).is_none() => (12, 0),
            answer => answer,
        },
        // An empty union vanishes in a union.
        |line, work, out| {
            let text = String::from_utf8_lossy(line).replace("D,O,!,", "D,");
            regular_call(text.as_bytes(), work, out)
        },
    ];
    for faulty in faults {
        assert!(!compare::run(faulty, 300, 4));
    }
}

#[test]
fn differences_shrink() {
    let long = format!(
        "O,K,{}63,J,O,D,G,!,!,!,",
        "61,C,62,G,".replace("C,", "L,+,61,62,!,")
    );
    let least = smallest_line(long.into_bytes(), |l| {
        let old = read_old(l).is_some();
        old && l.windows(4).any(|w| w == b"J,O,")
    });
    assert_eq!(least, b"J,O,!,");
    let broken = format!("O,{}Q,!,", "D,".repeat(1_000)).into_bytes();
    let least = smallest_line(broken, |l| read_old(l).is_none() && l.contains(&b'Q'));
    assert_eq!(least, b"Q");
}

#[test]
fn exactly_the_output_is_enough() {
    let (mut work, mut out) = (vec![1; WORK_BYTES], vec![1; REGULAR_OUT_BYTES]);
    let labels = (0..254).map(|i| format!("{i:02x},")).rev();
    let line = format!(
        "O,O,L,+,{}{}!,!,!,",
        labels.collect::<String>(),
        "6".repeat(254) + ",,"
    );
    let (number, first) = regular_call(line.as_bytes(), &mut work, &mut out);
    assert_eq!((number, first), (0, 1_024));
    let (number, _) = regular_call(line.replace("L,", "J,L,").as_bytes(), &mut work, &mut out);
    assert_eq!(number, 6);
}
