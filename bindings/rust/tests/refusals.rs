//! Each refusal, from the calls that can give it.

use cyrs::limits::{
    DEPTH_LIMIT, NAME_LIMIT, NESTING_LIMIT, OLD_LIMIT, SHEET_LIMIT, STORE_HEAD, STORE_ROOM,
    STORE_SIZE, TYPE_LIMIT, UNIFY_OUTPUT, WORK_SIZE,
};
use cyrs::{check_sheet, infer_types, lent, number, regular_line, unify, Refusal, Store, Unified};

/// A sheet with these lines under a WHERE.
fn sheet(lines: &str) -> Vec<u8> {
    format!("cyrs,1\nwhe\n{lines}end\n").into_bytes()
}

fn refused(number: u32, place: u64) -> Refusal {
    Refusal::new(number, place)
}

/// Both calls refuse the sheet so.
fn both(sheet: &[u8], refusal: Refusal) {
    assert_eq!(infer_types(sheet), Err(refusal));
    assert_eq!(check_sheet(sheet), Err(refusal));
}

#[test]
fn sheets() {
    both(
        &vec![b'a'; SHEET_LIMIT + 1],
        refused(number::SHEET_LENGTH, 0),
    );
    both(&vec![b'a'; SHEET_LIMIT], refused(number::LINE, 1));
    both(b"", refused(number::LINE, 1));
    both(&sheet("bool,x\n"), refused(number::LINE, 3));
    both(&sheet("bool,2\n"), refused(number::RANGE, 3));
    let deep = |levels| sheet(&format!("{}null\n", "isn,0\n".repeat(levels - 1)));
    assert!(infer_types(&deep(DEPTH_LIMIT)).is_ok());
    let line = 2 + DEPTH_LIMIT as u64 + 1;
    both(&deep(DEPTH_LIMIT + 1), refused(number::DEPTH, line));
    let entry = |i: usize| format!("key,{i:02}{}\nnull\n", "61".repeat(119));
    let large = sheet(&format!("map,5\n{}", (1..6).map(entry).collect::<String>()));
    assert_eq!(infer_types(&large), Err(refused(number::TYPE_SIZE, 3)));
    assert_eq!(check_sheet(&large), Ok(()));
}

/// A report that is longer than the output lent first.
#[test]
fn a_long_report() {
    let count = 2_900;
    let top = "pro,-\nbin,0\nnull\nnull\n";
    let sheet = format!("cyrs,1\nret,0,{count}\n{}end\n", top.repeat(count));
    let report = infer_types(sheet.as_bytes()).unwrap();
    assert!(report.text().len() > WORK_SIZE);
    assert_eq!(report.types().count(), count);
    assert_eq!(report.faults().count(), 2 * count);
    assert_eq!(
        (report.type_count(), report.fault_count()),
        (count as u64, 2 * count as u64)
    );
}

/// `levels` lists around Int.
fn lists(levels: usize) -> Vec<u8> {
    format!("{}D,", "J,".repeat(levels - 1)).into_bytes()
}

/// A relationship type whose name has these bytes.
fn named(i: usize, bytes: usize) -> Vec<u8> {
    format!("M,+,{i:04x}{},", "61".repeat(bytes - 2)).into_bytes()
}

#[test]
fn type_lines() {
    let deepest = lists(NESTING_LIMIT);
    assert_eq!(
        unify(&deepest, &deepest),
        Ok(Unified::Line(deepest.clone()))
    );
    let deeper = lists(NESTING_LIMIT + 1);
    assert_eq!(unify(&deeper, b"D"), Err(refused(number::TYPE_LINE, 1)));
    assert_eq!(unify(b"D,", b""), Err(refused(number::TYPE_LINE, 2)));
    let map = |i| [b"K,", &named(i, NAME_LIMIT)[4..], b"J,D,!,"].concat();
    let (a, b) = (map(1), map(2));
    assert!(a.len() < TYPE_LIMIT && a.len() + b.len() > TYPE_LIMIT);
    assert_eq!(unify(&a, &b), Err(refused(number::TYPE_SIZE, 0)));
    let mismatch = Unified::Mismatch {
        expected: b"D,".to_vec(),
        actual: b"J,C,".to_vec(),
    };
    assert_eq!(unify(b"D,", b"J,C,"), Ok(mismatch));
}

#[test]
fn old_lines() {
    assert_eq!(
        regular_line(&vec![b'D'; OLD_LIMIT + 1]),
        Err(refused(number::OLD_LINE, 0))
    );
    assert_eq!(
        regular_line(b"K,61,D,61,G,!,"),
        Err(refused(number::OLD_LINE, 0))
    );
    let members = (1..4).flat_map(|i| named(i, NAME_LIMIT));
    let large: Vec<u8> = b"O,".iter().copied().chain(members).chain(*b"!,").collect();
    assert_eq!(regular_line(&large), Err(refused(number::TYPE_SIZE, 0)));
}

#[test]
fn stores() {
    let mut store = Store::new();
    assert_eq!(store.enter(b"D"), Err(refused(number::TYPE_LINE, 1)));
    assert_eq!(store.release(0), Err(refused(number::NOT_LIVE, 0)));
    assert_eq!(store.look_up(1), Err(refused(number::NOT_LIVE, 0)));
    assert_eq!(store, Store::default());
    let fits = STORE_ROOM / (named(0, NAME_LIMIT).len() + STORE_HEAD);
    for i in 0..fits {
        assert_eq!(
            store.enter(&named(i, NAME_LIMIT)).unwrap().number,
            i as u64 + 1
        );
    }
    let full = store.clone();
    assert_eq!(
        store.enter(&named(fits, NAME_LIMIT)),
        Err(refused(number::STORE_ROOM, 0))
    );
    assert_eq!(store, full);
    assert_eq!(Store::from_bytes(full.as_bytes()), Ok(full.clone()));
    assert_eq!(store.look_up(2).unwrap().line, named(1, NAME_LIMIT));
    for bytes in [&full.as_bytes()[1..], b"", &[1; STORE_SIZE]] {
        assert_eq!(Store::from_bytes(bytes), Err(refused(number::STORE, 0)));
    }
    // No type, and the last number given.
    let mut last = vec![0; STORE_SIZE];
    last[..2].fill(0xff);
    let mut store = Store::from_bytes(&last).unwrap();
    assert_eq!(store.enter(b"D,"), Err(refused(number::STORE_NUMBERS, 0)));
}

/// What only buffers of other lengths get.
#[test]
fn lent_buffers() {
    let good = sheet("null\n");
    let (mut work, mut out) = (vec![1; WORK_SIZE], vec![1; UNIFY_OUTPUT]);
    assert_eq!(
        lent::infer_types(&good, &mut [], &mut out),
        (number::WORK, 0)
    );
    assert_eq!(
        lent::unify(b"D,", b"D,", &mut work[1..], &mut out),
        (number::WORK, 0, 0)
    );
    assert!(work.iter().chain(&out).all(|&byte| byte == 1));
    assert_eq!(
        lent::infer_types(&good, &mut work, &mut []),
        (number::OUTPUT, 0)
    );
    assert!(work.iter().all(|&byte| byte == 0));
    assert_eq!(
        lent::unify(b"D,", b"D,", &mut work, &mut out[1..]),
        (number::OUTPUT, 0, 0)
    );
    assert_eq!(
        lent::regular_line(b"D,", &mut work, &mut []),
        (number::OUTPUT, 0)
    );
}

#[test]
fn sentences() {
    let known = [1, 2, 3, 4, 5, 6, 7, 8, 9, 12, 13, 14, 15];
    for number in 0..20 {
        let refusal = refused(number, 0);
        let unknown = refusal.cause().contains("does not know");
        assert_eq!(unknown, !known.contains(&number), "{number}");
        assert_eq!(
            refusal.to_string(),
            format!("refusal {number}: {}", refusal.cause())
        );
    }
    let error: Box<dyn std::error::Error> = Box::new(refused(number::DEPTH, 27));
    assert_eq!(
        error.to_string(),
        "refusal 5 at line 27: an expression is deeper than 24"
    );
}
