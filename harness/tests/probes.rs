//! Both sides of every limit, as RULES say of each.

use cyrs_harness::calls::{sheet_call, unify_call};
use cyrs_harness::generate::probes::{pair_probes, sheet_probes};

#[test]
fn sheets() {
    let mut wrong = Vec::new();
    for p in sheet_probes() {
        let (mut work, mut out) = (vec![7; p.work], vec![9; p.out]);
        let (number, first) = sheet_call(&p.sheet, &mut work, &mut out);
        let place = if number == 0 { 0 } else { first };
        if (number, place) != (p.number, p.place) {
            wrong.push(format!(
                "{}: {number},{place} for {},{}",
                p.name, p.number, p.place
            ));
        }
        let (work_is, out_is) = match number {
            0 => (0, 9),
            1 | 2 => (7, 9),
            _ => (0, 0),
        };
        let written = if number == 0 { first as usize } else { 0 };
        assert!(work.iter().all(|&b| b == work_is), "{}", p.name);
        assert!(out[written..].iter().all(|&b| b == out_is), "{}", p.name);
    }
    assert!(wrong.is_empty(), "{}", wrong.join("\n"));
}

#[test]
fn pairs() {
    let mut wrong = Vec::new();
    for p in pair_probes() {
        let (mut work, mut out) = (vec![7; p.work], vec![9; p.out]);
        let (number, first, second) = unify_call(&p.a, &p.b, &mut work, &mut out);
        let place = if number == 8 { first } else { 0 };
        if (number, place) != (p.number, p.place) {
            wrong.push(format!(
                "{}: {number},{place} for {},{}\n  {}\n  {}",
                p.name,
                p.number,
                p.place,
                String::from_utf8_lossy(&p.a),
                String::from_utf8_lossy(&p.b)
            ));
        }
        let (work_is, out_is) = match number {
            0 | 9 => (0, 9),
            2 => (7, 9),
            _ => (0, 0),
        };
        let written = match number {
            0 | 9 => (first + second) as usize,
            _ => 0,
        };
        assert!(work.iter().all(|&b| b == work_is), "{}", p.name);
        assert!(out[written..].iter().all(|&b| b == out_is), "{}", p.name);
    }
    assert!(wrong.is_empty(), "{}", wrong.join("\n"));
}
