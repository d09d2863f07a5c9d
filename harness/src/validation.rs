//! The comparison of `cyrs_check_sheet` with the reference's reader: number and place, for any bytes.

use crate::calls::check_call;
use crate::cases::{check_sheet, fixed_sheet_cases, Case};
use crate::differential::{show_sheet, SHOWN};
use crate::generate::hostile::everywhere;
use crate::library::CheckCall;
use crate::random::Random;
use crate::shrink::smallest_sheet;
use std::time::Instant;

/// The fixed sheets, with their names.
fn fixed_sheets() -> impl Iterator<Item = (String, Vec<u8>)> {
    let sheet = |(name, case)| match case {
        Case::Sheet { sheet, .. } => Some((name, sheet)),
        Case::Pair { .. } => None,
    };
    let damaged = everywhere().enumerate();
    fixed_sheet_cases()
        .into_iter()
        .filter_map(sheet)
        .chain(damaged.map(|(i, sheet)| (format!("damage {i}"), sheet)))
}

/// Compares the fixed sheets and `count` random ones; true if nothing differs.
pub fn run(call: CheckCall, count: u64, seed: u64) -> bool {
    println!("compared: cyrs_check_sheet");
    let mut run = Run {
        call,
        sheets: 0,
        different: 0,
        numbers: [0; 6],
        start: Instant::now(),
    };
    for (name, sheet) in fixed_sheets() {
        run.compare(sheet, &format!("fixed sheet {name}"));
    }
    run.tell("fixed");
    for i in 0..count {
        let one = seed.wrapping_add(i);
        run.compare(check_sheet(&mut Random::new(one)), &format!("seed {one}"));
        if run.different >= SHOWN {
            println!("stopped after {SHOWN} differences");
            break;
        }
        if (i + 1) % 200_000 == 0 && i + 1 < count {
            run.tell("so far");
        }
    }
    run.tell("validation");
    run.different == 0
}

struct Run {
    call: CheckCall,
    sheets: u64,
    different: usize,
    /// How many sheets have each number.
    numbers: [u64; 6],
    start: Instant,
}

impl Run {
    fn compare(&mut self, sheet: Vec<u8>, from: &str) {
        let expected = check_call(&sheet);
        self.sheets += 1;
        self.numbers[expected.0 as usize] += 1;
        if (self.call)(&sheet) == expected {
            return;
        }
        self.different += 1;
        if self.different <= SHOWN {
            println!("DIFFERENCE {} ({from})", self.different);
            self.show(sheet);
        }
    }

    fn show(&self, sheet: Vec<u8>) {
        let least = smallest_sheet(sheet, |s| (self.call)(s) != check_call(s));
        show_sheet(&least);
        for (who, answer) in [
            ("reference", check_call(&least)),
            ("library", (self.call)(&least)),
        ] {
            println!("{who}: number {}, place {}", answer.0, answer.1);
        }
    }

    fn tell(&self, what: &str) {
        let [n0, n1, _, n3, n4, n5] = self.numbers;
        println!(
            "{what}: {} sheets, {} different (0: {n0}, 1: {n1}, 3: {n3}, 4: {n4}, 5: {n5}), {:.1} s",
            self.sheets,
            self.different,
            self.start.elapsed().as_secs_f64()
        );
    }
}
