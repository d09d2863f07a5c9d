//! The comparison of `cyrs_regular_line` with the reference: number, returned number, and every byte of both buffers and
//! around them; of two accepted lines also that the library's bytes are equal exactly if the lines mean the same.

use super::call::regular_call;
use super::meaning::meaning;
use super::read::read_old;
use super::shrink::smallest_line;
use crate::cases::work_length;
use crate::differential::{settle, show_buffers, show_settled, Settled, SHOWN};
use crate::generate::old::{damaged_everywhere, old_pair, old_probes, old_text, small_lines};
use crate::library::RegularCall;
use crate::limits::{REGULAR_OUT_BYTES, WORK_BYTES};
use crate::random::Random;
use std::time::Instant;

/// One call.
#[derive(Debug, Clone, PartialEq, Eq)]
pub struct OldCase {
    pub line: Vec<u8>,
    pub work: usize,
    pub out: usize,
}

impl OldCase {
    /// The line with the buffers it needs.
    pub fn of(line: Vec<u8>) -> Self {
        OldCase {
            line,
            work: WORK_BYTES,
            out: REGULAR_OUT_BYTES,
        }
    }
}

/// A random call.
pub fn old_case(rng: &mut Random) -> OldCase {
    let out = match rng.below(100) {
        0 => REGULAR_OUT_BYTES - 1,
        1 => 0,
        2 => rng.below(REGULAR_OUT_BYTES),
        3 => REGULAR_OUT_BYTES + 1,
        4 => WORK_BYTES,
        _ => REGULAR_OUT_BYTES,
    };
    OldCase {
        line: old_text(rng),
        work: work_length(rng),
        out,
    }
}

/// The types of the small lines that are compared in full.
const SMALL_PARTS: usize = 4;

/// The fixed calls, with their names: all probes, all small lines, and one line damaged everywhere.
pub fn fixed_old_cases() -> impl Iterator<Item = (&'static str, OldCase)> {
    let probes = old_probes().into_iter().map(|p| {
        let (line, work, out) = (p.line, p.work, p.out);
        (p.name, OldCase { line, work, out })
    });
    let small = small_lines(SMALL_PARTS)
        .into_iter()
        .map(|l| ("small", OldCase::of(l)));
    let damaged = damaged_everywhere().map(|l| ("damaged", OldCase::of(l)));
    probes.chain(small).chain(damaged)
}

/// Compares the fixed calls and `count` random ones, half of them pairs of lines; true if nothing differs.
pub fn run(call: RegularCall, count: u64, seed: u64) -> bool {
    println!("compared: cyrs_regular_line");
    let mut run = Run::new(call);
    for (name, case) in fixed_old_cases() {
        run.compare(&case, &format!("fixed case {name}"));
        if run.stops() {
            return false;
        }
    }
    run.tell("fixed");
    for i in 0..count {
        let one = seed.wrapping_add(i);
        let mut rng = Random::new(one);
        match rng.once_in(2) {
            true => run.pair(&mut rng, &format!("seed {one}")),
            false => {
                run.compare(&old_case(&mut rng), &format!("seed {one}"));
            }
        }
        if run.stops() {
            return false;
        }
        if (i + 1) % 200_000 == 0 && i + 1 < count {
            run.tell("so far");
        }
    }
    run.tell("old lines");
    run.different == 0
}

/// The numbers of the call.
const NUMBERS: [u32; 5] = [0, 2, 6, 7, 12];

struct Run {
    call: RegularCall,
    lines: u64,
    /// How many lines have each of [`NUMBERS`].
    numbers: [u64; 5],
    /// Pairs of accepted lines, of one meaning and of two.
    same: u64,
    other: u64,
    different: usize,
    start: Instant,
}

impl Run {
    fn new(call: RegularCall) -> Self {
        Run {
            call,
            lines: 0,
            numbers: [0; 5],
            same: 0,
            other: 0,
            different: 0,
            start: Instant::now(),
        }
    }

    fn both(&self, case: &OldCase) -> (Settled, Settled) {
        let settle_by = |call: RegularCall| {
            settle(case.work, case.out, |work, out| {
                let (number, first) = call(&case.line, work, out);
                (number, first, 0)
            })
        };
        (settle_by(regular_call), settle_by(self.call))
    }

    /// Compares one call; gives what the library left.
    fn compare(&mut self, case: &OldCase, from: &str) -> Settled {
        let (expected, actual) = self.both(case);
        self.lines += 1;
        if let Some(at) = NUMBERS.iter().position(|&n| n == expected.number) {
            self.numbers[at] += 1;
        }
        if expected != actual {
            self.differs(from);
            self.show(case);
        }
        actual
    }

    /// Compares two calls, and the library's two lines with the two meanings.
    fn pair(&mut self, rng: &mut Random, from: &str) {
        let (_, a, b) = old_pair(rng);
        let x = self.compare(&OldCase::of(a.clone()), from);
        let y = self.compare(&OldCase::of(b.clone()), from);
        let (Some(old_a), Some(old_b)) = (read_old(&a), read_old(&b)) else {
            return;
        };
        if x.number != 0 || y.number != 0 {
            return;
        }
        let same = meaning(&old_a) == meaning(&old_b);
        match same {
            true => self.same += 1,
            false => self.other += 1,
        }
        if same != (x.written() == y.written()) {
            self.differs(from);
            println!(
                "lines of {} meaning, but:",
                if same { "one" } else { "another" }
            );
            for (line, settled) in [(&a, &x), (&b, &y)] {
                println!("{}", line.escape_ascii());
                println!("  made {}", settled.written().escape_ascii());
            }
        }
    }

    /// Whether enough differences were shown.
    fn stops(&self) -> bool {
        let enough = self.different >= SHOWN;
        if enough {
            println!("stopped after {SHOWN} differences");
        }
        enough
    }

    fn differs(&mut self, from: &str) {
        self.different += 1;
        println!("DIFFERENCE {} ({from})", self.different);
    }

    fn show(&self, case: &OldCase) {
        let with = |line: &[u8]| OldCase {
            line: line.to_vec(),
            ..*case
        };
        let least = smallest_line(case.line.clone(), |line| {
            let (expected, actual) = self.both(&with(line));
            expected != actual
        });
        println!(
            "smallest line found ({} bytes), work area {}, output {}:",
            least.len(),
            case.work,
            case.out
        );
        println!("{}", least.escape_ascii());
        let (expected, actual) = self.both(&with(&least));
        show_settled("reference", &expected);
        show_settled("library", &actual);
        show_buffers(["reference", "library"], &expected, &actual);
    }

    fn tell(&self, what: &str) {
        let by_number = NUMBERS.iter().zip(&self.numbers);
        let by_number: Vec<String> = by_number
            .map(|(n, count)| format!("{n}: {count}"))
            .collect();
        println!(
            "{what}: {} lines, {} different ({}); accepted pairs of one meaning {}, of two {}; {:.1} s",
            self.lines,
            self.different,
            by_number.join(", "),
            self.same,
            self.other,
            self.start.elapsed().as_secs_f64()
        );
    }
}
