//! The comparison of the static library with the reference: number, returned numbers, and every byte of both buffers and
//! around them; old lines by [`old::compare`], validation by [`validation`], stores of types by [`catalogue::compare`].

use crate::calls;
use crate::cases::{fixed_pair_cases, fixed_sheet_cases, pair_case, sheet_case, Case};
use crate::catalogue;
use crate::library::{Library, SheetCall, UnifyCall};
use crate::old;
use crate::random::Random;
use crate::shrink::smallest;
use crate::validation;
use std::time::Instant;

/// Bytes kept before and behind each lent buffer, to see writes beside it.
const EDGE: usize = 64;

/// How many differences are shown before the run stops.
pub(crate) const SHOWN: usize = 3;

/// What a call left.
#[derive(PartialEq, Eq, Clone)]
pub(crate) struct Settled {
    pub number: u32,
    pub first: u64,
    pub second: u64,
    work: Vec<u8>,
    out: Vec<u8>,
}

impl Settled {
    /// The lent output.
    pub fn out_mut(&mut self) -> &mut [u8] {
        inside(&mut self.out)
    }

    /// The front of the output, as long as the first returned number says.
    pub fn written(&self) -> &[u8] {
        let lent = &self.out[EDGE..self.out.len() - EDGE];
        &lent[..lent.len().min(self.first as usize)]
    }
}

/// A buffer with edges, filled with a pattern of its own.
fn lent(len: usize, salt: u8) -> Vec<u8> {
    let mut bytes = vec![0xa5 ^ salt; len + 2 * EDGE];
    for (i, b) in bytes.iter_mut().enumerate().step_by(7) {
        *b = (i as u8) | 1;
    }
    bytes
}

fn inside(bytes: &mut [u8]) -> &mut [u8] {
    let end = bytes.len() - EDGE;
    &mut bytes[EDGE..end]
}

/// Runs a call on lent buffers of these lengths, a work area and an output.
pub(crate) fn settle(
    work: usize,
    out: usize,
    call: impl FnOnce(&mut [u8], &mut [u8]) -> (u32, u64, u64),
) -> Settled {
    let (mut work, mut out) = (lent(work, 1), lent(out, 2));
    let (number, first, second) = call(inside(&mut work), inside(&mut out));
    Settled {
        number,
        first,
        second,
        work,
        out,
    }
}

/// Runs a sheet call on lent buffers.
fn settle_sheet(call: SheetCall, sheet: &[u8], work: usize, out: usize) -> Settled {
    settle(work, out, |work, out| {
        let (number, first) = call(sheet, work, out);
        (number, first, 0)
    })
}

/// Runs a unify call on lent buffers.
pub(crate) fn settle_pair(call: UnifyCall, a: &[u8], b: &[u8], work: usize, out: usize) -> Settled {
    settle(work, out, |work, out| call(a, b, work, out))
}

/// What the reference and the library leave.
fn both(library: &Library, case: &Case) -> (Settled, Settled) {
    match case {
        Case::Sheet { sheet, work, out } => {
            let by = |call| settle_sheet(call, sheet, *work, *out);
            (by(calls::sheet_call), by(library.sheet))
        }
        Case::Pair { a, b, work, out } => {
            let by = |call| settle_pair(call, a, b, *work, *out);
            (by(calls::unify_call), by(library.unify))
        }
    }
}

fn differs(library: &Library, case: &Case) -> bool {
    let (expected, actual) = both(library, case);
    expected != actual
}

/// Which of the two calls with both buffers are compared.
#[derive(Debug, Clone, Copy, PartialEq, Eq)]
pub enum Kind {
    Sheets,
    Pairs,
    Both,
}

impl Kind {
    /// The fixed cases, with their names.
    fn fixed(self) -> Vec<(String, Case)> {
        let mut cases = Vec::new();
        if self != Kind::Pairs {
            println!("compared: cyrs_infer_types");
            cases.extend(fixed_sheet_cases());
        }
        if self != Kind::Sheets {
            println!("compared: cyrs_unify");
            cases.extend(fixed_pair_cases());
        }
        cases
    }

    fn random(self, rng: &mut Random) -> Case {
        match self {
            Kind::Sheets => sheet_case(rng),
            Kind::Pairs => pair_case(rng),
            Kind::Both if rng.once_in(2) => pair_case(rng),
            Kind::Both => sheet_case(rng),
        }
    }
}

/// Compares each call on all its fixed inputs and on `count` random ones, which sheets and pairs share; true if nothing
/// differs.
pub fn run(library: Library, count: u64, seed: u64) -> bool {
    let results = [
        run_cases(library, Kind::Both, count, seed),
        old::compare::run(library.regular, count, seed),
        validation::run(library.check, count, seed),
        catalogue::compare::run(library.store, count, seed),
    ];
    results.into_iter().all(|same| same)
}

/// Compares all fixed cases and `count` random ones; true if nothing differs.
pub fn run_cases(library: Library, kind: Kind, count: u64, seed: u64) -> bool {
    let mut run = Run::new(library);
    for (name, case) in kind.fixed() {
        run.compare(case, &format!("fixed case {name}"));
    }
    println!("{} fixed cases compared", run.cases);
    for i in 0..count {
        let one = seed.wrapping_add(i);
        let case = kind.random(&mut Random::new(one));
        run.compare(case, &format!("seed {one}"));
        if run.differences >= SHOWN {
            println!("stopped after {SHOWN} differences");
            break;
        }
        if (i + 1) % 50_000 == 0 {
            run.progress(i + 1, count);
        }
    }
    run.finish()
}

struct Run {
    library: Library,
    cases: u64,
    /// How many calls of sheets and of pairs ended with each number.
    numbers: [[u64; 10]; 2],
    differences: usize,
    start: Instant,
}

impl Run {
    fn new(library: Library) -> Self {
        Run {
            library,
            cases: 0,
            numbers: [[0; 10]; 2],
            differences: 0,
            start: Instant::now(),
        }
    }

    fn compare(&mut self, case: Case, from: &str) {
        let (expected, actual) = both(&self.library, &case);
        self.cases += 1;
        let kind = usize::from(matches!(case, Case::Pair { .. }));
        self.numbers[kind][expected.number as usize % 10] += 1;
        if expected == actual {
            return;
        }
        self.differences += 1;
        if self.differences <= SHOWN {
            println!("DIFFERENCE {} ({from})", self.differences);
            let least = smallest(case, |c| differs(&self.library, c));
            self.show(&least);
        }
    }

    fn show(&self, case: &Case) {
        show_case(case);
        let (expected, actual) = both(&self.library, case);
        show_settled("reference", &expected);
        show_settled("library", &actual);
        show_buffers(["reference", "library"], &expected, &actual);
    }

    fn progress(&self, done: u64, count: u64) {
        let seconds = self.start.elapsed().as_secs();
        println!(
            "{done} of {count}, {} different, {seconds} s",
            self.differences
        );
    }

    fn finish(&self) -> bool {
        for (kind, numbers) in ["sheets", "pairs"].iter().zip(&self.numbers) {
            if numbers.iter().any(|&n| n > 0) {
                println!("{kind} by number 0 to 9: {numbers:?}");
            }
        }
        println!(
            "{} compared, {} different, {:.1} s",
            self.cases,
            self.differences,
            self.start.elapsed().as_secs_f64()
        );
        self.differences == 0
    }
}

/// Prints a case so that it can be repeated.
pub fn show_case(case: &Case) {
    match case {
        Case::Sheet { sheet, work, out } => {
            show_sheet(sheet);
            println!("work area {work}, output {out}");
        }
        Case::Pair { a, b, work, out } => {
            println!("smallest pair found, work area {work}, output {out}:");
            println!("{}", a.escape_ascii());
            println!("{}", b.escape_ascii());
        }
    }
}

/// Prints a sheet so that it can be repeated.
pub fn show_sheet(sheet: &[u8]) {
    println!("smallest sheet found ({} bytes):", sheet.len());
    println!("{}", sheet.escape_ascii().to_string().replace("\\n", "\n"));
}

pub(crate) fn show_settled(who: &str, settled: &Settled) {
    println!(
        "{who}: number {}, returned {} and {}",
        settled.number, settled.first, settled.second
    );
}

/// Prints where each buffer differs first, and what stands around there, the lent buffer's edges included.
pub(crate) fn show_buffers(who: [&str; 2], expected: &Settled, actual: &Settled) {
    for (name, x, y) in [
        ("work area", &expected.work, &actual.work),
        ("output", &expected.out, &actual.out),
    ] {
        if let Some(at) = (0..x.len()).find(|&i| x[i] != y[i]) {
            let place = at as i64 - EDGE as i64;
            println!(
                "{name} differs first at byte {place} of {}",
                x.len() - 2 * EDGE
            );
            let around = at.saturating_sub(20)..(at + 60).min(x.len());
            println!("  {}: {}", who[0], x[around.clone()].escape_ascii());
            println!("  {}: {}", who[1], y[around].escape_ascii());
        }
    }
}
