//! The comparison of the library's store calls with the reference: number, returned numbers, every byte of the store and around it
//! after each call. In a sequence the reference is the list alone; a call on a given store is read by the reference too.

use super::cases::{answer, answer_in, inside, lent, settle, Answer, Call, StoreCase};
use super::cases::{EDGE, KINDS, REFERENCE};
use super::probes::{every_byte, store_probes};
use super::sequence::{every_number, filled_and_released, many_short, Sequence};
use super::store::{front, read_store, stored};
use super::Catalogue;
use crate::differential::SHOWN;
use crate::library::StoreCalls;
use std::time::Instant;

/// Numbers of the calls, and one more.
const NUMBERS: usize = 16;

/// Compares all fixed cases and sequences, then random sequences until `count` calls were made in them; true if nothing
/// differs. A sequence has a seed of its own, counted up from `seed`.
pub fn run(calls: StoreCalls, count: u64, seed: u64) -> bool {
    println!("compared: cyrs_enter_type, cyrs_release_type, cyrs_look_up_type");
    let mut run = Run::new(calls);
    run.fixed();
    run.tell("fixed");
    let wanted = run.calls + count;
    let mut told = run.calls;
    let mut next = seed;
    while run.calls < wanted && !run.stopped() {
        run.random(next);
        next = next.wrapping_add(1);
        if run.calls - told >= 250_000 && run.calls < wanted {
            run.tell("so far");
            told = run.calls;
        }
    }
    if run.stopped() {
        println!("stopped after {SHOWN} differences");
    }
    run.tell("store calls");
    run.tell_numbers();
    run.different == 0
}

struct Run {
    linked: StoreCalls,
    calls: u64,
    sequences: u64,
    most_types: usize,
    /// How many calls of each kind ended with each number.
    numbers: [[u64; NUMBERS]; 3],
    different: usize,
    start: Instant,
}

impl Run {
    fn new(linked: StoreCalls) -> Self {
        Run {
            linked,
            calls: 0,
            sequences: 0,
            most_types: 0,
            numbers: [[0; NUMBERS]; 3],
            different: 0,
            start: Instant::now(),
        }
    }

    fn stopped(&self) -> bool {
        self.different >= SHOWN
    }

    fn fixed(&mut self) {
        for (name, case) in store_probes().into_iter().chain(every_byte()) {
            if self.stopped() {
                return;
            }
            self.single(case, &format!("fixed case {name}"));
        }
        let fixed = [
            ("every number", every_number()),
            ("filled and released", filled_and_released()),
            ("many short", many_short()),
        ];
        for (name, calls) in fixed {
            let mut calls = calls.into_iter();
            let from = format!("fixed sequence {name}");
            let mut walk = Walk::new(Catalogue::default());
            while let Some(call) = calls.next().filter(|_| !self.stopped()) {
                if !self.step(&mut walk, call, &from) {
                    break;
                }
            }
            self.sequences += 1;
        }
    }

    /// The sequence of a seed.
    fn random(&mut self, seed: u64) {
        let from = format!("seed {seed}");
        let (mut sequence, list) = Sequence::new(seed);
        let mut walk = Walk::new(list);
        while let Some(call) = sequence.next(&walk.list) {
            if let Some((store, call)) = sequence.aside(&walk.list) {
                self.single(StoreCase { store, call }, &from);
            }
            if !self.step(&mut walk, call, &from) || self.stopped() {
                break;
            }
        }
        self.sequences += 1;
    }

    /// A call on a given store.
    fn single(&mut self, case: StoreCase, from: &str) {
        let expected = settle(REFERENCE, &case);
        self.count(&case.call, expected.0);
        if settle(self.linked, &case) != expected {
            self.differs(case, from);
        }
    }

    /// The next call of a sequence; false if it differs.
    fn step(&mut self, walk: &mut Walk, call: Call, from: &str) -> bool {
        let expected = answer_in(&mut walk.list, &call);
        self.count(&call, expected);
        self.most_types = self.most_types.max(walk.list.live.len());
        let actual = answer(self.linked, inside(&mut walk.actual), &call);
        let writes = expected.number == 0 && !matches!(call, Call::LookUp(_));
        let after = writes.then(|| lent(&stored(&walk.list)));
        let same = actual == expected && walk.actual == *after.as_ref().unwrap_or(&walk.expected);
        if !same {
            let store = inside(&mut walk.expected).to_vec();
            self.differs(StoreCase { store, call }, from);
        }
        walk.expected = after.unwrap_or_else(|| std::mem::take(&mut walk.expected));
        same
    }

    fn count(&mut self, call: &Call, expected: Answer) {
        self.calls += 1;
        self.numbers[call.kind()][expected.number as usize] += 1;
    }

    fn differs(&mut self, case: StoreCase, from: &str) {
        self.different += 1;
        println!("DIFFERENCE {} ({from})", self.different);
        let linked = self.linked;
        let least = smallest(case, |c| settle(linked, c) != settle(REFERENCE, c));
        show(&least, linked);
    }

    fn tell(&self, what: &str) {
        println!(
            "{what}: {} calls, {} sequences, at most {} types, {} different, {:.1} s",
            self.calls,
            self.sequences,
            self.most_types,
            self.different,
            self.start.elapsed().as_secs_f64()
        );
    }

    fn tell_numbers(&self) {
        for (kind, numbers) in KINDS.iter().zip(&self.numbers) {
            let seen = numbers.iter().enumerate().filter(|(_, &n)| n > 0);
            let seen: Vec<String> = seen.map(|(i, n)| format!("{i}: {n}")).collect();
            println!("{kind} by number: {}", seen.join(", "));
        }
    }
}

/// A sequence in progress: the list, and both stores with their edges.
struct Walk {
    list: Catalogue,
    expected: Vec<u8>,
    actual: Vec<u8>,
}

impl Walk {
    fn new(list: Catalogue) -> Self {
        let expected = lent(&stored(&list));
        let actual = expected.clone();
        Walk {
            list,
            expected,
            actual,
        }
    }
}

/// A case with fewer types, or a shorter front, for which the test still holds.
fn smallest(mut case: StoreCase, test: impl Fn(&StoreCase) -> bool) -> StoreCase {
    let mut size = front(&case.store).len().max(1);
    while size > 0 {
        let smaller = shortened(&case, size).into_iter().find(|c| test(c));
        match smaller {
            Some(smaller) => case = smaller,
            None => size /= 2,
        }
    }
    case
}

/// The case without so many of its types, or if its store has no list, with so many bytes of its front zeros.
fn shortened(case: &StoreCase, size: usize) -> Vec<StoreCase> {
    let with = |store| StoreCase {
        store,
        call: case.call.clone(),
    };
    let Some(list) = read_store(&case.store) else {
        let Some(end) = front(&case.store).len().checked_sub(size) else {
            return Vec::new();
        };
        let mut store = case.store.clone();
        store[end..].fill(0);
        return vec![with(store)];
    };
    let starts = (0..list.live.len()).step_by(size);
    let fewer = starts.map(|start| {
        let mut list = list.clone();
        let end = list.live.len().min(start + size);
        list.live.drain(start..end);
        with(stored(&list))
    });
    fewer.collect()
}

/// Prints a case so that it can be repeated, with both answers.
fn show(case: &StoreCase, linked: StoreCalls) {
    let front = front(&case.store);
    println!(
        "smallest case found: a store of {} bytes, its front of {}, then zeros:",
        case.store.len(),
        front.len()
    );
    println!("{}", front.escape_ascii());
    match &case.call {
        Call::Enter(text) => println!("enter {}", text.escape_ascii()),
        Call::Release(number) => println!("release {number}"),
        Call::LookUp(number) => println!("look up {number}"),
    }
    let (expected, actual) = (settle(REFERENCE, case), settle(linked, case));
    for (who, (answer, _)) in [("reference", &expected), ("library", &actual)] {
        println!(
            "{who}: number {}, returned {:?}",
            answer.number, answer.returned
        );
    }
    let (x, y) = (expected.1, actual.1);
    if let Some(at) = (0..x.len()).find(|&i| x[i] != y[i]) {
        println!("store differs first at byte {}", at as i64 - EDGE as i64);
        let around = at.saturating_sub(20)..(at + 60).min(x.len());
        println!("  reference: {}", x[around.clone()].escape_ascii());
        println!("  library:   {}", y[around].escape_ascii());
    }
}
