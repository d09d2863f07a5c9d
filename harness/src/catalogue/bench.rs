//! The linked store calls against plain Rust on the same bytes. Every call checks the whole store first.

use super::in_place::IN_PLACE;
use super::lines::{any_line, line_of, one_slot, short_lines};
use super::store::stored;
use super::{Catalogue, LIVE_HEAD, ROOM};
use crate::bench::family::{turns, Family, Ready, Side, Turns};
use crate::library::StoreCalls;
use crate::limits::TYPE_BYTES;
use crate::random::Random;
use std::hint::black_box;
use std::rc::Rc;

/// How many types of a store are asked for, from the front to the end of the list.
const ASKED: usize = 4;

/// A line that is in no store here.
const NEW: &[u8] = b"K,6e6577,D,!,";

/// A list of these lines, as many as leave room for the new one.
fn filled(lines: impl Iterator<Item = Vec<u8>>) -> Catalogue {
    let mut list = Catalogue::default();
    let mut left = ROOM - LIVE_HEAD - NEW.len();
    for line in lines {
        let Some(less) = left.checked_sub(LIVE_HEAD + line.len()) else {
            break;
        };
        left = less;
        // A line that is there has another use.
        let _ = list.enter(&line);
    }
    list
}

fn mixed() -> Catalogue {
    let rng = &mut Random::new(1);
    let mut list = Catalogue::default();
    while list.live.len() < 300 {
        let line = any_line(rng);
        if line.len() <= 150 {
            let _ = list.enter(&line);
        }
    }
    list
}

/// A store full of lines at their longest.
fn long() -> Catalogue {
    let rng = &mut Random::new(1);
    filled((0..).map_while(|_| line_of(rng, TYPE_BYTES)))
}

/// The places in the list that are asked for.
fn asked(list: &Catalogue) -> impl Iterator<Item = usize> {
    let last = list.live.len() - 1;
    (0..ASKED).map(move |part| part * last / (ASKED - 1))
}

fn look_up(calls: StoreCalls, list: &Catalogue) -> Turns {
    let store = stored(list);
    let numbers: Vec<u64> = asked(list).map(|at| list.live[at].number).collect();
    turns(&Rc::new(numbers), move |number| {
        black_box((calls.look_up)(&store, *number));
    })
}

fn enter_present(calls: StoreCalls, list: &Catalogue) -> Turns {
    let mut store = stored(list);
    let lines: Vec<Vec<u8>> = asked(list).map(|at| list.live[at].line.clone()).collect();
    turns(&Rc::new(lines), move |line| {
        black_box((calls.enter)(&mut store, line));
    })
}

/// The numbers are used up one by one, so each time starts on the store as it was.
fn enter_and_release(calls: StoreCalls, list: &Catalogue) -> Turns {
    let mut store = stored(list);
    let last = [store[0], store[1]];
    turns(&Rc::new(vec![NEW]), move |line| {
        store[..2].copy_from_slice(&last);
        let (_, number, _) = (calls.enter)(&mut store, line);
        black_box((calls.release)(&mut store, number));
    })
}

/// Makes the list of a store.
type Make = fn() -> Catalogue;

/// One kind of calls on a store: its name, its turns, and how many times it is done in a turn.
#[derive(Clone, Copy)]
struct Use {
    name: &'static str,
    turns: fn(StoreCalls, &Catalogue) -> Turns,
    times: usize,
}

const USES: [Use; 3] = [
    Use {
        name: "look-up",
        turns: look_up,
        times: ASKED,
    },
    Use {
        name: "enter-present",
        turns: enter_present,
        times: ASKED,
    },
    Use {
        name: "enter-and-release",
        turns: enter_and_release,
        times: 1,
    },
];

fn ready(linked: StoreCalls, list: &Catalogue, of: Use) -> Ready {
    Ready {
        bytes: list.bytes(),
        calls: of.times,
        sides: vec![
            (Side::Library, (of.turns)(linked, list)),
            (Side::Reference, (of.turns)(IN_PLACE, list)),
        ],
    }
}

/// A family for each kind of calls on each store; entering a new type and releasing it is two calls, counted as one.
pub fn families(linked: StoreCalls) -> Vec<Family> {
    let stores: [(&str, Make); 4] = [
        ("300-mixed", mixed),
        ("full-long-lines", long),
        ("full-short-lines", || filled(short_lines())),
        ("full-one-slot", || filled(one_slot())),
    ];
    let mut all = Vec::new();
    for (name, list) in stores {
        for of in USES {
            let family = format!("store/{name}/{}", of.name);
            all.push(Family::new(family, move || ready(linked, &list(), of)));
        }
    }
    all
}
