//! One call on a store, and what it leaves.

use super::calls::{enter_call, enter_in, look_up_call, look_up_in, release_call, release_in};
use super::Catalogue;
use crate::library::StoreCalls;

/// A call, without its store.
#[derive(Debug, Clone, PartialEq, Eq)]
pub enum Call {
    Enter(Vec<u8>),
    Release(u64),
    LookUp(u64),
}

/// The kinds of calls, as they are counted.
pub const KINDS: [&str; 3] = ["enter", "release", "look up"];

impl Call {
    /// Its place in [`KINDS`].
    pub fn kind(&self) -> usize {
        match self {
            Call::Enter(_) => 0,
            Call::Release(_) => 1,
            Call::LookUp(_) => 2,
        }
    }
}

/// A call on a given store.
#[derive(Debug, Clone, PartialEq, Eq)]
pub struct StoreCase {
    pub store: Vec<u8>,
    pub call: Call,
}

/// The number of a call and what it returns, the rest zeros: number and uses; uses left; place, length and uses.
#[derive(Debug, Clone, Copy, PartialEq, Eq)]
pub struct Answer {
    pub number: u32,
    pub returned: [u64; 3],
}

/// The reference in the library's place.
pub const REFERENCE: StoreCalls = StoreCalls {
    enter: enter_call,
    release: release_call,
    look_up: look_up_call,
};

/// Runs a call on a store.
pub fn answer(calls: StoreCalls, store: &mut [u8], call: &Call) -> Answer {
    match call {
        Call::Enter(text) => entered((calls.enter)(store, text)),
        Call::Release(number) => released((calls.release)(store, *number)),
        Call::LookUp(number) => looked_up((calls.look_up)(store, *number)),
    }
}

/// Runs a call on a list.
pub fn answer_in(list: &mut Catalogue, call: &Call) -> Answer {
    match call {
        Call::Enter(text) => entered(enter_in(list, text)),
        Call::Release(number) => released(release_in(list, *number)),
        Call::LookUp(number) => looked_up(look_up_in(list, *number)),
    }
}

fn entered((number, first, second): (u32, u64, u64)) -> Answer {
    let returned = [first, second, 0];
    Answer { number, returned }
}

fn released((number, left): (u32, u64)) -> Answer {
    let returned = [left, 0, 0];
    Answer { number, returned }
}

fn looked_up((number, at, length, uses): (u32, u64, u64, u64)) -> Answer {
    let returned = [at, length, uses];
    Answer { number, returned }
}

/// Bytes kept before and behind the store, to see writes beside it.
pub const EDGE: usize = 64;

/// A store between edges that hold a pattern.
pub fn lent(store: &[u8]) -> Vec<u8> {
    let edge: Vec<u8> = (0..EDGE).map(|i| (i as u8) | 0xa1).collect();
    [&edge[..], store, &edge[..]].concat()
}

/// The store between the edges.
pub fn inside(bytes: &mut [u8]) -> &mut [u8] {
    let end = bytes.len() - EDGE;
    &mut bytes[EDGE..end]
}

/// What a call answers, and the store with its edges afterwards.
pub fn settle(calls: StoreCalls, case: &StoreCase) -> (Answer, Vec<u8>) {
    let mut bytes = lent(&case.store);
    let answer = answer(calls, inside(&mut bytes), &case.call);
    (answer, bytes)
}
