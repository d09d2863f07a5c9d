//! The store calls once more, as a Rust program would do them on the bytes with no list: to measure against.

use super::store::are_zeros;
use super::{LIVE_HEAD, NOT_LIVE, NO_ROOM, NUMBER, STORE_BYTES, TOO_MANY, USES};
use crate::library::StoreCalls;
use crate::type_line::read_type_line;
use std::collections::HashSet;

pub const IN_PLACE: StoreCalls = StoreCalls {
    enter,
    release,
    look_up,
};

/// The head of a live type.
struct Head {
    number: u64,
    length: usize,
    uses: u64,
}

fn number16(store: &[u8], at: usize) -> u64 {
    u64::from(u16::from_le_bytes([store[at], store[at + 1]]))
}

fn head(store: &[u8], at: usize) -> Head {
    Head {
        number: number16(store, at),
        length: number16(store, at + 2) as usize,
        uses: number16(store, at + 4) + (number16(store, at + 6) << 16),
    }
}

fn put_uses(store: &mut [u8], at: usize, uses: u64) {
    store[at + 4..at + 8].copy_from_slice(&(uses as u32).to_le_bytes());
}

/// The last number given and the end of the live types; none if the store has not the form.
fn check(store: &[u8]) -> Option<(u64, usize)> {
    if store.len() != STORE_BYTES || !are_zeros(&store[2..8]) {
        return None;
    }
    let last = number16(store, 0);
    let mut lines = HashSet::new();
    let (mut at, mut before) = (8, 0);
    while at + LIVE_HEAD <= STORE_BYTES && number16(store, at) != 0 {
        let live = head(store, at);
        let next = at + LIVE_HEAD + live.length;
        let line = store.get(at + LIVE_HEAD..next)?;
        let ordered = before < live.number && live.number <= last && live.uses > 0;
        if !ordered || read_type_line(line).is_none() || !lines.insert(line) {
            return None;
        }
        (at, before) = (next, live.number);
    }
    are_zeros(&store[at..]).then_some((last, at))
}

/// The place of the first live type that a test takes.
fn find(store: &[u8], end: usize, test: impl Fn(&Head, &[u8]) -> bool) -> Option<usize> {
    let mut at = 8;
    while at < end {
        let live = head(store, at);
        let next = at + LIVE_HEAD + live.length;
        if test(&live, &store[at + LIVE_HEAD..next]) {
            return Some(at);
        }
        at = next;
    }
    None
}

fn enter(store: &mut [u8], text: &[u8]) -> (u32, u64, u64) {
    let Some((last, end)) = check(store) else {
        return (2, 0, 0);
    };
    if read_type_line(text).is_none() {
        return (8, 1, 0);
    }
    if let Some(at) = find(store, end, |_, line| line == text) {
        let live = head(store, at);
        if live.uses == USES {
            return (TOO_MANY, 0, 0);
        }
        put_uses(store, at, live.uses + 1);
        return (0, live.number, live.uses + 1);
    }
    let next = end + LIVE_HEAD + text.len();
    if last == NUMBER {
        return (TOO_MANY, 0, 0);
    }
    if next > STORE_BYTES {
        return (NO_ROOM, 0, 0);
    }
    let number = (last as u16 + 1).to_le_bytes();
    store[..2].copy_from_slice(&number);
    store[end..end + 2].copy_from_slice(&number);
    store[end + 2..end + 4].copy_from_slice(&(text.len() as u16).to_le_bytes());
    put_uses(store, end, 1);
    store[end + LIVE_HEAD..next].copy_from_slice(text);
    (0, last + 1, 1)
}

fn release(store: &mut [u8], number: u64) -> (u32, u64) {
    let Some((_, end)) = check(store) else {
        return (2, 0);
    };
    let Some(at) = find(store, end, |live, _| live.number == number) else {
        return (NOT_LIVE, 0);
    };
    let live = head(store, at);
    if live.uses > 1 {
        put_uses(store, at, live.uses - 1);
        return (0, live.uses - 1);
    }
    let size = LIVE_HEAD + live.length;
    store.copy_within(at + size..end, at);
    store[end - size..end].fill(0);
    (0, 0)
}

fn look_up(store: &[u8], number: u64) -> (u32, u64, u64, u64) {
    let Some((_, end)) = check(store) else {
        return (2, 0, 0, 0);
    };
    let Some(at) = find(store, end, |live, _| live.number == number) else {
        return (NOT_LIVE, 0, 0, 0);
    };
    let live = head(store, at);
    let line = at + LIVE_HEAD;
    (0, line as u64, live.length as u64, live.uses)
}
