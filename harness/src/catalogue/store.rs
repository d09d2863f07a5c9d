//! The store's bytes: printed from a list, and read strictly.

use super::{Catalogue, Live, LIVE_HEAD, STORE_BYTES};
use crate::type_line::read_type_line;
use std::collections::BTreeSet;

/// The last number given and six zeros.
const STORE_HEAD: usize = 8;

/// The store of a list.
pub fn stored(catalogue: &Catalogue) -> Vec<u8> {
    let mut bytes = Vec::with_capacity(STORE_BYTES);
    put(&mut bytes, catalogue.last, 2);
    put(&mut bytes, 0, 6);
    for live in &catalogue.live {
        put_live(&mut bytes, live);
    }
    bytes.resize(STORE_BYTES, 0);
    bytes
}

/// Appends a live type.
pub fn put_live(bytes: &mut Vec<u8>, live: &Live) {
    put(bytes, live.number, 2);
    put(bytes, live.line.len() as u64, 2);
    put(bytes, live.uses, 4);
    bytes.extend_from_slice(&live.line);
}

/// Appends a number in so many bytes, low bytes first.
fn put(bytes: &mut Vec<u8>, number: u64, count: usize) {
    bytes.extend_from_slice(&number.to_le_bytes()[..count]);
}

/// The list of a store; none if its length or its form is wrong (refusal 2).
pub fn read_store(store: &[u8]) -> Option<Catalogue> {
    if store.len() != STORE_BYTES {
        return None;
    }
    let (head, mut rest) = store.split_at(STORE_HEAD);
    if !are_zeros(&head[2..]) {
        return None;
    }
    let mut list = Catalogue {
        last: low_first(&head[..2]),
        live: Vec::new(),
    };
    while !are_zeros(rest) {
        let live = read_live(rest)?;
        let before = list.live.last().map_or(0, |l| l.number);
        if live.number <= before || live.number > list.last {
            return None;
        }
        rest = &rest[live.bytes()..];
        list.live.push(live);
    }
    are_distinct(&list).then_some(list)
}

/// The live type at the front of some bytes, with uses above 0 and a line.
fn read_live(bytes: &[u8]) -> Option<Live> {
    let head = bytes.get(..LIVE_HEAD)?;
    let length = low_first(&head[2..4]) as usize;
    let line = bytes.get(LIVE_HEAD..LIVE_HEAD + length)?;
    let uses = low_first(&head[4..8]);
    if uses == 0 || read_type_line(line).is_none() {
        return None;
    }
    Some(Live {
        number: low_first(&head[..2]),
        line: line.to_vec(),
        uses,
    })
}

/// The number of some bytes, low bytes first.
fn low_first(bytes: &[u8]) -> u64 {
    bytes.iter().rev().fold(0, |n, &b| n * 256 + u64::from(b))
}

/// Whether all bytes are zero.
pub fn are_zeros(bytes: &[u8]) -> bool {
    // In pieces: a long rest ends at its first piece that is not zeros.
    bytes
        .chunks(128)
        .all(|piece| piece.iter().fold(0, |all, b| all | b) == 0)
}

fn are_distinct(list: &Catalogue) -> bool {
    let lines: BTreeSet<&[u8]> = list.live.iter().map(|l| &l.line[..]).collect();
    lines.len() == list.live.len()
}

/// Where the line of the live type at a place of the list stands in the store.
pub fn line_at(list: &Catalogue, place: usize) -> usize {
    let before: usize = list.live[..place].iter().map(Live::bytes).sum();
    STORE_HEAD + before + LIVE_HEAD
}

/// The store up to its last byte that is not zero.
pub fn front(store: &[u8]) -> &[u8] {
    let len = store.iter().rposition(|&b| b != 0).map_or(0, |at| at + 1);
    &store[..len]
}
