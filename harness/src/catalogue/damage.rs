//! Stores that are mostly not of the form, each close to one that is.

use super::store::{front, line_at, stored};
use super::{Catalogue, LIVE_HEAD, STORE_BYTES};
use crate::generate::types::{irregular, sized_node};
use crate::limits::TYPE_BYTES;
use crate::random::Random;
use crate::type_line::type_line;

/// The list's store with something wrong in it.
pub fn damaged(rng: &mut Random, list: &Catalogue) -> Vec<u8> {
    match rng.once_in(2) && !list.live.is_empty() {
        true => {
            let mut list = list.clone();
            change_list(rng, &mut list);
            stored(&list)
        }
        false => {
            let mut store = stored(list);
            change_bytes(rng, list, &mut store);
            store
        }
    }
}

/// Breaks one rule of the list.
fn change_list(rng: &mut Random, list: &mut Catalogue) {
    let count = list.live.len();
    let (at, other) = (rng.below(count), rng.below(count));
    let number = list.live[other].number;
    match rng.below(9) {
        0 => list.live[at].number = 0,
        1 => list.live[at].number = number,
        2 => list.live[at].number = list.last + 1,
        3 => list.live[at].uses = 0,
        4 => list.live[at].line = list.live[other].line.clone(),
        5 => list.live[at].line = irregular(rng, &list.live[at].line),
        6 => {
            let bytes = TYPE_BYTES + rng.below(5);
            list.live[at].line = type_line(&sized_node(rng, bytes));
        }
        7 => list.live.swap(at, other),
        _ => list.last = number.saturating_sub(1),
    }
}

/// Makes some bytes others, or the store shorter or longer.
fn change_bytes(rng: &mut Random, list: &Catalogue, store: &mut Vec<u8>) {
    let end = front(store).len();
    match rng.below(8) {
        0 => {
            let short = rng.below(STORE_BYTES);
            let lengths = [0, 1, STORE_BYTES - 1, STORE_BYTES + 1, short];
            store.resize(*rng.pick(&lengths), 0);
        }
        1 => store[rng.below(8)] ^= 1 << rng.below(8),
        2 | 3 => store[rng.below(end + 1)] ^= 1 << rng.below(8),
        4 => store[rng.below(end + 1)] = rng.next_u64() as u8,
        5 => {
            let behind = (end + rng.below(LIVE_HEAD + 1)).min(STORE_BYTES - 1);
            store[behind] = 1 + rng.below(255) as u8;
        }
        6 => {
            let behind = rng.between(end.min(STORE_BYTES - 1), STORE_BYTES - 1);
            store[behind] = 1 + rng.below(255) as u8;
        }
        _ => change_length(rng, list, store),
    }
}

/// Gives a live type another length.
fn change_length(rng: &mut Random, list: &Catalogue, store: &mut [u8]) {
    let Some(place) = list.live.len().checked_sub(1).map(|m| rng.between(0, m)) else {
        return;
    };
    let line = line_at(list, place);
    let length = list.live[place].line.len();
    let to_end = STORE_BYTES - line;
    let lengths = [
        0,
        length - 1,
        length + 1,
        length ^ 256,
        TYPE_BYTES + 1,
        to_end,
        to_end + 1,
        65_535,
    ];
    let length = *rng.pick(&lengths) as u16;
    store[line - 6..line - 4].copy_from_slice(&length.to_le_bytes());
}
