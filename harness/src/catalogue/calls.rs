//! The store calls by the reference, with all their refusals: 2, then 8 with place 1, then 14, then 13; or 2, then 15.
//! Returned numbers that are not used are 0, and a refusal leaves the store as lent.

use super::store::{line_at, read_store, stored};
use super::Catalogue;
use crate::type_line::read_type_line;

/// Enters a type: number, its number, its uses.
pub fn enter_call(store: &mut [u8], text: &[u8]) -> (u32, u64, u64) {
    let Some(mut list) = read_store(store) else {
        return (2, 0, 0);
    };
    let answer = enter_in(&mut list, text);
    if answer.0 == 0 {
        store.copy_from_slice(&stored(&list));
    }
    answer
}

/// Enters a text in a list.
pub fn enter_in(list: &mut Catalogue, text: &[u8]) -> (u32, u64, u64) {
    if read_type_line(text).is_none() {
        return (8, 1, 0);
    }
    match list.enter(text) {
        Ok((number, uses)) => (0, number, uses),
        Err(refusal) => (refusal, 0, 0),
    }
}

/// Releases a use of a type: number, uses left.
pub fn release_call(store: &mut [u8], number: u64) -> (u32, u64) {
    let Some(mut list) = read_store(store) else {
        return (2, 0);
    };
    let answer = release_in(&mut list, number);
    if answer.0 == 0 {
        store.copy_from_slice(&stored(&list));
    }
    answer
}

/// Releases a use in a list.
pub fn release_in(list: &mut Catalogue, number: u64) -> (u32, u64) {
    match list.release(number) {
        Ok(left) => (0, left),
        Err(refusal) => (refusal, 0),
    }
}

/// Looks a number up: number, place and length of the line in the store, uses.
pub fn look_up_call(store: &[u8], number: u64) -> (u32, u64, u64, u64) {
    match read_store(store) {
        Some(list) => look_up_in(&list, number),
        None => (2, 0, 0, 0),
    }
}

/// Looks a number up in a list.
pub fn look_up_in(list: &Catalogue, number: u64) -> (u32, u64, u64, u64) {
    match list.look_up(number) {
        Ok(live) => {
            let before = list.live.iter().take_while(|l| l.number != number).count();
            let at = line_at(list, before);
            (0, at as u64, live.line.len() as u64, live.uses)
        }
        Err(refusal) => (refusal, 0, 0, 0),
    }
}
