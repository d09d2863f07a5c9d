//! Type lines to enter: of any exact length, the shortest ones in order, and pools of them.

use crate::generate::types::{any_type, large, sized_node, Domain};
use crate::limits::{NAME_BYTES, TYPE_BYTES};
use crate::random::Random;
use crate::type_line::{read_type_line, type_line};
use std::sync::OnceLock;

/// Types of one letter, and their place in the shortest lines.
const LETTERS: &[u8] = b"ABCDEFGHINP";

/// A line of exactly so many bytes with random names; none under 9 but for 5 and 7, and none over the limit of a line.
pub fn line_of(rng: &mut Random, bytes: usize) -> Option<Vec<u8>> {
    const LEAST_SIZED: usize = 60;
    match bytes {
        LEAST_SIZED..=TYPE_BYTES => Some(type_line(&sized_node(rng, bytes))),
        5.. if bytes < LEAST_SIZED && bytes % 2 == 1 => {
            Some(named(rng, b"M,+,", (bytes - 5) / 2, b","))
        }
        10.. if bytes < LEAST_SIZED => Some(named(rng, b"L,+,,", (bytes - 8) / 2, b",!,")),
        _ => None,
    }
}

fn named(rng: &mut Random, front: &[u8], name: usize, back: &[u8]) -> Vec<u8> {
    let digits = (0..2 * name).map(|_| *rng.pick(b"0123456789abcdef"));
    let digits: Vec<u8> = digits.collect();
    [front, &digits, back].concat()
}

/// The shortest lines: two bytes, four, seven, and then nine as far as they go.
pub fn short_lines() -> impl Iterator<Item = Vec<u8>> {
    let letters = LETTERS.iter().map(|&b| vec![b, b',']);
    let lists = LETTERS.iter().map(|&b| vec![b'J', b',', b, b',']);
    let empty = ["K,!,", "L,!,", "M,!,"].map(|l| l.as_bytes().to_vec());
    let one = (0..=0xff).map(|i| format!("M,+,{i:02x},").into_bytes());
    let two = (0..=0xffff).map(|i| format!("M,+,{i:04x},").into_bytes());
    letters.chain(lists).chain(empty).chain(one).chain(two)
}

/// How many slots there are.
const SLOTS: usize = 32_768;

/// A sum of a line's bytes as a search for equal lines may sort them by.
fn slot(line: &[u8]) -> usize {
    line.iter().fold(0, |h, &b| (h * 31 + b as usize) % SLOTS)
}

/// Different lines of slot 0 in order: names of eight digits, and for each front half of one the back halves that make up for it. The
/// slot of a front and a back is the sum of the back's and of the front's with zeros in the back's place.
pub fn one_slot() -> impl Iterator<Item = Vec<u8>> {
    let mut backs = vec![Vec::new(); SLOTS];
    for back in 0..=u16::MAX {
        backs[slot(format!("{back:04x},").as_bytes())].push(back);
    }
    (0..=u16::MAX).flat_map(move |front| {
        let taken = slot(format!("M,+,{front:04x}\0\0\0\0\0").as_bytes());
        let fitting = backs[(SLOTS - taken) % SLOTS].clone().into_iter();
        fitting.map(move |back| format!("M,+,{front:04x}{back:04x},").into_bytes())
    })
}

/// Some of them, found once.
fn few_of_one_slot() -> &'static [Vec<u8>] {
    static LINES: OnceLock<Vec<Vec<u8>>> = OnceLock::new();
    LINES.get_or_init(|| one_slot().take(150).collect())
}

/// A type line of any kind.
pub fn any_line(rng: &mut Random) -> Vec<u8> {
    loop {
        let nesting = rng.between(1, 5);
        let ty = match rng.once_in(10) {
            true => large(rng, Domain::All),
            false => any_type(rng, Domain::All, nesting),
        };
        let line = type_line(&ty);
        if read_type_line(&line).is_some() {
            return line;
        }
    }
}

/// A line that takes much of the store.
fn long_line(rng: &mut Random) -> Vec<u8> {
    let bytes = match rng.below(4) {
        0 => TYPE_BYTES,
        1 => rng.between(TYPE_BYTES - 9, TYPE_BYTES),
        _ => rng.between(2 * NAME_BYTES, TYPE_BYTES),
    };
    line_of(rng, bytes).unwrap_or_default()
}

/// Where the lines of a sequence come from.
#[derive(Debug, Clone, Copy, PartialEq, Eq)]
pub enum Pool {
    Few,
    Any,
    Many,
    Long,
    OneSlot,
    Short,
}

/// The lines of a pool.
pub fn lines(rng: &mut Random, pool: Pool) -> Vec<Vec<u8>> {
    match pool {
        Pool::Few => short_lines().take(rng.between(2, 14)).collect(),
        Pool::Any => (0..rng.between(2, 40)).map(|_| any_line(rng)).collect(),
        Pool::Many => (0..300).map(|_| any_line(rng)).collect(),
        Pool::Long => (0..rng.between(66, 120)).map(|_| long_line(rng)).collect(),
        Pool::OneSlot => few_of_one_slot().to_vec(),
        Pool::Short => short_lines().take(4_400).collect(),
    }
}

#[cfg(test)]
mod tests {
    use super::*;

    /// They are the lines that a search among all would find.
    #[test]
    fn lines_of_one_slot() {
        let all = (0..u32::MAX).map(|i| format!("M,+,{i:08x},").into_bytes());
        let found = all.filter(|line| slot(line) == 0);
        assert!(found.take(100).eq(one_slot().take(100)));
    }
}
