//! Sequences of calls: random ones from a seed, and two that reach a limit from an empty store.

use super::cases::Call;
use super::damage::damaged;
use super::draw::{call, catalogue, manner, Manner};
use super::lines::{line_of, lines, short_lines, Pool};
use super::{Catalogue, LIVE_HEAD, NUMBER, ROOM};
use crate::limits::TYPE_BYTES;
use crate::random::Random;

/// Mostly enters.
const FILLING: Manner = [30, 0, 1, 1, 1, 1, 1];

/// A random sequence in progress.
pub struct Sequence {
    rng: Random,
    lines: Vec<Vec<u8>>,
    manner: Manner,
    /// How many calls are made in one manner, about.
    turn: usize,
    left: usize,
}

impl Sequence {
    /// The sequence of a seed, and the list it starts from: mostly the empty one.
    pub fn new(seed: u64) -> (Self, Catalogue) {
        let mut rng = Random::new(seed);
        let pool = match rng.below(60) {
            0 => Pool::Short,
            1..=4 => Pool::OneSlot,
            5..=14 => Pool::Many,
            15..=29 => Pool::Long,
            30..=44 => Pool::Few,
            _ => Pool::Any,
        };
        let lines = lines(&mut rng, pool);
        let list = match rng.once_in(4) {
            true => catalogue(&mut rng, &lines),
            false => Catalogue::default(),
        };
        // Two pools are there to fill the store.
        let (left, turn, manner) = match pool {
            Pool::Short => (6_000, 1_500, FILLING),
            Pool::Long => (rng.between(150, 600), 100, FILLING),
            _ => (rng.between(20, 600), 50, manner(&mut rng)),
        };
        let sequence = Sequence {
            rng,
            lines,
            manner,
            turn,
            left,
        };
        (sequence, list)
    }

    /// The next call; none at the end.
    pub fn next(&mut self, list: &Catalogue) -> Option<Call> {
        self.left = self.left.checked_sub(1)?;
        if self.rng.once_in(self.turn) {
            self.manner = manner(&mut self.rng);
        }
        Some(call(&mut self.rng, list, &self.lines, &self.manner))
    }

    /// Now and then a damaged store and a call on it, which is beside the sequence.
    pub fn aside(&mut self, list: &Catalogue) -> Option<(Vec<u8>, Call)> {
        if !self.rng.once_in(4) {
            return None;
        }
        let store = damaged(&mut self.rng, list);
        Some((store, call(&mut self.rng, list, &self.lines, &self.manner)))
    }
}

/// Every number given from an empty store: one type stays, others come and go; then a present type and a new one.
pub fn every_number() -> Vec<Call> {
    let enter = |line: &str| Call::Enter(line.as_bytes().to_vec());
    let mut calls = vec![enter("C,"), enter("D,")];
    for number in 2..NUMBER {
        calls.push(Call::Release(number));
        calls.push(enter(["D,", "J,D,", "M,+,61,"][number as usize % 3]));
    }
    let last = [
        enter("C,"),
        enter("H,"),
        enter("x"),
        Call::LookUp(1),
        Call::LookUp(NUMBER),
        Call::Release(NUMBER),
        enter("H,"),
        Call::Release(1),
        Call::Release(1),
        enter("C,"),
        Call::LookUp(1),
    ];
    calls.extend(last);
    calls
}

/// A store filled to the last byte and one byte further, released from at its front, middle and end, and filled again.
pub fn filled_and_released() -> Vec<Call> {
    let mut rng = Random::new(1);
    let mut calls = Vec::new();
    let mut left = ROOM;
    let long = LIVE_HEAD + TYPE_BYTES;
    while left > long {
        calls.extend(line_of(&mut rng, TYPE_BYTES).map(Call::Enter));
        left -= long;
    }
    let types = calls.len() as u64;
    let just = |rng: &mut Random, more: usize| {
        Call::Enter(line_of(rng, left + more - LIVE_HEAD).unwrap_or_default())
    };
    let (over, full) = (just(&mut rng, 1), just(&mut rng, 0));
    calls.extend([over.clone(), full.clone(), over, full]);
    for number in [1, types / 2, types + 1, types] {
        calls.extend(line_of(&mut rng, TYPE_BYTES).map(Call::Enter));
        calls.extend([number, number, number].map(Call::Release));
        calls.extend(line_of(&mut rng, TYPE_BYTES).map(Call::Enter));
        calls.push(Call::Enter(b"A,".to_vec()));
    }
    calls.extend((1..2 * types).flat_map(|n| [Call::LookUp(n), Call::Release(n)]));
    calls
}

/// The store filled with the shortest lines, and each second one released.
pub fn many_short() -> Vec<Call> {
    let mut calls: Vec<Call> = short_lines().take(3_920).map(Call::Enter).collect();
    calls.extend((1..700).map(|n| Call::Release(5 * n)));
    calls.extend(short_lines().take(3_920).step_by(9).map(Call::Enter));
    calls
}
