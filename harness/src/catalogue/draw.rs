//! Random lists of the form, and random calls that suit a list.

use super::cases::Call;
use super::lines::{any_line, line_of};
use super::{Catalogue, Live, LIVE_HEAD, NUMBER, ROOM, USES};
use crate::generate::types::irregular;
use crate::random::Random;

/// Uses above 0, often at a limit of some bytes.
pub fn uses(rng: &mut Random) -> u64 {
    match rng.below(8) {
        0 => USES,
        1 => USES - rng.below(3) as u64,
        2 => 1 << (8 * rng.between(1, 3)),
        3 => (1 << (8 * rng.between(1, 3))) - 1,
        4 => 1 + rng.next_u64() % USES,
        _ => 1 + rng.below(3) as u64,
    }
}

/// A list of some of the lines, as no calls from an empty store need have made it.
pub fn catalogue(rng: &mut Random, lines: &[Vec<u8>]) -> Catalogue {
    let mut list = Catalogue::default();
    let most = rng.below(lines.len() + 1);
    for line in lines.iter().take(most) {
        let taken = list.bytes() + LIVE_HEAD + line.len();
        if taken > ROOM || list.live.iter().any(|l| l.line == *line) {
            continue;
        }
        let number = list.last + 1 + gap(rng);
        if number > NUMBER {
            break;
        }
        list.last = number;
        list.live.push(Live {
            number,
            line: line.clone(),
            uses: uses(rng),
        });
    }
    list.last = match rng.below(4) {
        0 => NUMBER,
        1 => NUMBER.min(list.last + gap(rng)),
        2 => list.last.max(NUMBER - rng.below(4) as u64),
        _ => list.last,
    };
    list
}

/// How many numbers were given between two live ones.
fn gap(rng: &mut Random) -> u64 {
    match rng.below(40) {
        0 => rng.below(20_000) as u64,
        1..=8 => rng.below(300) as u64,
        9..=16 => rng.below(3) as u64,
        _ => 0,
    }
}

/// How often each kind of call is drawn: a line of the pool, one that just fits or just not, any text; a live number released or
/// one near; a live number looked up or one near.
pub type Manner = [u32; 7];

/// Growing, steady, shrinking, at the limit of the room, at random.
pub fn manner(rng: &mut Random) -> Manner {
    let random = [0; 7].map(|_| 1 + rng.below(9) as u32);
    *rng.pick(&[
        [20, 1, 1, 2, 1, 2, 1],
        [8, 1, 1, 8, 1, 4, 1],
        [2, 0, 1, 20, 2, 2, 1],
        [6, 6, 1, 4, 0, 2, 0],
        random,
    ])
}

/// A call that suits the list.
pub fn call(rng: &mut Random, list: &Catalogue, lines: &[Vec<u8>], manner: &Manner) -> Call {
    match rng.weighted(manner) {
        0 => Call::Enter(rng.pick(lines).clone()),
        1 => Call::Enter(fitting(rng, list).unwrap_or_else(|| any_line(rng))),
        2 => Call::Enter(odd_text(rng, lines)),
        3 => Call::Release(live(rng, list)),
        4 => Call::Release(near(rng, list)),
        5 => Call::LookUp(live(rng, list)),
        _ => Call::LookUp(near(rng, list)),
    }
}

/// A line that fills the room, leaves a byte or two of it, or passes it by one or two.
fn fitting(rng: &mut Random, list: &Catalogue) -> Option<Vec<u8>> {
    let left = ROOM - list.bytes();
    let bytes = (left + rng.below(5)).checked_sub(LIVE_HEAD + 2)?;
    line_of(rng, bytes)
}

/// Mostly no type line.
fn odd_text(rng: &mut Random, lines: &[Vec<u8>]) -> Vec<u8> {
    let line = rng.pick(lines).clone();
    match rng.below(8) {
        0 => vec![b'A'; rng.below(70_000)],
        1 => line.repeat(2),
        _ => irregular(rng, &line),
    }
}

/// A live number, or the last given if there is none.
fn live(rng: &mut Random, list: &Catalogue) -> u64 {
    match list.live.len() {
        0 => list.last,
        count => list.live[rng.below(count)].number,
    }
}

/// A number beside a live one, at a limit, or equal to a live one in its low bytes.
fn near(rng: &mut Random, list: &Catalogue) -> u64 {
    let number = live(rng, list);
    match rng.below(10) {
        0 => 0,
        1 => list.last,
        2 => list.last + 1,
        3 => number.saturating_sub(1),
        4 => number + 1,
        5 => number + (1 << 16),
        6 => number + (1 << 32),
        7 => u64::MAX - rng.below(2) as u64,
        8 => rng.next_u64(),
        _ => NUMBER - 1 + rng.below(3) as u64,
    }
}
