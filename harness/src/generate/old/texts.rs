//! Texts for the call, and pairs of texts.

use super::shapes::{any_old, chain, name, stretched};
use super::{changed, loosened};
use crate::generate::types::{any_type, irregular, large, middling, wide_union, Domain};
use crate::limited::size::fits;
use crate::limits::{OLD_BYTES, TYPE_NESTING};
use crate::old::tree::Old;
use crate::random::Random;
use crate::reference::ty::Type;
use crate::type_line::type_line;

/// A text: mostly an old type line.
pub fn old_text(rng: &mut Random) -> Vec<u8> {
    match rng.below(20) {
        0 | 1 => {
            let old = source(rng);
            irregular(rng, &old.line())
        }
        2 => broken_behind(rng),
        3 => {
            let old = source(rng);
            name_twice(rng, old).line()
        }
        4 => type_line(&regular(rng)),
        5 => {
            let line = chained(rng).line();
            match rng.once_in(6) {
                true => irregular(rng, &line),
                false => line,
            }
        }
        6 | 7 => long(rng).line(),
        8 => wide(rng).line(),
        _ => source(rng).line(),
    }
}

/// What a pair was made to be.
#[derive(Debug, Clone, Copy, PartialEq, Eq)]
pub enum Pair {
    /// Of one meaning.
    Equivalent,
    /// One change apart: of one meaning or not.
    Apart,
    /// Drawn one by one.
    Any,
}

/// Two texts.
pub fn old_pair(rng: &mut Random) -> (Pair, Vec<u8>, Vec<u8>) {
    let (kind, a, b) = match rng.below(8) {
        0..=2 => {
            let old = source(rng);
            (Pair::Equivalent, reworded(rng, &old), reworded(rng, &old))
        }
        3..=5 => {
            let old = source(rng);
            let mut other = changed(rng, &old);
            if rng.once_in(2) {
                other = reworded(rng, &other);
            }
            (Pair::Apart, old, other)
        }
        6 => (Pair::Any, any_old(rng, 2), any_old(rng, 2)),
        _ => {
            let nesting = rng.between(1, 4);
            (Pair::Any, any_old(rng, nesting), any_old(rng, nesting))
        }
    };
    (kind, a.line(), b.line())
}

/// A regular type that is not too large.
fn regular(rng: &mut Random) -> Type {
    loop {
        let ty = some_type(rng);
        if fits(&ty) {
            return ty;
        }
    }
}

/// A regular type, now and then too large.
fn some_type(rng: &mut Random) -> Type {
    match rng.below(8) {
        0 => large(rng, Domain::All),
        1 => wide_union(rng, Domain::All),
        2 => middling(rng, Domain::All),
        _ => {
            let nesting = rng.between(1, 6);
            any_type(rng, Domain::All, nesting)
        }
    }
}

/// An old line of any form, mostly within the limits.
fn source(rng: &mut Random) -> Old {
    if rng.once_in(5) {
        let nesting = rng.between(1, 6);
        return any_old(rng, nesting);
    }
    let old = Old::of(&some_type(rng));
    reworded(rng, &old)
}

/// The same meaning in other words; within the limits if it was, but for one time in sixteen.
fn reworded(rng: &mut Random, old: &Old) -> Old {
    let mut often = *rng.pick(&[2, 3, 5, 12, 40]);
    let free = rng.once_in(16);
    loop {
        let new = loosened(rng, old, often, TYPE_NESTING);
        if free || often > 1_000 || new.line().len() <= OLD_BYTES {
            return new;
        }
        often *= 3;
    }
}

/// A line about as long as it may be.
fn long(rng: &mut Random) -> Old {
    let inner = match rng.below(4) {
        0 => Old::of(&large(rng, Domain::All)),
        1 => any_old(rng, 3),
        _ => source(rng),
    };
    let bytes = match rng.once_in(3) {
        true => rng.between(2_000, OLD_BYTES),
        false => rng.between(OLD_BYTES - 3, OLD_BYTES + 2),
    };
    match inner.line().len() + 20 <= bytes {
        true => stretched(rng, &inner, bytes),
        false => inner,
    }
}

/// A line about as deep as it may be.
fn chained(rng: &mut Random) -> Old {
    let nesting = rng.between(TYPE_NESTING - 3, TYPE_NESTING + 2);
    chain(rng, nesting)
}

/// Many labels, entries or members of few kinds, in any order.
fn wide(rng: &mut Random) -> Old {
    let kinds = *rng.pick(&[1, 3, 30, 140, 150, 210, 600]);
    let one = |i: usize| match kinds <= 256 {
        true => vec![i as u8],
        false => vec![(i / 256) as u8, i as u8],
    };
    let count = rng.between(1, 700);
    let drawn: Vec<Vec<u8>> = (0..count).map(|_| one(rng.below(kinds))).collect();
    match rng.below(3) {
        0 => Old::Node(Some(drawn)),
        1 => Old::Union(
            drawn
                .into_iter()
                .map(|n| Old::Relationship(Some(n)))
                .collect(),
        ),
        _ => {
            let mut entries: Vec<_> = (0..kinds).map(|i| (one(i), any_old(rng, 1))).collect();
            entries.truncate(count);
            rng.shuffle(&mut entries);
            Old::Map(entries)
        }
    }
}

/// The line with a map in it that has a name twice.
fn name_twice(rng: &mut Random, old: Old) -> Old {
    let mut old = old;
    let at = rng.below(old.parts());
    let part = old.part_mut(at);
    let mut entries = match part.clone() {
        Old::Map(entries) if !entries.is_empty() => entries,
        other => vec![(name(rng), other)],
    };
    let twice = rng.pick(&entries).0.clone();
    let to = rng.below(entries.len() + 1);
    entries.insert(to, (twice, any_old(rng, 1)));
    *part = Old::Map(entries);
    old
}

/// What breaks the form of a member behind others.
const BROKEN: [&str; 12] = [
    "Q,",
    "K,61,D,61,D,!,",
    "K,61,J,K,62,D,62,G,!,!,",
    "L,+,6,!,",
    "L,61,!,",
    "M,+,6A,",
    "M,+,!,",
    "J,!,",
    "d,",
    ",",
    "O,D,",
    "D",
];

/// A line that is no old line only behind a part that is large already.
fn broken_behind(rng: &mut Random) -> Vec<u8> {
    let large = Old::of(&large(rng, Domain::All)).line();
    let beside = middling(rng, Domain::All);
    let broken = match rng.below(4) {
        0 => chain(rng, TYPE_NESTING).line(),
        1 => format!("M,+,{},", "61".repeat(256)).into_bytes(),
        _ => rng.pick(&BROKEN).as_bytes().to_vec(),
    };
    match rng.below(4) {
        0 => [&large[..], &broken].concat(),
        1 => [b"K,7a,", &large[..], b"79,", &broken, b"!,"].concat(),
        2 => [b"O,J,", &large[..], &type_line(&beside), &broken, b"!,"].concat(),
        _ => [b"O,", &large[..], &broken, b"!,"].concat(),
    }
}
