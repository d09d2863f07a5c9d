//! Old types drawn as they come, long ones and deep ones.

use crate::generate::types;
use crate::old::tree::{Name, Old, LETTERS, UNKNOWN};
use crate::random::Random;
use std::collections::BTreeSet;

/// A name: mostly one of few, so that names meet.
pub(super) fn name(rng: &mut Random) -> Name {
    types::name(rng).to_vec()
}

pub(super) fn letter(rng: &mut Random) -> Old {
    match rng.below(4) {
        0 => Old::Letter(UNKNOWN),
        1 => Old::Letter(b'D'),
        _ => Old::Letter(*rng.pick(LETTERS)),
    }
}

fn leaf(rng: &mut Random) -> Old {
    match rng.below(9) {
        0 => Old::Union(Vec::new()),
        1 => Old::Map(Vec::new()),
        2 => Old::Node(None),
        3 => Old::Relationship(None),
        4 => Old::Relationship(Some(name(rng))),
        5 => Old::Node(Some((0..rng.below(5)).map(|_| name(rng)).collect())),
        _ => letter(rng),
    }
}

/// A type of at most this nesting, its unions of any number of members.
pub fn any_old(rng: &mut Random, nesting: usize) -> Old {
    if nesting <= 1 {
        return leaf(rng);
    }
    let inside = nesting - 1;
    match rng.below(8) {
        0 | 1 => Old::List(Box::new(any_old(rng, inside))),
        2 | 3 => {
            let mut names: Vec<Name> = (0..rng.below(5)).map(|_| name(rng)).collect();
            let mut met = BTreeSet::new();
            names.retain(|n| met.insert(n.clone()));
            Old::Map(
                names
                    .into_iter()
                    .map(|n| (n, any_old(rng, inside)))
                    .collect(),
            )
        }
        4..=6 => Old::Union((0..rng.below(5)).map(|_| any_old(rng, inside)).collect()),
        _ => leaf(rng),
    }
}

/// A type of exactly this nesting: lists, maps and unions, now and then with something beside the deep part.
pub fn chain(rng: &mut Random, nesting: usize) -> Old {
    let mut old = leaf(rng);
    for _ in 1..nesting {
        let beside = rng.once_in(6).then(|| any_old(rng, 1));
        old = match rng.below(3) {
            0 => Old::List(Box::new(old)),
            1 => {
                let mut entries = vec![(b"x".to_vec(), old)];
                entries.extend(beside.map(|b| (b"a".to_vec(), b)));
                Old::Map(entries)
            }
            _ => {
                let mut members = vec![old];
                members.extend(beside);
                rng.shuffle(&mut members);
                Old::Union(members)
            }
        };
    }
    old
}

/// The bytes of a relationship with an empty name.
const ODD: usize = 5;

/// A line of exactly this many bytes, at least 20 more than the given one: repeats beside it.
pub fn stretched(rng: &mut Random, old: &Old, bytes: usize) -> Old {
    let own = old.line().len();
    let mut members = vec![old.clone()];
    let mut left = bytes - own - 4;
    while left > own + ODD && rng.below(8) > 0 {
        members.push(old.clone());
        left -= own;
    }
    if left > 500 && rng.once_in(2) {
        let labels = labels_of(rng, left - 200 - 6);
        members.push(Old::Node(Some(labels)));
        left = 200;
    }
    if left % 2 == 1 {
        members.push(Old::Relationship(Some(Vec::new())));
        left -= ODD;
    }
    let letters = *rng.pick(&[&b"D"[..], b"DG", b"ABCDEFGHINP"]);
    members.extend((0..left / 2).map(|_| Old::Letter(*rng.pick(letters))));
    rng.shuffle(&mut members);
    Old::Union(members)
}

/// Labels of so many bytes, of few names.
fn labels_of(rng: &mut Random, bytes: usize) -> Vec<Name> {
    let mut left = bytes;
    let mut labels = Vec::new();
    let alphabet = rng.between(1, 255);
    while left > 0 {
        let len = rng.below(3).min((left - 1) / 2);
        labels.push((0..len).map(|_| rng.below(alphabet) as u8).collect());
        left -= 2 * len + 1;
    }
    labels
}
