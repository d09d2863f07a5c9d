//! One change somewhere in an old line; whether the meaning stays is not said.

use super::shapes::{any_old, letter, name};
use crate::old::tree::{Old, UNKNOWN};
use crate::random::Random;

/// The line with one change.
pub fn changed(rng: &mut Random, old: &Old) -> Old {
    let mut new = old.clone();
    let at = rng.below(old.parts());
    let part = new.part_mut(at);
    if rng.once_in(4) {
        *part = around(rng, part.clone());
    } else {
        change(rng, part);
    }
    new
}

/// Another type in its place, or something around it.
fn around(rng: &mut Random, old: Old) -> Old {
    match rng.below(6) {
        0 => any_old(rng, 2),
        1 => Old::Union(vec![old]),
        2 => Old::Union(vec![old.clone(), old]),
        3 => Old::Union(vec![letter(rng), old]),
        4 => Old::Union(vec![old, Old::Union(Vec::new())]),
        _ => Old::List(Box::new(old)),
    }
}

fn change(rng: &mut Random, old: &mut Old) {
    match old {
        Old::Letter(UNKNOWN) => *old = Old::Union(Vec::new()),
        Old::Letter(_) => *old = letter(rng),
        Old::List(element) => *old = (**element).clone(),
        Old::Map(entries) if rng.once_in(3) => {
            let at = rng.below(entries.len() + 1);
            match entries.get_mut(at) {
                Some((key, _)) => *key = name(rng),
                None => entries.push((name(rng), any_old(rng, 1))),
            }
        }
        Old::Map(entries) => change_list(rng, entries),
        Old::Node(None) => *old = Old::Node(Some(Vec::new())),
        Old::Node(Some(labels)) if labels.is_empty() => *old = Old::Node(None),
        Old::Node(Some(labels)) if rng.once_in(3) => labels.push(name(rng)),
        Old::Node(Some(labels)) => change_list(rng, labels),
        Old::Relationship(None) => *old = Old::Relationship(Some(name(rng))),
        Old::Relationship(Some(_)) if rng.once_in(3) => *old = Old::Relationship(None),
        Old::Relationship(Some(own)) => *own = name(rng),
        Old::Union(members) if members.is_empty() => *old = Old::Letter(UNKNOWN),
        Old::Union(members) if rng.once_in(3) => members.push(any_old(rng, 2)),
        Old::Union(members) if rng.once_in(3) => open(rng, members),
        Old::Union(members) => change_list(rng, members),
    }
}

/// One taken away, doubled or moved.
fn change_list<T: Clone>(rng: &mut Random, things: &mut Vec<T>) {
    if things.is_empty() {
        return;
    }
    let at = rng.below(things.len());
    match rng.below(3) {
        0 => {
            things.remove(at);
        }
        1 => things.push(things[at].clone()),
        _ => {
            let to = rng.below(things.len());
            things.swap(at, to);
        }
    }
}

/// The members of a union inside take its place; none if it is empty, which changes the meaning.
fn open(rng: &mut Random, members: &mut Vec<Old>) {
    let at = rng.below(members.len());
    if let Old::Union(inner) = members[at].clone() {
        members.splice(at..=at, inner);
    }
}
