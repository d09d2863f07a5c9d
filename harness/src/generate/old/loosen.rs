//! An old line said otherwise: members, labels and entries in another order, members and labels doubled, unions of one
//! around types, unions inside unions, an empty union for Unknown. The meaning stays.

use crate::old::tree::{Old, UNKNOWN};
use crate::random::Random;

/// The same meaning in other words, about one change at each `often`th place, with a nesting of at most `room` (if the given
/// line has no greater one).
pub fn loosened(rng: &mut Random, old: &Old, often: usize, room: usize) -> Old {
    let mut loosener = Loosener {
        rng,
        often,
        left: PARTS,
    };
    loosener.any(old, room)
}

/// After so many types nothing is changed any more: repeats inside repeats grow fast.
const PARTS: usize = 1_500;

struct Loosener<'a> {
    rng: &'a mut Random,
    often: usize,
    left: usize,
}

impl Loosener<'_> {
    fn chance(&mut self) -> bool {
        self.left > 0 && self.rng.once_in(self.often)
    }

    fn any(&mut self, old: &Old, room: usize) -> Old {
        self.left = self.left.saturating_sub(1);
        let is_union = matches!(old, Old::Union(members) if !members.is_empty());
        if !is_union && old.nesting() < room && self.chance() {
            return self.union(&[old], room);
        }
        let inside = room.saturating_sub(1);
        match old {
            Old::Union(members) if members.is_empty() => self.unknown(),
            Old::Union(members) => self.union(&members.iter().collect::<Vec<_>>(), room),
            Old::Letter(UNKNOWN) => self.unknown(),
            Old::List(element) => Old::List(Box::new(self.any(element, inside))),
            Old::Map(entries) => {
                let entry =
                    |(name, value): &(Vec<u8>, Old)| (name.clone(), self.any(value, inside));
                let mut entries: Vec<_> = entries.iter().map(entry).collect();
                self.shuffle(&mut entries);
                Old::Map(entries)
            }
            Old::Node(Some(labels)) => Old::Node(Some(self.doubled(labels))),
            other => other.clone(),
        }
    }

    fn unknown(&mut self) -> Old {
        match self.chance() {
            true => Old::Union(Vec::new()),
            false => Old::Letter(UNKNOWN),
        }
    }

    /// A union of these, some of them together in unions of their own.
    fn union(&mut self, members: &[&Old], room: usize) -> Old {
        let members = self.doubled(members);
        let mut rest = &members[..];
        let mut parts = Vec::new();
        while let Some(first) = rest.first() {
            let group = &rest[..self.rng.between(1, rest.len())];
            let has_room = group.iter().all(|m| m.nesting() + 2 <= room);
            if has_room && self.chance() {
                parts.push(self.union(group, room - 1));
                rest = &rest[group.len()..];
            } else {
                parts.push(self.any(first, room.saturating_sub(1)));
                rest = &rest[1..];
            }
        }
        Old::Union(parts)
    }

    /// The same things in another order, some of them twice.
    fn doubled<T: Clone>(&mut self, things: &[T]) -> Vec<T> {
        let mut all = things.to_vec();
        for thing in things {
            if self.chance() {
                all.push(thing.clone());
            }
        }
        self.shuffle(&mut all);
        all
    }

    /// Now and then as it was.
    fn shuffle<T>(&mut self, things: &mut [T]) {
        if !self.rng.once_in(4) {
            self.rng.shuffle(things);
        }
    }
}
