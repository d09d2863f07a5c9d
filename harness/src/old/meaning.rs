//! What an old line means, with nothing ordered (RULES 10.3, ask 11): "an empty union, also inside another, means Unknown, members,
//! labels and map entries are sets, unions inside unions are opened, a sole member stands for its union". It knows neither
//! `Type` nor lines: two lines mean the same exactly if these sets are equal.

use super::tree::{Name, Old, UNKNOWN};
use std::collections::BTreeSet;

/// The types, none of them a union, of which a value has one. Never empty; a sole one stands for its union.
pub type Meaning = BTreeSet<Kind>;

/// A type that is no union.
#[derive(Debug, Clone, PartialEq, Eq, PartialOrd, Ord)]
pub enum Kind {
    Letter(u8),
    List(Meaning),
    Map(BTreeSet<(Name, Meaning)>),
    Node(Option<BTreeSet<Name>>),
    Relationship(Option<Name>),
}

/// What the line means.
pub fn meaning(old: &Old) -> Meaning {
    let one = |kind| Meaning::from([kind]);
    match old {
        Old::Union(members) if members.is_empty() => one(Kind::Letter(UNKNOWN)),
        Old::Union(members) => members.iter().flat_map(meaning).collect(),
        Old::Letter(letter) => one(Kind::Letter(*letter)),
        Old::List(element) => one(Kind::List(meaning(element))),
        Old::Map(entries) => {
            let entry = |(name, value): &(Name, Old)| (name.clone(), meaning(value));
            one(Kind::Map(entries.iter().map(entry).collect()))
        }
        Old::Node(labels) => {
            let set = |labels: &Vec<Name>| labels.iter().cloned().collect();
            one(Kind::Node(labels.as_ref().map(set)))
        }
        Old::Relationship(name) => one(Kind::Relationship(name.clone())),
    }
}
