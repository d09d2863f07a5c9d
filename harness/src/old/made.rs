//! An old line's regular type (RULES 10.3, ask 11): inner types first, then `Type::union`.

use super::tree::{Name, Old};
use crate::reference::stand_ins::SmolStr;
use crate::reference::ty::{LabelSet, Type};

/// The regular type.
pub fn made(old: &Old) -> Type {
    match old {
        Old::Letter(letter) => flat(*letter),
        Old::List(element) => Type::List(Box::new(made(element))),
        Old::Map(entries) => {
            let entry = |(name, value): &(Name, Old)| (SmolStr::new(name), made(value));
            Type::Map(entries.iter().map(entry).collect())
        }
        Old::Node(labels) => {
            let set = |labels: &Vec<Name>| LabelSet::new(labels.iter().map(SmolStr::new));
            Type::Node(labels.as_ref().map(set))
        }
        Old::Relationship(name) => Type::Relationship(name.as_ref().map(SmolStr::new)),
        Old::Union(members) => Type::union(members.iter().map(made)),
    }
}

/// The variant of a letter that stands alone.
fn flat(letter: u8) -> Type {
    match letter {
        b'A' => Type::Any,
        b'B' => Type::Null,
        b'C' => Type::Bool,
        b'D' => Type::Int,
        b'E' => Type::Float,
        b'F' => Type::Num,
        b'G' => Type::String,
        b'H' => Type::Date,
        b'I' => Type::Datetime,
        b'N' => Type::Path,
        _ => Type::Unknown,
    }
}
