//! What an old type line says, as it stands in the text: nothing sorted, dropped or opened.

use crate::reference::stand_ins::SmolStr;
use crate::reference::ty::{LabelSet, Type};
use crate::type_line::{letter, write_hex};

pub type Name = Vec<u8>;

#[derive(Debug, Clone, PartialEq, Eq)]
pub enum Old {
    /// One of [`LETTERS`].
    Letter(u8),
    List(Box<Old>),
    Map(Vec<(Name, Old)>),
    Node(Option<Vec<Name>>),
    Relationship(Option<Name>),
    Union(Vec<Old>),
}

/// The letters that stand alone.
pub const LETTERS: &[u8; 11] = b"ABCDEFGHINP";

/// Unknown's letter.
pub const UNKNOWN: u8 = b'P';

impl Old {
    /// A regular type, as its line says it.
    pub fn of(ty: &Type) -> Old {
        match ty {
            Type::List(element) => Old::List(Box::new(Old::of(element))),
            Type::Map(fields) => {
                let entry = |(name, value): (&SmolStr, &Type)| (name.to_vec(), Old::of(value));
                Old::Map(fields.iter().map(entry).collect())
            }
            Type::Node(labels) => {
                let names = |set: &LabelSet| set.0.iter().map(|n| n.to_vec()).collect();
                Old::Node(labels.as_ref().map(names))
            }
            Type::Relationship(name) => Old::Relationship(name.as_ref().map(|n| n.to_vec())),
            Type::Union(members) => Old::Union(members.iter().map(Old::of).collect()),
            flat => Old::Letter(letter(flat)),
        }
    }

    /// The line.
    pub fn line(&self) -> Vec<u8> {
        let mut line = Vec::new();
        self.write(&mut line);
        line
    }

    fn write(&self, line: &mut Vec<u8>) {
        match self {
            Old::Letter(letter) => line.extend_from_slice(&[*letter, b',']),
            Old::List(element) => {
                line.extend_from_slice(b"J,");
                element.write(line);
            }
            Old::Map(entries) => {
                line.extend_from_slice(b"K,");
                for (name, value) in entries {
                    write_name(name, line);
                    value.write(line);
                }
                line.extend_from_slice(b"!,");
            }
            Old::Node(None) => line.extend_from_slice(b"L,!,"),
            Old::Node(Some(labels)) => {
                line.extend_from_slice(b"L,+,");
                labels.iter().for_each(|label| write_name(label, line));
                line.extend_from_slice(b"!,");
            }
            Old::Relationship(None) => line.extend_from_slice(b"M,!,"),
            Old::Relationship(Some(name)) => {
                line.extend_from_slice(b"M,+,");
                write_name(name, line);
            }
            Old::Union(members) => {
                line.extend_from_slice(b"O,");
                members.iter().for_each(|member| member.write(line));
                line.extend_from_slice(b"!,");
            }
        }
    }

    /// The types right inside.
    pub fn inner(&self) -> Vec<&Old> {
        match self {
            Old::List(element) => vec![element],
            Old::Map(entries) => entries.iter().map(|(_, value)| value).collect(),
            Old::Union(members) => members.iter().collect(),
            _ => Vec::new(),
        }
    }

    fn inner_mut(&mut self) -> Vec<&mut Old> {
        match self {
            Old::List(element) => vec![element],
            Old::Map(entries) => entries.iter_mut().map(|(_, value)| value).collect(),
            Old::Union(members) => members.iter_mut().collect(),
            _ => Vec::new(),
        }
    }

    /// RULES 4.6: one, or one more than the deepest inside.
    pub fn nesting(&self) -> usize {
        let deepest = self.inner().into_iter().map(Old::nesting).max();
        1 + deepest.unwrap_or(0)
    }

    /// How many types the line holds, itself among them.
    pub fn parts(&self) -> usize {
        1 + self.inner().into_iter().map(Old::parts).sum::<usize>()
    }

    /// The type at this place of the line, itself at 0; itself too if there are fewer.
    pub fn part_mut(&mut self, at: usize) -> &mut Old {
        if at == 0 || at >= self.parts() {
            return self;
        }
        let mut left = at - 1;
        let mut inner = self.inner_mut().into_iter();
        loop {
            let next = inner.next().expect("a place below the count of parts");
            match next.parts() {
                parts if left < parts => return next.part_mut(left),
                parts => left -= parts,
            }
        }
    }
}

fn write_name(name: &[u8], line: &mut Vec<u8>) {
    write_hex(name, line);
    line.push(b',');
}
