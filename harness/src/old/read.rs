//! Old type lines read (RULES 10.3, ask 11). Free are the order and the repeats of members and labels, the number and the kind of
//! a union's members, and the order of a map's entries; all else is read as strictly as a type line.

use super::tree::{Name, Old, LETTERS};
use crate::limits::{NAME_BYTES, OLD_BYTES, TYPE_NESTING};
use crate::type_line::read_hex;
use std::collections::BTreeSet;

/// What an old type line says; none for a text that is none (refusal 12).
pub fn read_old(text: &[u8]) -> Option<Old> {
    if text.len() > OLD_BYTES {
        return None;
    }
    // Each field is followed by a comma, the last one too.
    let fields: Vec<&[u8]> = text.strip_suffix(b",")?.split(|&b| b == b',').collect();
    let mut fields = Fields { rest: &fields };
    let old = fields.old(TYPE_NESTING)?;
    fields.rest.is_empty().then_some(old)
}

/// The fields still to be read.
struct Fields<'a> {
    rest: &'a [&'a [u8]],
}

impl<'a> Fields<'a> {
    fn next(&mut self) -> Option<&'a [u8]> {
        let (first, rest) = self.rest.split_first()?;
        self.rest = rest;
        Some(first)
    }

    /// What `part` reads, again and again up to the field `!`.
    fn until_closed<T>(&mut self, mut part: impl FnMut(&mut Self) -> Option<T>) -> Option<Vec<T>> {
        let mut parts = Vec::new();
        while *self.rest.first()? != b"!" {
            parts.push(part(self)?);
        }
        self.next()?;
        Some(parts)
    }

    /// A type of at most this nesting, every union counted.
    fn old(&mut self, nesting: usize) -> Option<Old> {
        let inside = nesting.checked_sub(1)?;
        Some(match *self.next()? {
            [letter] if LETTERS.contains(&letter) => Old::Letter(letter),
            [b'J'] => Old::List(Box::new(self.old(inside)?)),
            [b'K'] => Old::Map(self.entries(inside)?),
            [b'L'] => Old::Node(match self.given()? {
                true => Some(self.until_closed(Self::name)?),
                false => None,
            }),
            [b'M'] => Old::Relationship(match self.given()? {
                true => Some(self.name()?),
                false => None,
            }),
            [b'O'] => Old::Union(self.until_closed(|fields| fields.old(inside))?),
            _ => return None,
        })
    }

    /// Entries with distinct names.
    fn entries(&mut self, inside: usize) -> Option<Vec<(Name, Old)>> {
        let entries = self.until_closed(|fields| Some((fields.name()?, fields.old(inside)?)))?;
        let names: BTreeSet<&Name> = entries.iter().map(|(name, _)| name).collect();
        (names.len() == entries.len()).then_some(entries)
    }

    fn name(&mut self) -> Option<Name> {
        read_hex(self.next()?).filter(|name| name.len() <= NAME_BYTES)
    }

    /// `+` says that labels or a name follow, `!` that none is given.
    fn given(&mut self) -> Option<bool> {
        match self.next()? {
            b"+" => Some(true),
            b"!" => Some(false),
            _ => None,
        }
    }
}
