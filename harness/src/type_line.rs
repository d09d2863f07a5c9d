//! Type lines (RULES 4): written, and read strictly.

use crate::limits::{NAME_BYTES, TYPE_BYTES, TYPE_NESTING};
use crate::reference::stand_ins::SmolStr;
use crate::reference::ty::{LabelSet, Type};
use std::collections::BTreeMap;

/// The type's line.
pub fn type_line(ty: &Type) -> Vec<u8> {
    let mut line = Vec::new();
    write_type(ty, &mut line);
    line
}

/// Appends the type's line.
pub fn write_type(ty: &Type, line: &mut Vec<u8>) {
    line.extend_from_slice(&[letter(ty), b',']);
    match ty {
        Type::List(element) => write_type(element, line),
        Type::Map(fields) => {
            for (name, inner) in fields {
                write_name(name, line);
                write_type(inner, line);
            }
            line.extend_from_slice(b"!,");
        }
        Type::Node(None) | Type::Relationship(None) => line.extend_from_slice(b"!,"),
        Type::Node(Some(labels)) => {
            line.extend_from_slice(b"+,");
            for label in &labels.0 {
                write_name(label, line);
            }
            line.extend_from_slice(b"!,");
        }
        Type::Relationship(Some(name)) => {
            line.extend_from_slice(b"+,");
            write_name(name, line);
        }
        Type::Union(members) => {
            for member in members {
                write_type(member, line);
            }
            line.extend_from_slice(b"!,");
        }
        _ => {}
    }
}

/// The variant's letter, in `Type` order.
pub fn letter(ty: &Type) -> u8 {
    match ty {
        Type::Any => b'A',
        Type::Null => b'B',
        Type::Bool => b'C',
        Type::Int => b'D',
        Type::Float => b'E',
        Type::Num => b'F',
        Type::String => b'G',
        Type::Date => b'H',
        Type::Datetime => b'I',
        Type::List(_) => b'J',
        Type::Map(_) => b'K',
        Type::Node(_) => b'L',
        Type::Relationship(_) => b'M',
        Type::Path => b'N',
        Type::Union(_) => b'O',
        Type::Unknown => b'P',
    }
}

fn write_name(name: &SmolStr, line: &mut Vec<u8>) {
    write_hex(name, line);
    line.push(b',');
}

/// Appends lowercase hexadecimal digits, two a byte.
pub fn write_hex(bytes: &[u8], text: &mut Vec<u8>) {
    const DIGITS: &[u8; 16] = b"0123456789abcdef";
    for b in bytes {
        text.push(DIGITS[(b / 16) as usize]);
        text.push(DIGITS[(b % 16) as usize]);
    }
}

/// Whether a text is lowercase hexadecimal digits, two a byte.
pub fn is_hex_pairs(text: &[u8]) -> bool {
    text.len() % 2 == 0 && text.iter().all(|b| matches!(b, b'0'..=b'9' | b'a'..=b'f'))
}

/// The bytes of lowercase hexadecimal digits, two a byte.
pub fn decode_hex(text: &[u8], bytes: &mut [u8]) {
    for (byte, pair) in bytes.iter_mut().zip(text.chunks(2)) {
        *byte = digit(pair[0]) * 16 + digit(pair[1]);
    }
}

/// The bytes of a text, if it is lowercase hexadecimal digits, two a byte.
pub fn read_hex(text: &[u8]) -> Option<Vec<u8>> {
    if !is_hex_pairs(text) {
        return None;
    }
    let mut bytes = vec![0; text.len() / 2];
    decode_hex(text, &mut bytes);
    Some(bytes)
}

/// The value of a lowercase hexadecimal digit.
fn digit(b: u8) -> u8 {
    match b {
        b'a'..=b'f' => b - b'a' + 10,
        _ => b.wrapping_sub(b'0'),
    }
}

/// The type of a type line that is not too large; none for any other text (refusal 8).
pub fn read_type_line(text: &[u8]) -> Option<Type> {
    if text.len() > TYPE_BYTES {
        return None;
    }
    let mut fields = Fields { rest: text };
    let ty = fields.ty(TYPE_NESTING)?;
    if fields.rest.is_empty() {
        Some(ty)
    } else {
        None
    }
}

/// The fields of a type line still to be read, each followed by a comma.
struct Fields<'a> {
    rest: &'a [u8],
}

impl<'a> Fields<'a> {
    fn next(&mut self) -> Option<&'a [u8]> {
        let end = self.rest.iter().position(|&b| b == b',')?;
        let field = &self.rest[..end];
        self.rest = &self.rest[end + 1..];
        Some(field)
    }

    /// Steps over `!,` if it is next.
    fn closes(&mut self) -> bool {
        let closes = self.rest.starts_with(b"!,");
        if closes {
            self.rest = &self.rest[2..];
        }
        closes
    }

    fn name(&mut self) -> Option<SmolStr> {
        let bytes = read_hex(self.next()?)?;
        if bytes.len() > NAME_BYTES {
            return None;
        }
        Some(SmolStr::new(bytes))
    }

    /// `!,` is none, `+,` some.
    fn present(&mut self) -> Option<bool> {
        match self.next()? {
            b"!" => Some(false),
            b"+" => Some(true),
            _ => None,
        }
    }

    /// A type of at most this nesting.
    fn ty(&mut self, nesting: usize) -> Option<Type> {
        if nesting == 0 {
            return None;
        }
        Some(match self.next()? {
            b"A" => Type::Any,
            b"B" => Type::Null,
            b"C" => Type::Bool,
            b"D" => Type::Int,
            b"E" => Type::Float,
            b"F" => Type::Num,
            b"G" => Type::String,
            b"H" => Type::Date,
            b"I" => Type::Datetime,
            b"J" => Type::List(Box::new(self.ty(nesting - 1)?)),
            b"K" => Type::Map(self.entries(nesting - 1)?),
            b"L" => Type::Node(match self.present()? {
                true => Some(self.labels()?),
                false => None,
            }),
            b"M" => Type::Relationship(match self.present()? {
                true => Some(self.name()?),
                false => None,
            }),
            b"N" => Type::Path,
            b"O" => Type::Union(self.members(nesting - 1)?),
            b"P" => Type::Unknown,
            _ => return None,
        })
    }

    fn entries(&mut self, nesting: usize) -> Option<BTreeMap<SmolStr, Type>> {
        let mut fields = BTreeMap::new();
        while !self.closes() {
            let name = self.name()?;
            if fields
                .last_key_value()
                .is_some_and(|(last, _)| *last >= name)
            {
                return None;
            }
            fields.insert(name, self.ty(nesting)?);
        }
        Some(fields)
    }

    fn labels(&mut self) -> Option<LabelSet> {
        let mut labels: Vec<SmolStr> = Vec::new();
        while !self.closes() {
            let label = self.name()?;
            if labels.last().is_some_and(|last| *last >= label) {
                return None;
            }
            labels.push(label);
        }
        Some(LabelSet(labels))
    }

    fn members(&mut self, nesting: usize) -> Option<Vec<Type>> {
        let mut members: Vec<Type> = Vec::new();
        while !self.closes() {
            let member = self.ty(nesting)?;
            if matches!(member, Type::Union(_)) || members.last().is_some_and(|m| *m >= member) {
                return None;
            }
            members.push(member);
        }
        if members.len() < 2 {
            return None;
        }
        Some(members)
    }
}
