//! Types, type texts and pairs of them: regular and irregular, small and at the limits.

use crate::limited::size::fits;
use crate::limits::{NAME_BYTES, TYPE_BYTES, TYPE_NESTING};
use crate::random::Random;
use crate::reference::stand_ins::SmolStr;
use crate::reference::ty::{LabelSet, Type};
use crate::type_line::type_line;
use std::collections::BTreeMap;

/// Which types: all, or those that an expression of a sheet can have.
#[derive(Debug, Clone, Copy, PartialEq, Eq)]
pub enum Domain {
    All,
    Sheet,
}

const SHORT_NAMES: [&str; 12] = [
    "",
    "a",
    "b",
    "c",
    "aa",
    "ab",
    "A",
    "name",
    "é",
    "\u{1f9f6}",
    "weft",
    "z",
];

/// A name: mostly one of few, so that names meet.
pub fn name(rng: &mut Random) -> SmolStr {
    match rng.below(16) {
        0 => long_name(rng, 0, NAME_BYTES),
        1 => long_name(rng, 20, 26),
        _ => SmolStr::new(rng.pick(&SHORT_NAMES)),
    }
}

fn long_name(rng: &mut Random, least: usize, most: usize) -> SmolStr {
    let len = rng.between(least, most);
    let letters: Vec<u8> = (0..len).map(|_| b'a' + rng.below(3) as u8).collect();
    SmolStr::new(letters)
}

/// A type of one letter.
pub fn leaf(rng: &mut Random, domain: Domain) -> Type {
    match (rng.below(14), domain) {
        (0, _) => Type::Any,
        (1, _) => Type::Unknown,
        (2, _) => Type::Null,
        (3, _) => Type::Bool,
        (4 | 5, _) => Type::Int,
        (6, _) => Type::Float,
        (7, _) => Type::Num,
        (8, _) => Type::String,
        (9, _) => Type::Path,
        (10, Domain::All) => Type::Date,
        (11, Domain::All) => Type::Datetime,
        (10, Domain::Sheet) => Type::Node(None),
        (11, Domain::Sheet) => Type::Relationship(None),
        (12, _) => node(rng, domain),
        _ => relationship(rng, domain),
    }
}

fn node(rng: &mut Random, domain: Domain) -> Type {
    if domain == Domain::Sheet || rng.once_in(3) {
        return Type::Node(None);
    }
    let count = rng.below(4);
    Type::Node(Some(LabelSet::new((0..count).map(|_| name(rng)))))
}

fn relationship(rng: &mut Random, domain: Domain) -> Type {
    if domain == Domain::Sheet || rng.once_in(3) {
        return Type::Relationship(None);
    }
    Type::Relationship(Some(name(rng)))
}

/// A type of at most this nesting.
pub fn any_type(rng: &mut Random, domain: Domain, nesting: usize) -> Type {
    if nesting <= 1 || rng.once_in(4) {
        return leaf(rng, domain);
    }
    let inner = nesting - 1;
    match rng.below(4) {
        0 => Type::List(Box::new(any_type(rng, domain, inner))),
        1 => map(rng, domain, inner),
        2 => union(rng, domain, inner),
        _ => leaf(rng, domain),
    }
}

fn map(rng: &mut Random, domain: Domain, inner: usize) -> Type {
    let count = rng.below(5);
    Type::Map(
        (0..count)
            .map(|_| (name(rng), any_type(rng, domain, inner)))
            .collect(),
    )
}

fn union(rng: &mut Random, domain: Domain, inner: usize) -> Type {
    let count = rng.between(1, 6);
    Type::union((0..count).map(|_| any_type(rng, domain, inner)))
}

/// A map whose line has exactly this many bytes, which is at least 60.
pub fn sized_map(rng: &mut Random, domain: Domain, bytes: usize) -> Type {
    let values: Vec<Type> = (0..sized_count(rng, bytes))
        .map(|_| letter(rng, domain))
        .collect();
    let names = sized_names(rng, values.len(), (bytes - 4 - 3 * values.len()) / 2);
    Type::Map(names.into_iter().zip(values).collect())
}

/// A label set whose line has exactly this many bytes, which is at least 60.
pub fn sized_node(rng: &mut Random, bytes: usize) -> Type {
    // Each label takes two bytes less than an entry of a map, and the line two more.
    let count = sized_count(rng, bytes);
    Type::Node(Some(LabelSet::new(sized_names(
        rng,
        count,
        (bytes - 6 - count) / 2,
    ))))
}

/// How many names make the parity right.
fn sized_count(rng: &mut Random, bytes: usize) -> usize {
    let least = if bytes > 400 { 3 } else { 1 };
    let count = rng.between(least, 8);
    count + (count + bytes) % 2
}

fn letter(rng: &mut Random, domain: Domain) -> Type {
    loop {
        let ty = leaf(rng, domain);
        if type_line(&ty).len() == 2 {
            return ty;
        }
    }
}

/// Different names of so many bytes in all.
fn sized_names(rng: &mut Random, count: usize, bytes: usize) -> Vec<SmolStr> {
    let mut left = bytes;
    let mut names = Vec::new();
    for i in 0..count {
        let rest = count - 1 - i;
        let least = left.saturating_sub(rest * NAME_BYTES).max(1);
        let most = (left - rest).min(NAME_BYTES);
        let len = if rest == 0 {
            left
        } else {
            rng.between(least, most)
        };
        let mut text = vec![b'A' + i as u8];
        text.extend((1..len).map(|_| b'a' + rng.below(26) as u8));
        names.push(SmolStr::new(text));
        left -= len;
    }
    names
}

/// A type of exactly this nesting.
pub fn nested(rng: &mut Random, domain: Domain, nesting: usize) -> Type {
    let mut ty = letter(rng, domain);
    let mut level = 1;
    while level < nesting {
        ty = match rng.below(5) {
            0 => Type::Map(BTreeMap::from([(name(rng), ty)])),
            1 | 2 if !matches!(ty, Type::Union(_) | Type::Null) => Type::union([Type::Null, ty]),
            _ => Type::List(Box::new(ty)),
        };
        level += 1;
    }
    ty
}

/// A type near the limit of bytes or of nesting, on either side.
pub fn large(rng: &mut Random, domain: Domain) -> Type {
    match rng.below(6) {
        0 => {
            let nesting = rng.between(TYPE_NESTING - 3, TYPE_NESTING + 2);
            nested(rng, domain, nesting)
        }
        1 => {
            let bytes = rng.between(TYPE_BYTES - 10, TYPE_BYTES + 4);
            wrapped(rng, domain, bytes)
        }
        2 => {
            let bytes = rng.between(400, TYPE_BYTES);
            wrapped(rng, domain, bytes)
        }
        3 if domain == Domain::All => {
            let bytes = rng.between(500, TYPE_BYTES + 4);
            sized_node(rng, bytes)
        }
        4 => wide_union(rng, domain),
        _ => {
            let bytes = rng.between(TYPE_BYTES - 3, TYPE_BYTES + 3);
            sized_map(rng, domain, bytes)
        }
    }
}

/// A type of which two or three together pass the limit of bytes.
pub fn middling(rng: &mut Random, domain: Domain) -> Type {
    let bytes = rng.between(250, 700);
    wrapped(rng, domain, bytes)
}

/// A type of so many bytes under some lists and unions.
fn wrapped(rng: &mut Random, domain: Domain, bytes: usize) -> Type {
    let mut left = bytes;
    let mut wraps = Vec::new();
    while left > 300 && !rng.once_in(3) {
        let list = rng.once_in(2) || wraps.last() == Some(&false);
        left -= if list { 2 } else { 6 };
        wraps.push(list);
    }
    let mut ty = sized_map(rng, domain, left);
    for list in wraps.into_iter().rev() {
        ty = match list {
            true => Type::List(Box::new(ty)),
            false => Type::union([letter_below(rng), ty]),
        };
    }
    ty
}

/// A type of one letter that is no union's whole.
fn letter_below(rng: &mut Random) -> Type {
    rng.pick(&[Type::Null, Type::Bool, Type::Int, Type::String, Type::Any])
        .clone()
}

/// A union of many members.
pub fn wide_union(rng: &mut Random, domain: Domain) -> Type {
    let count = rng.between(5, 90);
    Type::union((0..count).map(|i| match rng.below(4) {
        0 => Type::Map(BTreeMap::from([(
            SmolStr::new(format!("{i:02}")),
            leaf(rng, domain),
        )])),
        1 => Type::List(Box::new(any_type(rng, domain, 2))),
        2 if domain == Domain::All => Type::Relationship(Some(SmolStr::new(format!("{i}")))),
        _ => leaf(rng, domain),
    }))
}

/// A type with something changed inside.
pub fn changed(rng: &mut Random, ty: &Type, domain: Domain) -> Type {
    if rng.once_in(4) {
        return any_type(rng, domain, 3);
    }
    match ty {
        Type::List(element) => Type::List(Box::new(changed(rng, element, domain))),
        Type::Map(fields) => {
            let mut fields = fields.clone();
            match fields.keys().nth(rng.below(fields.len() + 1)).cloned() {
                Some(key) if !rng.once_in(4) => {
                    let value = changed(rng, &fields[&key], domain);
                    fields.insert(key, value);
                }
                Some(key) => {
                    fields.remove(&key);
                }
                None => {
                    fields.insert(name(rng), any_type(rng, domain, 2));
                }
            }
            Type::Map(fields)
        }
        Type::Union(members) => {
            let mut members = members.clone();
            let at = rng.below(members.len());
            match rng.below(3) {
                0 => members[at] = changed(rng, &members[at].clone(), domain),
                1 => members.push(any_type(rng, domain, 2)),
                _ => {
                    members.remove(at);
                }
            }
            Type::union(members)
        }
        Type::Node(Some(labels)) => {
            let mut labels = labels.0.clone();
            labels.push(name(rng));
            Type::Node(Some(LabelSet::new(labels)))
        }
        _ => match rng.below(3) {
            0 => ty.clone(),
            1 => Type::union([Type::Null, ty.clone()]),
            _ => leaf(rng, domain),
        },
    }
}

/// Two types that may have much in common.
pub fn type_pair(rng: &mut Random) -> (Type, Type) {
    let domain = Domain::All;
    let nesting = rng.between(1, 6);
    let first = match rng.below(8) {
        0 | 1 => large(rng, domain),
        2 => wide_union(rng, domain),
        _ => any_type(rng, domain, nesting),
    };
    let second = match rng.below(8) {
        0 => large(rng, domain),
        1 => wide_union(rng, domain),
        2 | 3 => any_type(rng, domain, nesting),
        4 => first.clone(),
        _ => {
            let mut ty = changed(rng, &first, domain);
            for _ in 0..rng.below(4) {
                ty = changed(rng, &ty, domain);
            }
            ty
        }
    };
    match rng.once_in(2) {
        true => (first, second),
        false => (second, first),
    }
}

/// Two texts: mostly type lines.
pub fn text_pair(rng: &mut Random) -> (Vec<u8>, Vec<u8>) {
    let (mut a, mut b) = type_pair(rng);
    while !(fits(&a) && fits(&b) || rng.once_in(4)) {
        (a, b) = type_pair(rng);
    }
    let (mut a, mut b) = (type_line(&a), type_line(&b));
    if rng.once_in(12) {
        a = irregular(rng, &a);
    }
    if rng.once_in(12) {
        b = irregular(rng, &b);
    }
    (a, b)
}

/// A text that is mostly no type line, but close to one.
pub fn irregular(rng: &mut Random, line: &[u8]) -> Vec<u8> {
    let mut text = line.to_vec();
    match rng.below(9) {
        0 => return fixed_irregular(rng),
        1 => {
            text.truncate(rng.below(line.len() + 1));
        }
        2 => {
            let extra: &[&[u8]] = &[b"A,", b"!,", b",", b"\n", b"A", b"\0"];
            let more = *rng.pick(extra);
            text.extend_from_slice(more);
        }
        3 => swap_fields(rng, &mut text),
        4 => repeat_fields(rng, &mut text),
        _ => {
            for _ in 0..rng.between(1, 2) {
                edit_byte(rng, &mut text);
            }
        }
    }
    text
}

fn edit_byte(rng: &mut Random, text: &mut Vec<u8>) {
    const BYTES: &[u8] = b",,!+ABCJKLMOPQ0169af-\n\0\xffGg";
    let b = *rng.pick(BYTES);
    let at = rng.below(text.len() + 1);
    match rng.below(3) {
        0 if at < text.len() => text[at] = b,
        1 if at < text.len() => {
            text.remove(at);
        }
        _ => text.insert(at, b),
    }
}

fn split_fields(text: &[u8]) -> Vec<Vec<u8>> {
    text.split_inclusive(|&b| b == b',')
        .map(<[u8]>::to_vec)
        .collect()
}

fn swap_fields(rng: &mut Random, text: &mut Vec<u8>) {
    let mut fields = split_fields(text);
    if !fields.is_empty() {
        let i = rng.below(fields.len());
        let j = (i + rng.between(1, 2)) % fields.len();
        fields.swap(i, j);
    }
    *text = fields.concat();
}

fn repeat_fields(rng: &mut Random, text: &mut Vec<u8>) {
    let mut fields = split_fields(text);
    if !fields.is_empty() {
        let i = rng.below(fields.len());
        fields.insert(i, fields[i].clone());
    }
    *text = fields.concat();
}

/// Texts that break one rule each.
pub const IRREGULAR: [&str; 44] = [
    "",
    ",",
    "A",
    "a,",
    "AA,",
    "Q,",
    "A,A,",
    " A,",
    "A,\n",
    "J,",
    "J",
    "J,J,",
    "J,!,",
    "K",
    "K,",
    "K,!",
    "K,a,A,!,",
    "K,6g,A,!,",
    "K,6A,A,!,",
    "K,61,!,",
    "K,61,A,",
    "K,61,A,61,B,!,",
    "K,62,A,61,B,!,",
    "K,A,!,",
    "L,",
    "L,A,",
    "L,+,",
    "L,+,61,61,!,",
    "L,+,62,61,!,",
    "L,+,6,!,",
    "M,",
    "M,+,",
    "M,+,!,",
    "M,+,61",
    "M,61,",
    "M,!,!,",
    "O,!,",
    "O,A,!,",
    "O,A,A,!,",
    "O,B,A,!,",
    "O,A,O,B,C,!,!,",
    "O,A,B,",
    "O,!,A,!,",
    "P,P",
];

fn fixed_irregular(rng: &mut Random) -> Vec<u8> {
    rng.pick(&IRREGULAR).as_bytes().to_vec()
}
