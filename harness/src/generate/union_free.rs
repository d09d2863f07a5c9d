//! Types that hold no union at any depth, and pairs of them for unification from either side: with much in common, with
//! results on both sides of the limits of bytes and of nesting, damaged.

use crate::generate::types::{irregular, leaf, name, sized_map, sized_node, Domain};
use crate::limits::{TYPE_BYTES, TYPE_NESTING};
use crate::random::Random;
use crate::reference::stand_ins::SmolStr;
use crate::reference::ty::{LabelSet, Type};
use crate::type_line::type_line;
use std::collections::BTreeMap;

/// Whether a union stands somewhere in the type.
pub fn holds_union(ty: &Type) -> bool {
    match ty {
        Type::Union(_) => true,
        Type::List(element) => holds_union(element),
        Type::Map(fields) => fields.values().any(holds_union),
        _ => false,
    }
}

/// A type without unions of at most this nesting.
fn any_type(rng: &mut Random, nesting: usize) -> Type {
    if nesting <= 1 || rng.once_in(4) {
        return leaf(rng, Domain::All);
    }
    match rng.below(5) {
        0 | 1 => Type::List(Box::new(any_type(rng, nesting - 1))),
        2 | 3 => {
            let count = rng.below(6);
            let entry = |_| (name(rng), any_type(rng, nesting - 1));
            Type::Map((0..count).map(entry).collect())
        }
        _ => leaf(rng, Domain::All),
    }
}

/// A type with something changed inside.
fn changed(rng: &mut Random, ty: &Type) -> Type {
    if rng.once_in(8) {
        return any_type(rng, 3);
    }
    match ty {
        Type::List(element) => Type::List(Box::new(changed(rng, element))),
        Type::Map(fields) => Type::Map(changed_fields(rng, fields)),
        Type::Node(Some(labels)) => {
            let more = labels.0.iter().cloned().chain([name(rng)]);
            Type::Node(Some(LabelSet::new(more)))
        }
        _ if rng.once_in(2) => ty.clone(),
        _ => leaf(rng, Domain::All),
    }
}

/// Entries kept, changed, left out or under another name, and perhaps one more.
fn changed_fields(rng: &mut Random, fields: &BTreeMap<SmolStr, Type>) -> BTreeMap<SmolStr, Type> {
    let mut others = BTreeMap::new();
    for (key, value) in fields {
        match rng.below(8) {
            0 => {}
            1 => {
                others.insert(name(rng), value.clone());
            }
            2 | 3 => {
                others.insert(key.clone(), changed(rng, value));
            }
            _ => {
                others.insert(key.clone(), value.clone());
            }
        }
    }
    if rng.once_in(3) {
        others.insert(name(rng), any_type(rng, 2));
    }
    others
}

/// Two types of which the second was mostly made from the first.
fn alike(rng: &mut Random) -> (Type, Type) {
    let nesting = rng.between(1, 7);
    let first = any_type(rng, nesting);
    let second = match rng.below(6) {
        0 => any_type(rng, nesting),
        1 => first.clone(),
        _ => (0..rng.between(1, 3)).fold(first.clone(), |ty, _| changed(rng, &ty)),
    };
    (first, second)
}

/// Two letters that mostly unify, without growing or with Null.
fn letters(rng: &mut Random) -> (Type, Type) {
    match rng.below(12) {
        0 => (Type::Null, Type::Int),
        1 => (Type::Bool, Type::String),
        2 => (Type::Any, Type::Path),
        3 => (Type::Unknown, Type::Null),
        4 | 5 => (Type::Int, Type::Float),
        6 => (Type::Num, Type::Int),
        _ => (Type::Date, Type::Date),
    }
}

/// Two maps whose entries are those of one map of so many bytes: each entry on one side or on both.
fn divided_map(rng: &mut Random, bytes: usize) -> (Type, Type) {
    let Type::Map(fields) = sized_map(rng, Domain::All, bytes) else {
        unreachable!("a sized map is a map");
    };
    let (mut first, mut second) = (BTreeMap::new(), BTreeMap::new());
    for (key, value) in fields {
        match rng.below(5) {
            0 | 1 => {
                first.insert(key, value);
            }
            2 | 3 => {
                second.insert(key, value);
            }
            _ => {
                let (x, y) = letters(rng);
                first.insert(key.clone(), x);
                second.insert(key, y);
            }
        }
    }
    (Type::Map(first), Type::Map(second))
}

/// Two label sets that are together one of so many bytes.
fn divided_labels(rng: &mut Random, bytes: usize) -> (Type, Type) {
    let Type::Node(Some(labels)) = sized_node(rng, bytes) else {
        unreachable!("a sized node has labels");
    };
    let (mut first, mut second) = (Vec::new(), Vec::new());
    for label in labels.0 {
        let side = rng.below(5);
        if side != 0 {
            first.push(label.clone());
        }
        if side != 1 && side != 2 {
            second.push(label);
        }
    }
    let node = |labels: Vec<SmolStr>| Type::Node(Some(LabelSet::new(labels)));
    (node(first), node(second))
}

/// Two types under the same lists and maps of one entry; the maps' names have no bytes, so each level of either adds two
/// or seven bytes.
fn under(rng: &mut Random, levels: usize, pair: (Type, Type)) -> (Type, Type) {
    (0..levels).fold(pair, |(x, y), _| match rng.below(4) {
        0 => {
            let map = |ty| Type::Map(BTreeMap::from([(SmolStr::new(""), ty)]));
            (map(x), map(y))
        }
        _ => {
            let list = |ty| Type::List(Box::new(ty));
            (list(x), list(y))
        }
    })
}

/// Two types whose unified type is near 1,024 bytes, on either side.
fn near_bytes(rng: &mut Random) -> (Type, Type) {
    let bytes = rng.between(TYPE_BYTES - 4, TYPE_BYTES + 3);
    let lists = rng.below(4);
    let inner = bytes - 2 * lists;
    let pair = match rng.once_in(3) {
        true => divided_labels(rng, inner),
        false => divided_map(rng, inner),
    };
    let list = |ty| (0..lists).fold(ty, |ty, _| Type::List(Box::new(ty)));
    (list(pair.0), list(pair.1))
}

/// Two types whose nesting, or that of their unified type, is 31, 32 or 33, or close.
fn near_nesting(rng: &mut Random) -> (Type, Type) {
    let inner = match rng.below(3) {
        0 => (any_type(rng, 2), any_type(rng, 2)),
        _ => letters(rng),
    };
    let levels = rng.between(TYPE_NESTING - 4, TYPE_NESTING);
    under(rng, levels, inner)
}

/// Two types without unions, in either order.
pub fn union_free_pair(rng: &mut Random) -> (Type, Type) {
    let (first, second) = match rng.below(8) {
        0 | 1 => near_bytes(rng),
        2 => near_nesting(rng),
        _ => alike(rng),
    };
    match rng.once_in(2) {
        true => (first, second),
        false => (second, first),
    }
}

/// Two texts: mostly type lines without unions.
pub fn union_free_texts(rng: &mut Random) -> (Vec<u8>, Vec<u8>) {
    let (a, b) = union_free_pair(rng);
    let (mut a, mut b) = (type_line(&a), type_line(&b));
    match rng.below(30) {
        0 => a = irregular(rng, &a),
        1 => b = irregular(rng, &b),
        2 => {
            a = irregular(rng, &a);
            b = irregular(rng, &b);
        }
        _ => {}
    }
    (a, b)
}
