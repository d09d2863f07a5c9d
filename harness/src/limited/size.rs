//! Which types are too large (RULES 4.6): over 1,024 bytes of type line or nesting over 32.

use crate::limits::{TYPE_BYTES, TYPE_NESTING};
use crate::reference::stand_ins::SmolStr;
use crate::reference::ty::Type;

/// Whether the type is within both limits.
pub fn fits(ty: &Type) -> bool {
    let mut bytes = 0;
    add(ty, 1, &mut bytes)
}

/// Whether a list of this type is within both limits.
pub fn list_fits(element: &Type) -> bool {
    let mut bytes = 2;
    add(element, 2, &mut bytes)
}

/// Adds the bytes of a type that stands at this nesting; false once a limit is passed.
fn add(ty: &Type, nesting: usize, bytes: &mut usize) -> bool {
    if nesting > TYPE_NESTING {
        return false;
    }
    *bytes += own_bytes(ty);
    if *bytes > TYPE_BYTES {
        return false;
    }
    match ty {
        Type::List(element) => add(element, nesting + 1, bytes),
        Type::Map(fields) => fields.values().all(|t| add(t, nesting + 1, bytes)),
        Type::Union(members) => members.iter().all(|t| add(t, nesting + 1, bytes)),
        _ => true,
    }
}

/// The bytes of a type's own fields, those of inner types apart.
fn own_bytes(ty: &Type) -> usize {
    match ty {
        Type::Map(fields) => 4 + fields.keys().map(name_bytes).sum::<usize>(),
        Type::Node(None) | Type::Relationship(None) | Type::Union(_) => 4,
        Type::Node(Some(labels)) => 6 + labels.0.iter().map(name_bytes).sum::<usize>(),
        Type::Relationship(Some(name)) => 4 + name_bytes(name),
        _ => 2,
    }
}

/// Two digits a byte and the comma.
fn name_bytes(name: &SmolStr) -> usize {
    2 * name.len() + 1
}
