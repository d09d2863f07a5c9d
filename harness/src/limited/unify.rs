//! `unify.rs` with its answers tested. Function by function as in `reference/unify.rs`, which see.

use std::collections::BTreeMap;

use super::size::fits;
use crate::reference::stand_ins::SmolStr;
use crate::reference::ty::{LabelSet, Type};
use crate::reference::unify::TypeMismatch;

/// Why there is no unified type.
#[derive(Debug, Clone, PartialEq, Eq)]
pub enum Stop {
    Mismatch(TypeMismatch),
    TooLarge,
}

/// The answer, if it is not too large. A mismatch is no tested answer.
fn tested(ty: Type) -> Result<Type, Stop> {
    if fits(&ty) {
        Ok(ty)
    } else {
        Err(Stop::TooLarge)
    }
}

/// `Type::union` with its answer tested. RULES 4.7 also tests the union of each first part of the arguments. A union only grows
/// with its arguments, so some first part is too large exactly if the whole is, and nothing else happens in between:
/// one test does for all.
pub fn union(types: impl IntoIterator<Item = Type>) -> Result<Type, Stop> {
    tested(Type::union(types))
}

/// `unify` with every answer tested, its inner calls' too.
pub fn unify(a: &Type, b: &Type) -> Result<Type, Stop> {
    tested(unify_by_kind(a, b)?)
}

fn unify_by_kind(a: &Type, b: &Type) -> Result<Type, Stop> {
    match (a, b) {
        (Type::Any, t) | (t, Type::Any) => Ok(t.clone()),

        (Type::Unknown, _) | (_, Type::Unknown) => Ok(Type::Unknown),

        (a, b) if a == b => Ok(a.clone()),

        (Type::Null, t) | (t, Type::Null) => union([Type::Null, t.clone()]),

        (Type::Num | Type::Float, Type::Int)
        | (Type::Int | Type::Float, Type::Num)
        | (Type::Num | Type::Int, Type::Float) => Ok(Type::Num),

        (Type::List(ea), Type::List(eb)) => {
            let inner = unify(ea, eb)?;
            Ok(Type::List(Box::new(inner)))
        }

        (Type::Map(fa), Type::Map(fb)) => Ok(Type::Map(unify_maps(fa, fb)?)),

        (Type::Node(la), Type::Node(lb)) => {
            Ok(Type::Node(unify_label_sets(la.as_ref(), lb.as_ref())))
        }

        (Type::Relationship(ra), Type::Relationship(rb)) => match (ra, rb) {
            (Some(ta), Some(tb)) if ta == tb => Ok(Type::Relationship(Some(ta.clone()))),
            _ => Ok(Type::Relationship(None)),
        },

        (Type::Union(variants), other) | (other, Type::Union(variants)) => {
            unify_union_with(variants, other)
        }

        _ => Err(Stop::Mismatch(TypeMismatch {
            expected: a.clone(),
            actual: b.clone(),
        })),
    }
}

/// A variant that does not unify is dropped; one whose answer is too large stops the call.
fn unify_union_with(variants: &[Type], other: &Type) -> Result<Type, Stop> {
    let mut results: Vec<Type> = Vec::new();
    for v in variants {
        match unify(v, other) {
            Ok(t) => results.push(t),
            Err(Stop::Mismatch(_)) => {}
            Err(Stop::TooLarge) => return Err(Stop::TooLarge),
        }
    }

    if results.is_empty() {
        let mut members: Vec<Type> = variants.to_vec();
        members.push(other.clone());
        union(members)
    } else {
        union(results)
    }
}

/// The first field in name order that is a mismatch or too large decides. The partial map is not tested.
fn unify_maps(
    fa: &BTreeMap<SmolStr, Type>,
    fb: &BTreeMap<SmolStr, Type>,
) -> Result<BTreeMap<SmolStr, Type>, Stop> {
    let mut result: BTreeMap<SmolStr, Type> = BTreeMap::new();

    for (k, ta) in fa {
        if let Some(tb) = fb.get(k) {
            result.insert(k.clone(), unify(ta, tb)?);
        } else {
            result.insert(k.clone(), ta.clone());
        }
    }
    for (k, tb) in fb {
        if !fa.contains_key(k) {
            result.insert(k.clone(), tb.clone());
        }
    }

    Ok(result)
}

fn unify_label_sets(la: Option<&LabelSet>, lb: Option<&LabelSet>) -> Option<LabelSet> {
    match (la, lb) {
        (None, _) | (_, None) => None,
        (Some(a), Some(b)) => {
            let mut merged: Vec<SmolStr> = a.0.clone();
            merged.extend(b.0.iter().cloned());
            Some(LabelSet::new(merged))
        }
    }
}
