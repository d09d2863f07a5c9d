// Taken over from the repository phall1/cyrs, commit c44ba5361e, file crates/cyrs-sema/src/unify.rs,
// licensed Apache-2.0 OR MIT. What was changed:
// - `SmolStr` is the stand-in of stand_ins.rs, and the paths of the `use` lines follow the folder.
// - `TypeMismatch::into_diagnostic` is left out (RULES 1.2).

//! Unification engine for the Cypher type system (spec 0001 §7.2).
//!
//! # Unification semantics
//!
//! `unify(a, b)` computes the *meet* of two types — the most specific type
//! that is a super-type of both inputs. The rules follow spec §7.2 exactly:
//!
//! | Rule | Result |
//! |------|--------|
//! | `unify(Any, t)` | `t` — Any is the universal super-type; it dissolves |
//! | `unify(Unknown, t)` | `Unknown` — error-sentinel propagates silently |
//! | `unify(Null, Null)` | `Null` |
//! | `unify(Null, t)` | `Union([Null, t])` — nullability via open union |
//! | `unify(Num, Int/Float/Num)` | the concrete numeric type |
//! | `unify(Int, Float)` | `Num` — widening to numeric super-type |
//! | `unify(List(a), List(b))` | `List(unify(a, b))` — covariant |
//! | `unify(Map(a), Map(b))` | open-record merge (see below) |
//! | `unify(Node(a), Node(b))` | union of label sets |
//! | `unify(Union, t)` | per-variant recursion, then canonicalise |
//! | otherwise | `Err(TypeMismatch)` for non-overlapping concrete types |
//!
//! # Map semantics — open records
//!
//! Maps use **open-record** semantics: keys present in both sides are
//! unified field-by-field; keys present on only one side are kept
//! verbatim. This matches Cypher's "property map as open record" design
//! where properties not mentioned in a pattern are unconstrained.
//!
//! # Diagnostic
//!
//! A mismatch produces [`TypeMismatch`], which carries `expected` and
//! `actual` for later conversion to a [`cyrs_diag::Diagnostic`] with
//! code [`cyrs_diag::DiagCode::E5003`].

use std::collections::BTreeMap;

use super::stand_ins::SmolStr;

use super::ty::{LabelSet, Type};

// ---------------------------------------------------------------------------
// Public error type
// ---------------------------------------------------------------------------

/// Returned when two types cannot be unified.
///
/// Convert to a diagnostic with code `E5003` at the call site (future
/// type-inference passes). The fields are public so callers can construct
/// rich diagnostic messages.
#[derive(Debug, Clone, PartialEq, Eq)]
pub struct TypeMismatch {
    /// The type expected by the context (the first argument to `unify`).
    pub expected: Type,
    /// The type actually encountered (the second argument to `unify`).
    pub actual: Type,
}

// ---------------------------------------------------------------------------
// Core unification
// ---------------------------------------------------------------------------

/// Unify two types according to spec §7.2.
///
/// Returns the unified type on success, or a [`TypeMismatch`] when the two
/// types are incompatible concrete types with no common super-type other than
/// `Any`.
///
/// The function is **pure**: no mutation, no allocation beyond what the
/// result requires.
pub fn unify(a: &Type, b: &Type) -> Result<Type, TypeMismatch> {
    // Symmetric: if the left arm doesn't match but the mirror does, delegate.
    // We handle this via a small normalisation at the end of the match.
    match (a, b) {
        // ---------------------------------------------------------------
        // Any: dissolves — Any ∪ t = t (§7.2)
        // ---------------------------------------------------------------
        (Type::Any, t) | (t, Type::Any) => Ok(t.clone()),

        // ---------------------------------------------------------------
        // Unknown: error-sentinel propagates (§7.2)
        // ---------------------------------------------------------------
        (Type::Unknown, _) | (_, Type::Unknown) => Ok(Type::Unknown),

        // ---------------------------------------------------------------
        // Reflexive: identical types unify to themselves
        // ---------------------------------------------------------------
        (a, b) if a == b => Ok(a.clone()),

        // ---------------------------------------------------------------
        // Null / nullability (§7.2)
        // ---------------------------------------------------------------
        (Type::Null, t) | (t, Type::Null) => {
            // Null ∪ t → Union([Null, t]) (open nullability)
            Ok(Type::union([Type::Null, t.clone()]))
        }

        // ---------------------------------------------------------------
        // Numeric widening (§7.2)
        // ---------------------------------------------------------------
        // Num absorbs Int and Float; Int + Float widens to Num.
        (Type::Num | Type::Float, Type::Int)
        | (Type::Int | Type::Float, Type::Num)
        | (Type::Num | Type::Int, Type::Float) => Ok(Type::Num),

        // ---------------------------------------------------------------
        // List — covariant (§7.2)
        // ---------------------------------------------------------------
        (Type::List(ea), Type::List(eb)) => {
            let inner = unify(ea, eb)?;
            Ok(Type::List(Box::new(inner)))
        }

        // ---------------------------------------------------------------
        // Map — open-record merge (§7.2)
        // ---------------------------------------------------------------
        (Type::Map(fa), Type::Map(fb)) => Ok(Type::Map(unify_maps(fa, fb)?)),

        // ---------------------------------------------------------------
        // Node — union of label sets (§7.5)
        // ---------------------------------------------------------------
        (Type::Node(la), Type::Node(lb)) => {
            Ok(Type::Node(unify_label_sets(la.as_ref(), lb.as_ref())))
        }

        // ---------------------------------------------------------------
        // Relationship — if both carry a type name they must agree;
        // if either is unconstrained the result is unconstrained.
        // ---------------------------------------------------------------
        (Type::Relationship(ra), Type::Relationship(rb)) => match (ra, rb) {
            (Some(ta), Some(tb)) if ta == tb => Ok(Type::Relationship(Some(ta.clone()))),
            _ => Ok(Type::Relationship(None)),
        },

        // ---------------------------------------------------------------
        // Union: recurse per-variant, canonicalise result (§7.2)
        // ---------------------------------------------------------------
        (Type::Union(variants), other) | (other, Type::Union(variants)) => {
            Ok(unify_union_with(variants, other))
        }

        // ---------------------------------------------------------------
        // Mismatch: no rule applies
        // ---------------------------------------------------------------
        _ => Err(TypeMismatch {
            expected: a.clone(),
            actual: b.clone(),
        }),
    }
}

// ---------------------------------------------------------------------------
// Helpers
// ---------------------------------------------------------------------------

/// Unify a union type's variants with a non-union type.
///
/// Each variant in `variants` is unified with `other`. Successful unifications
/// are collected and canonicalised with `Type::union`; failures are silently
/// dropped (the variant was incompatible). If no variant unifies, return the
/// union of all variants plus `other` via a widening union — matching the
/// spec's fallback of "form a union".
fn unify_union_with(variants: &[Type], other: &Type) -> Type {
    // Attempt to unify each variant with `other`. Collect successes.
    let results: Vec<Type> = variants
        .iter()
        .filter_map(|v| unify(v, other).ok())
        .collect();

    if results.is_empty() {
        // No variant was compatible — widen: produce Union(variants ∪ {other}).
        let mut members: Vec<Type> = variants.to_vec();
        members.push(other.clone());
        Type::union(members)
    } else {
        Type::union(results)
    }
}

/// Open-record map merge: unify fields present in both sides; keep extras.
fn unify_maps(
    fa: &BTreeMap<SmolStr, Type>,
    fb: &BTreeMap<SmolStr, Type>,
) -> Result<BTreeMap<SmolStr, Type>, TypeMismatch> {
    let mut result: BTreeMap<SmolStr, Type> = BTreeMap::new();

    // All keys from a.
    for (k, ta) in fa {
        if let Some(tb) = fb.get(k) {
            // Key in both: unify field types.
            result.insert(k.clone(), unify(ta, tb)?);
        } else {
            // Key only in a: keep as-is (open-record).
            result.insert(k.clone(), ta.clone());
        }
    }
    // Keys only in b: keep as-is.
    for (k, tb) in fb {
        if !fa.contains_key(k) {
            result.insert(k.clone(), tb.clone());
        }
    }

    Ok(result)
}

/// Node label-set merge: union of label sets.
///
/// - `None` means "any node" (no label constraint) → the result is
///   unconstrained (`None`).
/// - `Some(labels)` on both sides → union of the two sets.
fn unify_label_sets(la: Option<&LabelSet>, lb: Option<&LabelSet>) -> Option<LabelSet> {
    match (la, lb) {
        (None, _) | (_, None) => None,
        (Some(a), Some(b)) => {
            let mut merged: Vec<SmolStr> = a.0.clone();
            merged.extend(b.0.iter().cloned());
            Some(LabelSet::new(merged))
        }
    }
}
