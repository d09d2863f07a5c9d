// Taken over from the repository phall1/cyrs, commit c44ba5361e, file crates/cyrs-sema/src/ty.rs,
// licensed Apache-2.0 OR MIT. What was changed:
// - `SmolStr` is the stand-in of stand_ins.rs; no other line differs.

//! Cypher value-level type system (spec 0001 §7.2).
//!
//! # `Type` vs `VarKind`
//!
//! `VarKind` (from `cyrs-hir`) is a **structural binder kind**: it
//! records what syntactic construct *produced* a variable — a node pattern,
//! a relationship pattern, a path assignment, or a general value binder.
//! `VarKind` is set once, at binding time, and never changes.
//!
//! [`Type`] is the **computed value type** of an expression: what kind of
//! Cypher value flows through that expression at query evaluation time.
//! Types are inferred by the type-inference pass (cy-c6g) using a small
//! unification engine. A node variable has `VarKind::Node` and `Type::Node(_)`,
//! but a function call returning a boolean has `VarKind::Value` and
//! `Type::Bool`. Do not conflate the two.
//!
//! # Type lattice
//!
//! ```text
//!   Any
//!    ├─ Null
//!    ├─ Bool
//!    ├─ Num ─── Int
//!    │      └── Float
//!    ├─ String
//!    ├─ Date
//!    ├─ Datetime
//!    ├─ List(T)
//!    ├─ Map(fields)
//!    ├─ Node(labels?)
//!    ├─ Relationship(type?)
//!    ├─ Path
//!    └─ Union(T₁ | T₂ | …)
//!   Unknown  (inference failure / "bottom from above")
//! ```
//!
//! `Any` is the **universal super-type**: schema-free queries yield
//! `Any`-typed property reads, and `Any` unifies with everything without
//! error. `Unknown` is the inference-failure sentinel — produced when
//! conflicting constraints cannot be resolved — and propagates through
//! subsequent inference steps silently so we emit at most one error per
//! root cause.
//!
//! `Num` is a numeric super-type covering `Int ∪ Float` (spec §7.2).
//! It is used during arithmetic unification: `Int + Float` widens to `Num`.
//! Division of `Int / Int` stays `Int` (openCypher semantics, no automatic
//! promotion).
//!
//! `Union` represents the join of two or more types at a branching point
//! (e.g., `CASE` arms, or `RETURN` over alternation branches). The
//! contained `Vec<Type>` is always **sorted and de-duplicated** so that two
//! structurally equal unions have identical byte representations. Use
//! [`Type::union`] to construct canonicalised unions.

use super::stand_ins::SmolStr;
use std::collections::BTreeMap;

/// Cypher value-level type. Spec §7.2.
///
/// See the [module-level documentation](self) for the distinction between
/// `Type` (inferred, expression-level) and `VarKind` (structural, binding-level).
//
// NOTE (cy-2i9.1): heavily matched across the workspace.  Marking
// `#[non_exhaustive]` would force wildcard arms at every cross-crate
// match site; deferred to a follow-up bead.  See `docs/stability.md`.
#[derive(Debug, Clone, PartialEq, Eq, PartialOrd, Ord, Hash)]
pub enum Type {
    /// Universal super-type. Property reads without schema are `Any`.
    Any,
    /// The `null` literal type.
    Null,
    /// Boolean.
    Bool,
    /// 64-bit integer.
    Int,
    /// 64-bit IEEE-754 float.
    Float,
    /// Numeric super-type: `Int ∨ Float`. Used during arithmetic unification.
    Num,
    /// UTF-8 string.
    String,
    /// Calendar date (ISO 8601).
    Date,
    /// Date-time (ISO 8601 with time zone). v1 temporal cap (spec §19).
    Datetime,
    /// Homogeneous list; element type is boxed to avoid infinite size.
    List(Box<Type>),
    /// Structural map. When field types are known (schema-aware mode), the
    /// map carries a `BTreeMap<SmolStr, Type>` so that field order is stable
    /// and equality / hashing are deterministic. An empty map means "any map".
    Map(BTreeMap<SmolStr, Type>),
    /// A graph node, optionally constrained to a set of labels.
    Node(Option<LabelSet>),
    /// A graph relationship, optionally constrained to a single type name.
    Relationship(Option<SmolStr>),
    /// A graph path (sequence of alternating nodes and relationships).
    Path,
    /// Sum type for alternation branches. Always sorted and de-duplicated.
    /// Use [`Type::union`] to construct; never build the variant directly.
    Union(Vec<Type>),
    /// Inference-failure sentinel. Propagates silently to suppress cascades.
    Unknown,
}

/// An ordered, de-duplicated set of label names.
///
/// Labels are stored in a `Vec<SmolStr>` sorted lexicographically so that
/// equality is structural and `Hash` is deterministic (spec §17.14).
#[derive(Debug, Clone, PartialEq, Eq, PartialOrd, Ord, Hash)]
pub struct LabelSet(pub Vec<SmolStr>);

impl LabelSet {
    /// Construct a `LabelSet` from an iterator, sorting and de-duplicating.
    pub fn new(labels: impl IntoIterator<Item = SmolStr>) -> Self {
        let mut v: Vec<SmolStr> = labels.into_iter().collect();
        v.sort_unstable();
        v.dedup();
        LabelSet(v)
    }
}

impl Type {
    // -----------------------------------------------------------------------
    // Convenience constructors
    // -----------------------------------------------------------------------

    /// `Num` — the numeric super-type (`Int ∨ Float`).
    #[inline]
    pub fn num() -> Self {
        Type::Num
    }

    /// Wrap a type as nullable: `T → Union([T, Null])`.
    ///
    /// If `inner` is already `Null` or `Any`, returns it unchanged (both
    /// already admit `null`). If `inner` is `Unknown`, returns `Unknown`.
    pub fn nullable(inner: Type) -> Self {
        match &inner {
            Type::Null | Type::Any | Type::Unknown => inner,
            Type::Union(members) if members.contains(&Type::Null) => inner,
            _ => Type::union([inner, Type::Null]),
        }
    }

    /// Construct a canonicalised `Union` from an iterator of types.
    ///
    /// Canonicalisation rules:
    /// 1. Flatten nested `Union`s.
    /// 2. Remove duplicates.
    /// 3. Sort by the derived `Ord` on `Type` for a stable representation.
    /// 4. If after flattening the set has zero members, return `Unknown`.
    /// 5. If it has exactly one member, return that member directly (no
    ///    singleton `Union`).
    pub fn union(types: impl IntoIterator<Item = Type>) -> Self {
        let mut members: Vec<Type> = Vec::new();
        for t in types {
            match t {
                Type::Union(inner) => members.extend(inner),
                other => members.push(other),
            }
        }
        // De-duplicate (requires sort first so consecutive dupes collapse).
        members.sort();
        members.dedup();

        match members.len() {
            0 => Type::Unknown,
            1 => members.remove(0),
            _ => Type::Union(members),
        }
    }

    /// Return `true` if this type admits the `null` value.
    pub fn is_nullable(&self) -> bool {
        match self {
            Type::Null | Type::Any | Type::Unknown => true,
            Type::Union(members) => members.contains(&Type::Null),
            _ => false,
        }
    }

    /// Return `true` if this is the `Any` super-type.
    #[inline]
    pub fn is_any(&self) -> bool {
        matches!(self, Type::Any)
    }

    /// Return `true` if this is the `Unknown` sentinel.
    #[inline]
    pub fn is_unknown(&self) -> bool {
        matches!(self, Type::Unknown)
    }

    /// Return `true` if this type is numeric (`Int`, `Float`, or `Num`).
    pub fn is_numeric(&self) -> bool {
        matches!(self, Type::Int | Type::Float | Type::Num)
    }
}
