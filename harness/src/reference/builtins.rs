// Taken over from the repository phall1/cyrs, commit c44ba5361e, file crates/cyrs-sema/src/builtins.rs,
// licensed Apache-2.0 OR MIT. What was changed:
// - `SmolStr` is the stand-in of stand_ins.rs, and the paths of the `use` lines follow the folder.
// - `lookup` compares bytes, since the stand-in holds bytes; the example in the comment follows it.

//! Built-in function signatures for the schema-free sema pass (spec §7.4).
//!
//! The schema-free inference pass ([`crate::infer`]) needs to know the
//! signatures of the standard-library functions the language defines
//! without any schema input. `id(n)`, `size(x)`, `head(xs)`, `tail(xs)`,
//! `last(xs)`, `keys(x)`, and `values(map)` are the v1 cap — all other
//! function calls fall through to the schema-aware pass, which queries
//! the caller's `cyrs_schema::SchemaProvider`.
//!
//! The table is intentionally small and append-only: new entries land at
//! the end. Each [`Builtin`] entry is a plain `struct` literal so the
//! table can live in a `static` array without allocator contact.
//!
//! # Generics
//!
//! Cypher's stdlib is lightly polymorphic: `head`, `tail`, and `last`
//! accept `LIST<T>` and return `T` / `LIST<T>`. Until the sema type
//! system models a real generic `T` (a follow-up bead), we approximate
//! with [`ArgShape::List`] for the parameter slot and
//! [`ReturnShape::ListElement`] / [`ReturnShape::ListSelf`] to signal
//! "element-of-the-input" / "same-as-the-input-list" at the call site.
//! `size` is the only overloaded entry: it accepts either a list or a
//! string and always returns [`Type::Int`].
//!
//! ```
//! use cyrs_harness::reference::builtins::{lookup, Builtin};
//! let b: Option<&'static Builtin> = lookup(b"size");
//! assert!(b.is_some());
//! ```

use super::stand_ins::SmolStr;

use super::ty::Type;

/// Parameter shape — what the call site's argument must conform to.
///
/// The variants are intentionally coarse: a full type-schema for
/// built-ins requires generics, which the v1 sema does not yet model.
#[derive(Debug, Clone, Copy, PartialEq, Eq)]
pub enum ArgShape {
    /// Any concrete type (`Node`, `Relationship`, `Path`, `Int`, `String`, …).
    Any,
    /// Must be a `LIST<_>` of any element type.
    List,
    /// Must be a `STRING`.
    String,
    /// Overload of `List | String` — e.g. `size(x)`.
    ListOrString,
    /// Must be a graph entity — `Node`, `Relationship`, or `Path`.
    ///
    /// Used by `id(x)` (cy-zo9.1) to reject scalars. `Any` / `Unknown`
    /// are accepted to avoid cascading diagnostics when inference has
    /// already failed upstream.
    GraphEntity,
    /// Must be a `MAP`.
    ///
    /// Used by `values(map)` (cy-afo) to reject scalars, lists, and
    /// graph entities. `Any` / `Unknown` are accepted to avoid cascades.
    Map,
    /// Must be a graph entity (`Node` / `Relationship`) or a `MAP`.
    ///
    /// Used by `keys(x)` (cy-afo): openCypher defines `keys` over both
    /// graph entities (property-key names) and maps (map keys). `Path`
    /// is deliberately excluded — `keys` is not defined for paths.
    /// `Any` / `Unknown` are accepted to avoid cascades.
    GraphEntityOrMap,
}

impl ArgShape {
    /// Check whether `ty` conforms to this parameter shape.
    ///
    /// Returns `true` when the argument is permitted. `Any` and `Unknown`
    /// always satisfy every shape — schema-free inference cannot rule
    /// them out, and emitting a diagnostic here would cascade.
    #[must_use]
    pub fn accepts(self, ty: &Type) -> bool {
        match self {
            ArgShape::Any => true,
            ArgShape::List => matches!(ty, Type::List(_) | Type::Any | Type::Unknown),
            ArgShape::String => matches!(ty, Type::String | Type::Any | Type::Unknown),
            ArgShape::ListOrString => {
                matches!(ty, Type::List(_) | Type::String | Type::Any | Type::Unknown)
            }
            ArgShape::GraphEntity => matches!(
                ty,
                Type::Node(_) | Type::Relationship(_) | Type::Path | Type::Any | Type::Unknown
            ),
            ArgShape::Map => matches!(ty, Type::Map(_) | Type::Any | Type::Unknown),
            ArgShape::GraphEntityOrMap => matches!(
                ty,
                Type::Node(_) | Type::Relationship(_) | Type::Map(_) | Type::Any | Type::Unknown
            ),
        }
    }

    /// Human-readable label for a parameter shape — used in diagnostic
    /// messages (e.g. `expected Node | Relationship | Path`).
    #[must_use]
    pub fn describe(self) -> &'static str {
        match self {
            ArgShape::Any => "Any",
            ArgShape::List => "List",
            ArgShape::String => "String",
            ArgShape::ListOrString => "List | String",
            ArgShape::GraphEntity => "Node | Relationship | Path",
            ArgShape::Map => "Map",
            ArgShape::GraphEntityOrMap => "Node | Relationship | Map",
        }
    }
}

/// Return shape — what the call site's result type is.
#[derive(Debug, Clone, Copy, PartialEq, Eq)]
pub enum ReturnShape {
    /// Concrete fixed type — used for `id: Int` and `size: Int`.
    Fixed(FixedTy),
    /// Element type of the first list argument. Used by `head` and `last`.
    ListElement,
    /// Same list type as the first argument. Used by `tail`.
    ListSelf,
}

/// The subset of [`Type`] the builtin table needs to name.
///
/// A reduced mirror of [`Type`] that can sit inside a `const` context.
/// When a richer signature is needed, extend this enum (or lift the
/// table to a `OnceLock<Vec<…>>`).
#[derive(Debug, Clone, Copy, PartialEq, Eq)]
pub enum FixedTy {
    /// `INTEGER`.
    Int,
    /// `STRING`.
    String,
    /// `BOOLEAN`.
    Bool,
    /// `ANY` — the universal super-type.
    Any,
    /// `LIST<STRING>` — returned by `keys`.
    ListString,
    /// `LIST<ANY>` — returned by `values`.
    ListAny,
}

impl FixedTy {
    /// Lift into a full [`Type`].
    #[must_use]
    pub fn to_type(self) -> Type {
        match self {
            FixedTy::Int => Type::Int,
            FixedTy::String => Type::String,
            FixedTy::Bool => Type::Bool,
            FixedTy::Any => Type::Any,
            FixedTy::ListString => Type::List(Box::new(Type::String)),
            FixedTy::ListAny => Type::List(Box::new(Type::Any)),
        }
    }
}

/// One built-in signature.
#[derive(Debug, Clone, Copy, PartialEq, Eq)]
pub struct Builtin {
    /// Canonical (lower-case) name used for lookup.
    pub name: &'static str,
    /// Parameter shapes, positionally.
    pub params: &'static [ArgShape],
    /// What the result type is.
    pub ret: ReturnShape,
    /// Doc string — one-liner, surfaces in LSP hovers.
    pub doc: &'static str,
}

impl Builtin {
    /// Number of positional parameters.
    #[must_use]
    pub fn arity(&self) -> usize {
        self.params.len()
    }

    /// Resolve the return type given the (already-inferred) argument
    /// types. Falls back to [`Type::Any`] when the element / self shape
    /// cannot be concretely recovered — the conservative default.
    #[must_use]
    pub fn resolve_return(&self, args: &[Type]) -> Type {
        match self.ret {
            ReturnShape::Fixed(ft) => ft.to_type(),
            ReturnShape::ListElement => args.first().map_or(Type::Any, |t| match t {
                Type::List(inner) => (**inner).clone(),
                _ => Type::Any,
            }),
            ReturnShape::ListSelf => args.first().map_or_else(
                || Type::List(Box::new(Type::Any)),
                |t| match t {
                    Type::List(_) => t.clone(),
                    _ => Type::List(Box::new(Type::Any)),
                },
            ),
        }
    }
}

// ===========================================================================
// The table
// ===========================================================================

/// The full built-in table. Ordering is append-only: new entries land at
/// the end. Lookups use case-insensitive name comparison via [`lookup`].
pub const BUILTINS: &[Builtin] = &[
    // --- cy-zo9 / cy-zo9.1: graph-element identity ------------------------
    //
    // `id(n)` — opaque identifier of a node, relationship, or path.
    // The argument must be a graph entity; scalars are rejected with
    // E5012 at the `infer` call-site (cy-zo9.1).
    Builtin {
        name: "id",
        params: &[ArgShape::GraphEntity],
        ret: ReturnShape::Fixed(FixedTy::Int),
        doc: "opaque identifier of a node, relationship, or path element",
    },
    // --- cy-5gh: list / string stdlib -------------------------------------
    //
    // `size(x)` — length of a list or character count of a string.
    Builtin {
        name: "size",
        params: &[ArgShape::ListOrString],
        ret: ReturnShape::Fixed(FixedTy::Int),
        doc: "length of a list, or character count of a string",
    },
    // `head(xs)` — first element of a list, or `null` when empty.
    Builtin {
        name: "head",
        params: &[ArgShape::List],
        ret: ReturnShape::ListElement,
        doc: "first element of a list, or null when empty",
    },
    // `tail(xs)` — all but the first element (a list).
    Builtin {
        name: "tail",
        params: &[ArgShape::List],
        ret: ReturnShape::ListSelf,
        doc: "all elements of a list except the first (a list)",
    },
    // `last(xs)` — last element of a list, or `null` when empty.
    Builtin {
        name: "last",
        params: &[ArgShape::List],
        ret: ReturnShape::ListElement,
        doc: "last element of a list, or null when empty",
    },
    // --- cy-afo: map stdlib -----------------------------------------------
    //
    // `keys(x)` — openCypher names `keys` over both graph entities
    // (property-key names) and maps (map keys). The schema layer
    // accepts anything (`PropertyType::Any`); this entry is what the
    // schema-free pass uses to reject scalars / lists / paths with
    // E5012 at the call site.
    Builtin {
        name: "keys",
        params: &[ArgShape::GraphEntityOrMap],
        ret: ReturnShape::Fixed(FixedTy::ListString),
        doc: "property-key names of a node, relationship, or map",
    },
    // `values(map)` — openCypher defines this over `MAP` only, returning
    // the value list as `LIST<ANY>`.
    Builtin {
        name: "values",
        params: &[ArgShape::Map],
        ret: ReturnShape::Fixed(FixedTy::ListAny),
        doc: "values of a map as a list",
    },
];

/// Look up a builtin by case-insensitive name.
///
/// Returns the first matching entry, or `None` if no builtin with that
/// name is registered. Names in [`BUILTINS`] are stored lower-case.
#[must_use]
pub fn lookup(name: &[u8]) -> Option<&'static Builtin> {
    BUILTINS
        .iter()
        .find(|b| b.name.as_bytes().eq_ignore_ascii_case(name))
}

/// Look up a builtin by interned [`SmolStr`] name — convenience for call
/// sites that already hold one. Forwards to [`lookup`].
#[must_use]
pub fn lookup_smol(name: &SmolStr) -> Option<&'static Builtin> {
    lookup(name.as_bytes())
}
