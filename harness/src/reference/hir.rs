// Taken over from the repository phall1/cyrs, commit c44ba5361e, file crates/cyrs-hir/src/lib.rs,
// licensed Apache-2.0 OR MIT. What was changed:
// - only the statement tree is here; parsing, lowering, scopes and the map back to syntax are left out,
//   and so are the fields `node_map`, `session_set`, `unions` and `next_id` of `Statement` with their
//   functions, which `infer_types` never reads.
// - `SmolStr`, `IndexMap` and `TextRange` are the stand-ins of stand_ins.rs.
// - a `HirId` is a line number of the sheet.

//! The statement tree.

use super::stand_ins::{IndexMap, SmolStr, TextRange};
pub use super::stand_ins::{TextRange as HirSpan, TextSize as HirOffset};

/// Statement-scoped index identifying an HIR node.
///
/// Here it is the number of the node's line in its sheet, from 1.
/// `HirId(0)` is reserved for [`HirId::DUMMY`].
#[derive(Debug, Clone, Copy, PartialEq, Eq, PartialOrd, Ord, Hash)]
pub struct HirId(pub u32);

impl HirId {
    /// Sentinel value used before an id has been assigned. Never points
    /// at a real node.
    pub const DUMMY: HirId = HirId(0);
}

/// Interned variable identity within a statement.
#[derive(Debug, Clone, Copy, PartialEq, Eq, PartialOrd, Ord, Hash)]
pub struct VarId(pub u32);

/// Variable kind recorded at binding (spec §6.3).
//
// NOTE (cy-2i9.1): this enum is heavily matched across `cyrs-sema`,
// `cyrs-plan`, `cyrs-db`, and `cyrs-lang-services`.  Marking it
// `#[non_exhaustive]` here would force wildcard arms at every cross-crate
// match site.  Deferred to a follow-up bead; see `docs/stability.md`
// "Deferred: intra-workspace non_exhaustive" section.
#[derive(Debug, Clone, Copy, PartialEq, Eq)]
pub enum VarKind {
    /// Bound by a node pattern (e.g. `MATCH (a)`).
    Node,
    /// Bound by a relationship pattern (e.g. `-[r:KNOWS]->`).
    Relationship,
    /// Bound by a path assignment (e.g. `p = (a)-[]->(b)`).
    ///
    /// # Embedder note — path-variable representation
    ///
    /// A path-bound variable names the *whole* pattern part it is
    /// assigned to, not any single node or relationship. Its value is
    /// the ordered sequence of graph elements the part traverses —
    /// node, relationship, node, relationship, …, node — always
    /// starting and ending with a node and alternating thereafter.
    /// `cyrs-sema` infers its type as `Type::Path`.
    ///
    /// **HIR contract.** The binder is recorded on
    /// [`PatternPart::named_as`]; the element sequence is
    /// [`PatternPart::elements`] in source order. The HIR does *not*
    /// synthesise a separate "path value" node — an embedder
    /// materialises the path by walking `elements`.
    ///
    /// **Plan contract.** `cyrs-plan` always surfaces the binder as a
    /// real plan `cyrs_plan::VarId` *produced* by a path-producing
    /// operator, regardless of the pattern part shape:
    ///
    /// - For a `shortestPath` / `allShortestPaths` part, the binder is
    ///   threaded into `cyrs_plan::ReadOp::ShortestPath`'s `bind_path`
    ///   field.
    /// - For a **plain** named path (`MATCH p = (a)-[*]->(b)`), the
    ///   `Source` + `Expand` chain is wrapped in a
    ///   `cyrs_plan::ReadOp::BindPath`, whose `bind_path` field
    ///   produces the binder and whose `elements` field lists the
    ///   ordered node/relationship `VarId`s the path is assembled
    ///   from. `RETURN p` therefore references a `VarId` that some
    ///   operator genuinely produces — there is no dangling reference.
    ///
    /// In both cases the embedder materialises the path by reading the
    /// element sequence; see `cyrs_plan::ReadOp::BindPath` and
    /// `cyrs_plan::ReadOp::ShortestPath`.
    Path,
    /// Bound by `UNWIND ... AS v`, `WITH expr AS v`, or `CALL ... YIELD v`.
    Value,
}

/// A variable declaration within a statement scope.
#[derive(Debug, Clone)]
pub struct Binding {
    pub id: VarId,
    pub name: SmolStr,
    pub kind: VarKind,
    pub defined_at: TextRange,
}

/// Owned HIR statement.
///
/// The tree of [`Clause`]s under the statement is the analysis target.
/// Bindings are interned in [`Statement::bindings`].
#[derive(Debug, Clone)]
pub struct Statement {
    pub clauses: Vec<Clause>,
    pub bindings: IndexMap<VarId, Binding>,
    pub span: TextRange,
}

impl Statement {
    /// Create an empty statement spanning `span`.
    pub fn new(span: TextRange) -> Self {
        Self {
            clauses: Vec::new(),
            bindings: IndexMap::new(),
            span,
        }
    }
}

/// A single clause in a statement. Each variant carries its own
/// [`HirId`] so diagnostics can point back at the originating AST.
//
// NOTE (cy-2i9.1): heavily matched across the workspace — see
// `VarKind` note above and `docs/stability.md`.
#[derive(Debug, Clone)]
pub enum Clause {
    Match {
        id: HirId,
        optional: bool,
        pattern: Pattern,
        span: TextRange,
    },
    Where {
        id: HirId,
        predicate: Expr,
        span: TextRange,
    },
    With {
        id: HirId,
        projections: Vec<Projection>,
        filter: Option<Expr>,
        /// `ORDER BY` trailer items, in source order. Empty when absent.
        order_by: Vec<OrderItem>,
        /// `SKIP` expression, or `None` when the trailer is absent.
        skip: Option<Expr>,
        /// `LIMIT` expression, or `None` when the trailer is absent.
        limit: Option<Expr>,
        span: TextRange,
    },
    Return {
        id: HirId,
        projections: Vec<Projection>,
        distinct: bool,
        /// `ORDER BY` trailer items, in source order. Empty when absent.
        order_by: Vec<OrderItem>,
        /// `SKIP` expression, or `None` when the trailer is absent.
        skip: Option<Expr>,
        /// `LIMIT` expression, or `None` when the trailer is absent.
        limit: Option<Expr>,
        span: TextRange,
    },
    Unwind {
        id: HirId,
        list: Expr,
        bind: VarId,
        span: TextRange,
    },
    Create {
        id: HirId,
        pattern: Pattern,
        span: TextRange,
    },
    Merge {
        id: HirId,
        pattern: Pattern,
        on_create: Vec<SetItem>,
        on_match: Vec<SetItem>,
        span: TextRange,
    },
    Set {
        id: HirId,
        items: Vec<SetItem>,
        span: TextRange,
    },
    Remove {
        id: HirId,
        items: Vec<RemoveItem>,
        span: TextRange,
    },
    Delete {
        id: HirId,
        targets: Vec<Expr>,
        detach: bool,
        span: TextRange,
    },
    Call {
        id: HirId,
        procedure: SmolStr,
        args: Vec<Expr>,
        yields: Vec<YieldItem>,
        /// `true` for GQL `OPTIONAL CALL` (ISO/IEC 39075:2024 §14.11.3).
        /// A failed optional call yields one empty row. A failed plain
        /// call fails the query. Spec 0005 §3.
        optional: bool,
        span: TextRange,
    },
}

impl Clause {
    /// Return the [`HirId`] identifying this clause.
    pub fn id(&self) -> HirId {
        match self {
            Clause::Match { id, .. }
            | Clause::Where { id, .. }
            | Clause::With { id, .. }
            | Clause::Return { id, .. }
            | Clause::Unwind { id, .. }
            | Clause::Create { id, .. }
            | Clause::Merge { id, .. }
            | Clause::Set { id, .. }
            | Clause::Remove { id, .. }
            | Clause::Delete { id, .. }
            | Clause::Call { id, .. } => *id,
        }
    }

    /// Source span of the clause.
    pub fn span(&self) -> TextRange {
        match self {
            Clause::Match { span, .. }
            | Clause::Where { span, .. }
            | Clause::With { span, .. }
            | Clause::Return { span, .. }
            | Clause::Unwind { span, .. }
            | Clause::Create { span, .. }
            | Clause::Merge { span, .. }
            | Clause::Set { span, .. }
            | Clause::Remove { span, .. }
            | Clause::Delete { span, .. }
            | Clause::Call { span, .. } => *span,
        }
    }
}

/// A graph pattern, broken into connected components.
#[derive(Debug, Clone)]
pub struct Pattern {
    pub parts: Vec<PatternPart>,
}

/// Whether a [`PatternPart`] is wrapped in a `shortestPath` /
/// `allShortestPaths` call.
///
/// A bare path component is [`ShortestPath::No`]. `shortestPath(...)`
/// becomes [`ShortestPath::Shortest`] and `allShortestPaths(...)`
/// becomes [`ShortestPath::AllShortest`]. The plan layer surfaces the
/// non-`No` cases as a dedicated `ShortestPath` read operator
/// (`cyrs_plan::ReadOp::ShortestPath`) rather than a plain var-length
/// `Expand`. Spec §6.4.
#[derive(Debug, Clone, Copy, PartialEq, Eq, Default)]
#[non_exhaustive]
pub enum ShortestPath {
    /// A plain path component, not wrapped in a shortest-path call.
    #[default]
    No,
    /// `shortestPath(...)` — a single shortest path between the endpoints.
    Shortest,
    /// `allShortestPaths(...)` — every minimum-length path between them.
    AllShortest,
}

/// One connected component of a [`Pattern`], optionally bound to a
/// path variable (`p = (a)-[]->(b)`).
///
/// # Embedder note — named-path structure
///
/// When `named_as` is `Some`, the part is a *named path*: that
/// [`VarId`] (kind [`VarKind::Path`]) names the whole part. The path
/// value's structural contract is `elements` itself — an ordered,
/// node-first, strictly alternating node/relationship sequence. There
/// is no separate path node in the HIR; an embedder reads `elements`
/// directly. See [`VarKind::Path`] for how (and whether) the plan
/// layer surfaces the binder.
#[derive(Debug, Clone)]
pub struct PatternPart {
    /// Path-variable binder for this part (`p` in `p = (a)-[]->(b)`),
    /// or `None` for an unnamed part. Always [`VarKind::Path`].
    pub named_as: Option<VarId>,
    /// The part's elements in source order: node, relationship, node,
    /// … — always node-first and strictly alternating.
    pub elements: Vec<PatternElement>,
    /// Whether this component is wrapped in `shortestPath` /
    /// `allShortestPaths`. [`ShortestPath::No`] for a bare path.
    pub shortest: ShortestPath,
}

/// An individual node or relationship within a [`PatternPart`].
//
// NOTE (cy-2i9.1): heavily matched across the workspace — see
// `VarKind` note above and `docs/stability.md`.
#[derive(Debug, Clone)]
pub enum PatternElement {
    Node {
        id: HirId,
        bind: Option<VarId>,
        labels: Vec<SmolStr>,
        props: Option<Expr>,
        span: TextRange,
    },
    Rel {
        id: HirId,
        bind: Option<VarId>,
        types: Vec<SmolStr>,
        direction: Direction,
        length: RelLength,
        props: Option<Expr>,
        span: TextRange,
    },
}

impl PatternElement {
    /// Return the [`HirId`] identifying this element.
    pub fn id(&self) -> HirId {
        match self {
            PatternElement::Node { id, .. } | PatternElement::Rel { id, .. } => *id,
        }
    }

    /// Source span of the element.
    pub fn span(&self) -> TextRange {
        match self {
            PatternElement::Node { span, .. } | PatternElement::Rel { span, .. } => *span,
        }
    }
}

/// Relationship direction as written in the source.
#[derive(Debug, Clone, Copy, PartialEq, Eq)]
#[non_exhaustive]
pub enum Direction {
    Outgoing,
    Incoming,
    Undirected,
}

/// Variable-length relationship bounds. `Single` means no `*` suffix.
#[derive(Debug, Clone, PartialEq, Eq)]
#[non_exhaustive]
pub enum RelLength {
    Single,
    Variable { min: Option<u64>, max: Option<u64> },
}

/// A single output of `RETURN` or `WITH`.
#[derive(Debug, Clone)]
pub struct Projection {
    pub expr: Expr,
    pub alias: Option<SmolStr>,
    pub span: TextRange,
}

/// A single `ORDER BY` item — sort key plus direction.
///
/// Lowered from `ORDER_ITEM` syntax nodes attached to `RETURN_BODY` /
/// `WITH_CLAUSE` (spec §6.1 trailer). `descending` is `true` for `DESC`
/// or `DESCENDING`; ascending is the default and applies when no
/// direction keyword is present (or `ASC` / `ASCENDING` is given).
#[derive(Debug, Clone)]
pub struct OrderItem {
    pub expr: Expr,
    pub descending: bool,
    pub span: TextRange,
}

/// Right-hand side of a `SET` clause item.
//
// NOTE (cy-2i9.1): heavily matched across the workspace — see
// `VarKind` note above and `docs/stability.md`.
#[derive(Debug, Clone)]
pub enum SetItem {
    Property {
        target: Expr,
        prop: SmolStr,
        value: Expr,
    },
    Labels {
        target: VarId,
        labels: Vec<SmolStr>,
    },
    AssignMap {
        target: VarId,
        map: Expr,
        replace: bool,
    },
}

/// An item within a `REMOVE` clause.
//
// NOTE (cy-2i9.1): heavily matched across the workspace — see
// `VarKind` note above and `docs/stability.md`.
#[derive(Debug, Clone)]
pub enum RemoveItem {
    Property { target: Expr, prop: SmolStr },
    Labels { target: VarId, labels: Vec<SmolStr> },
}

/// A single `YIELD` binding on a `CALL` clause.
#[derive(Debug, Clone)]
pub struct YieldItem {
    /// Procedure output column, as written after `YIELD`.
    pub name: SmolStr,
    /// `YIELD name AS alias`. `None` when the column name is the binding.
    pub alias: Option<SmolStr>,
    /// Variable bound to this column. Allocated by HIR lowering.
    pub var: VarId,
}

/// HIR expression. Fully resolved: every [`Expr::Var`] carries its
/// [`VarId`].
//
// NOTE (cy-2i9.1): heavily matched across the workspace — see
// `VarKind` note above and `docs/stability.md`.
#[derive(Debug, Clone)]
pub enum Expr {
    Null,
    Bool(bool),
    Int(i64),
    Float(f64),
    String(SmolStr),
    Var(VarId),
    Param(SmolStr),
    Prop {
        target: Box<Expr>,
        prop: SmolStr,
    },
    Index {
        target: Box<Expr>,
        index: Box<Expr>,
    },
    /// List slicing — `xs[i..j]`, `xs[..j]`, `xs[i..]` (cy-7s6.1).
    ///
    /// `start` and `end` are optional: elision maps to `None` (openCypher
    /// semantics — absent `start` defaults to 0, absent `end` defaults to
    /// `len`). Negative indices are permitted and carry their from-end
    /// meaning at evaluation time; the HIR does not normalise them.
    ///
    /// v1 scope is lists only. Passing a non-list to `Expr::Slice` is a
    /// type error reported by the sema `kinds` pass (E5010) — see
    /// `cyrs-sema::kinds` for the emission site.
    Slice {
        target: Box<Expr>,
        start: Option<Box<Expr>>,
        end: Option<Box<Expr>>,
    },
    List(Vec<Expr>),
    Map(Vec<(SmolStr, Expr)>),
    Call {
        name: SmolStr,
        args: Vec<Expr>,
        distinct: bool,
    },
    BinOp {
        op: BinOp,
        lhs: Box<Expr>,
        rhs: Box<Expr>,
    },
    UnaryOp {
        op: UnaryOp,
        operand: Box<Expr>,
    },
    Case {
        scrutinee: Option<Box<Expr>>,
        arms: Vec<(Expr, Expr)>,
        otherwise: Option<Box<Expr>>,
    },
    IsNull {
        operand: Box<Expr>,
        negated: bool,
    },
    InList {
        operand: Box<Expr>,
        list: Box<Expr>,
    },
    PatternPredicate(Pattern),
    /// Desugared list comprehension (spec §6.1).
    ///
    /// `[x IN xs WHERE p(x) | e(x)]` is lowered to this canonical form.
    /// `filter_var` is the iteration variable, `iterable` is the source
    /// list, `filter` is the optional predicate (present when `WHERE`
    /// appears), and `map_expr` is the projection expression (the part
    /// after `|`; equals `Expr::Var(filter_var)` when omitted).
    ListComprehension {
        filter_var: VarId,
        iterable: Box<Expr>,
        filter: Option<Box<Expr>>,
        map_expr: Box<Expr>,
    },
    /// Pattern comprehension `[p = (a)-[r]->(b) WHERE pred | map_expr]`.
    ///
    /// Evaluates to the list of `map_expr` values, one per match of
    /// `pattern` that satisfies `filter`. Variables the pattern binds
    /// for the first time are local to the comprehension (visible in
    /// `filter` and `map_expr` only); a name already bound outside is a
    /// join point and keeps its outer `VarId`. A path binder lands on
    /// [`PatternPart::named_as`] as usual. `span` covers the whole
    /// `[ … ]`.
    PatternComprehension {
        pattern: Pattern,
        filter: Option<Box<Expr>>,
        map_expr: Box<Expr>,
        span: TextRange,
    },
    /// A list predicate — `ANY|ALL|NONE|SINGLE(v IN xs [WHERE p(v)])`
    /// (cy-8x5, spec §19 row "List predicates").
    ///
    /// The `var` is scoped to the `predicate` expression only; callers
    /// that traverse the HIR must introduce a child scope before
    /// descending into the predicate (this parallels the
    /// `ListComprehension` `filter_var` discipline). The `predicate` is
    /// optional per openCypher spec: bare `ANY(x IN xs)` is true iff
    /// `xs` is non-empty, `ALL(x IN xs)` is vacuously true, etc.
    ///
    /// Result type is always `Bool`.
    ListPredicate {
        kind: ListPredKind,
        var: VarId,
        iterable: Box<Expr>,
        predicate: Option<Box<Expr>>,
    },
    /// Desugared map projection (spec §6.1).
    ///
    /// `a { .name, .age, computed: f(a) }` is lowered to an explicit map
    /// construction carrying the base expression and a list of named
    /// fields. Each [`MapProjectionItem`] is either a property copy or a
    /// computed key-value pair.
    MapProjection {
        base: Box<Expr>,
        items: Vec<MapProjectionItem>,
    },
    /// Unresolved variable reference surviving name resolution; carries
    /// the original name for diagnostic messages.
    Unresolved(SmolStr),
    // --- cy-p1u5 EXISTS parser-only ---
    /// `EXISTS { <Statement> }` / `EXISTS ( MATCH … )` subquery
    /// expression (ISO/IEC 39075:2024 §10.7 / §14.10, spec amendment
    /// 2026-05-19 cy-5e3f, bead cy-p1u5).
    ///
    /// **Inert marker** — the body is *not* lowered into HIR clauses;
    /// no `VarId`s are minted for the inner pattern, and name
    /// resolution does not descend into it. The variant exists so the
    /// HIR is reachable from the CST shape that bead cy-p1u5 added,
    /// and so the sema dialect-gate pass can emit
    /// `DiagCode::E4017` (`exists_subquery` gate) on every
    /// occurrence — keeping spec §20 D1 / N4 in force at the
    /// semantic surface while the parser accepts the syntax.
    ///
    /// `span` is the [`TextRange`] covering the entire `EXISTS …`
    /// expression on the originating CST node, so the diagnostic
    /// points at the offending construct rather than a zero-width
    /// span. Type, in any consumer that infers one, is treated as
    /// `Type::Unknown` (cascading errors are suppressed in the same
    /// way as [`Expr::Unresolved`]).
    ExistsSubqueryDeferred {
        span: TextRange,
    },
    // --- end cy-p1u5 ---
}

/// One item in a [`Expr::MapProjection`] (spec §6.1).
//
// NOTE (cy-2i9.1): heavily matched across the workspace — see
// `VarKind` note above and `docs/stability.md`.
#[derive(Debug, Clone)]
pub enum MapProjectionItem {
    /// `.prop` — copy property `prop` from the base expression.
    PropCopy { prop: SmolStr },
    /// `key: expr` — computed key-value pair.
    Computed { key: SmolStr, value: Expr },
    /// `varName` — include a variable as `{varName: varName}`.
    VarShorthand { var: VarId, name: SmolStr },
    /// `varName: expr` — aliased expression inside projection.
    Aliased { key: SmolStr, value: Expr },
}

/// Binary operators (spec §5.6 / §7.2).
//
// NOTE (cy-2i9.1): heavily matched across the workspace — see
// `VarKind` note above and `docs/stability.md`.
#[derive(Debug, Clone, Copy, PartialEq, Eq)]
pub enum BinOp {
    Add,
    Sub,
    Mul,
    Div,
    Mod,
    Pow,
    Eq,
    Neq,
    Lt,
    Le,
    Gt,
    Ge,
    And,
    Or,
    Xor,
    StartsWith,
    EndsWith,
    Contains,
    RegexMatch,
    Concat,
}

/// Unary operators (spec §5.6 / §7.2).
//
// NOTE (cy-2i9.1): heavily matched across the workspace — see
// `VarKind` note above and `docs/stability.md`.
#[derive(Debug, Clone, Copy, PartialEq, Eq)]
pub enum UnaryOp {
    Neg,
    Not,
}

/// Discriminant for [`Expr::ListPredicate`] — one of the four openCypher
/// list predicates (cy-8x5, spec §19 row "List predicates").
///
/// Marked `#[non_exhaustive]` at the public boundary so future list
/// predicates (e.g. `EVERY`) can be added without breaking downstream
/// matches (see `docs/stability.md`, same policy as cy-2i9.1).
#[derive(Debug, Clone, Copy, PartialEq, Eq)]
#[non_exhaustive]
pub enum ListPredKind {
    /// `ANY(v IN xs WHERE p)` — at least one element matches.
    Any,
    /// `ALL(v IN xs WHERE p)` — every element matches.
    All,
    /// `NONE(v IN xs WHERE p)` — no element matches.
    None,
    /// `SINGLE(v IN xs WHERE p)` — exactly one element matches.
    Single,
}
