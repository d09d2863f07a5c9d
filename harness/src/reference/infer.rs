// Taken over from the repository phall1/cyrs, commit c44ba5361e, file crates/cyrs-sema/src/infer.rs,
// licensed Apache-2.0 OR MIT. What was changed:
// - the paths of the `use` lines follow the folder; `IndexMap` and the diagnostics are stand-ins.
// - `InferCtx`, its fields, `infer_expr` and `type_name` are visible.
// - links in comments to what is not here are plain words.

//! Schema-free type-inference pass (spec 0001 §7.4).
//!
//! Walks the resolved, desugared HIR and assigns a [`Type`] to each
//! expression using the unification engine from `unify.rs`. Where
//! unification fails or a structural constraint is violated, a diagnostic
//! is emitted into the [`DiagnosticsSink`].
//!
//! # Scope of this pass (schema-free only)
//!
//! This pass implements the schema-free rules from §7.1 / §7.4:
//!
//! | Rule | Code |
//! |------|------|
//! | Arithmetic operands must unify with `Num` | `E2009` |
//! | String-operator operands must be `String` | `E2010` |
//! | Boolean-operator operands must be `Bool` | `E2011` |
//! | `IN` list element type unification | `E2012` |
//! | `IN` right-hand side must be a list | `E2013` |
//! | `IS NULL` / `IS NOT NULL` result is `Bool` (no type constraint) | — |
//! | Literal type assignment | — |
//! | Builtin argument kind mismatch (`id(42)`, …) | `E5012` |
//!
//! **Deferred (see spec §20):**
//! - Function-call arity and return-type checks for *unknown* functions
//!   remain deferred until a `StandardLibrary` / `SchemaProvider` is
//!   available (cy-36u). Registered builtins — the small table in
//!   `builtins.rs` — are checked here: the return type is resolved
//!   and argument shapes are validated against `ArgShape`. Unknown
//!   calls still return [`Type::Any`].
//! - Parameter-type unification across sites (E2005) is deferred; this pass
//!   yields [`Type::Any`] for every [`Expr::Param`].
//!
//! # No schema-aware checks
//!
//! This pass deliberately does **not** validate against label schemas,
//! property types, or function catalogs. Those checks live in the
//! schema-aware pass (cy-36u, E3xxx codes).
//!

use super::hir::{
    BinOp, Binding, Clause, Expr, HirOffset, HirSpan, MapProjectionItem, Pattern, PatternElement,
    SetItem, Statement, UnaryOp, VarId,
};
use super::stand_ins::IndexMap;
use super::stand_ins::{DiagCode, Diagnostic, DiagnosticsSink};

use super::builtins;
use super::ty::Type;
use super::unify::unify;

/// Run the schema-free type-inference pass on a resolved HIR statement.
///
/// The pass walks every expression in every clause, infers types bottom-up,
/// and emits diagnostics for structural type violations.
///
/// # No short-circuiting
///
/// Per spec §10.4, this pass never short-circuits: all expressions are
/// visited even after errors, so as many diagnostics as possible are
/// reported in a single pass.
pub fn infer_types(stmt: &Statement, sink: &mut DiagnosticsSink) {
    let mut ctx = InferCtx {
        bindings: &stmt.bindings,
        sink,
    };
    ctx.check_statement(stmt);
}

// ---------------------------------------------------------------------------
// Internal context
// ---------------------------------------------------------------------------

pub struct InferCtx<'a> {
    pub bindings: &'a IndexMap<VarId, Binding>,
    pub sink: &'a mut DiagnosticsSink,
}

impl InferCtx<'_> {
    fn check_statement(&mut self, stmt: &Statement) {
        for clause in &stmt.clauses {
            self.check_clause(clause);
        }
    }

    fn check_clause(&mut self, clause: &Clause) {
        match clause {
            Clause::Match { pattern, .. }
            | Clause::Create { pattern, .. }
            | Clause::Merge { pattern, .. } => {
                self.check_pattern(pattern);
            }
            Clause::Where { predicate, .. } => {
                self.infer_expr(predicate);
            }
            Clause::With {
                projections,
                filter,
                ..
            } => {
                for proj in projections {
                    self.infer_expr(&proj.expr);
                }
                if let Some(f) = filter {
                    self.infer_expr(f);
                }
            }
            Clause::Return { projections, .. } => {
                for proj in projections {
                    self.infer_expr(&proj.expr);
                }
            }
            Clause::Unwind { list, .. } => {
                self.infer_expr(list);
            }
            Clause::Set { items, .. } => {
                for item in items {
                    match item {
                        SetItem::Property { target, value, .. } => {
                            self.infer_expr(target);
                            self.infer_expr(value);
                        }
                        SetItem::AssignMap { map, .. } => {
                            self.infer_expr(map);
                        }
                        SetItem::Labels { .. } => {}
                    }
                }
            }
            Clause::Remove { items, .. } => {
                use super::hir::RemoveItem;
                for item in items {
                    match item {
                        RemoveItem::Property { target, .. } => {
                            self.infer_expr(target);
                        }
                        RemoveItem::Labels { .. } => {}
                    }
                }
            }
            Clause::Delete { targets, .. } => {
                for expr in targets {
                    self.infer_expr(expr);
                }
            }
            Clause::Call { args, .. } => {
                for arg in args {
                    self.infer_expr(arg);
                }
            }
        }
    }

    fn check_pattern(&mut self, pattern: &Pattern) {
        for part in &pattern.parts {
            for elem in &part.elements {
                match elem {
                    PatternElement::Node { props, .. } | PatternElement::Rel { props, .. } => {
                        if let Some(p) = props {
                            self.infer_expr(p);
                        }
                    }
                }
            }
        }
    }

    /// Infer the type of an expression, emitting diagnostics for violations.
    ///
    /// Returns the inferred [`Type`]. [`Type::Unknown`] is returned when
    /// inference fails so that cascading errors are suppressed.
    pub fn infer_expr(&mut self, expr: &Expr) -> Type {
        match expr {
            // ---------------------------------------------------------------
            // Literals — types assigned directly (spec §7.2).
            // ---------------------------------------------------------------
            Expr::Null => Type::Null,
            Expr::Bool(_) => Type::Bool,
            Expr::Int(_) => Type::Int,
            Expr::Float(_) => Type::Float,
            Expr::String(_) => Type::String,

            // ---------------------------------------------------------------
            // Variables — look up from bindings.
            // Node/Rel/Path VarKinds map to their structural types; Value
            // bindings can hold any type so we return Any.
            // ---------------------------------------------------------------
            Expr::Var(var) => self.var_type(*var),

            // ---------------------------------------------------------------
            // Parameters — schema-free: Any (type inferred from context or
            // externally supplied hints; cross-site unification deferred).
            // ---------------------------------------------------------------
            Expr::Param(_) => Type::Any,

            // ---------------------------------------------------------------
            // Unresolved — already an error from name resolution; propagate
            // Unknown silently so we don't cascade.
            //
            // cy-p1u5: `ExistsSubqueryDeferred` is treated the same way.
            // The dialect-gate pass owns the E4017 deferred-feature
            // diagnostic; here we propagate `Unknown` so type inference
            // does not cascade. The body is **not** descended into.
            // ---------------------------------------------------------------
            Expr::Unresolved(_) | Expr::ExistsSubqueryDeferred { .. } => Type::Unknown,

            // ---------------------------------------------------------------
            // Property access — result type is Any in schema-free mode
            // (schema-free cannot know the property's type). The target
            // must support property access (non-Path), which kinds.rs checks.
            // ---------------------------------------------------------------
            Expr::Prop { target, .. } => {
                self.infer_expr(target);
                Type::Any
            }

            // ---------------------------------------------------------------
            // Subscript index — target should be a list or map.
            //
            // When the target infers to `LIST<T>`, the result is `T`.
            // Otherwise result is `Any` (map access returns an `Any`-typed
            // value in schema-free mode; non-list/non-map targets are
            // caught by the structural `kinds` pass).
            // ---------------------------------------------------------------
            Expr::Index { target, index } => {
                let tgt_ty = self.infer_expr(target);
                self.infer_expr(index);
                match tgt_ty {
                    Type::List(elem) => *elem,
                    _ => Type::Any,
                }
            }

            // ---------------------------------------------------------------
            // Slice — `LIST<T>[..]` is `LIST<T>` (spec §7.4 / §19).
            // Visit bounds so their own type errors still surface.
            // ---------------------------------------------------------------
            Expr::Slice { target, start, end } => {
                let tgt_ty = self.infer_expr(target);
                if let Some(s) = start {
                    self.infer_expr(s);
                }
                if let Some(e) = end {
                    self.infer_expr(e);
                }
                match tgt_ty {
                    Type::List(_) => tgt_ty,
                    _ => Type::Any,
                }
            }

            // ---------------------------------------------------------------
            // List literal — element types unified to find element type.
            // ---------------------------------------------------------------
            Expr::List(items) => {
                if items.is_empty() {
                    return Type::List(Box::new(Type::Any));
                }
                let mut elem_ty = self.infer_expr(&items[0]);
                for item in &items[1..] {
                    let t = self.infer_expr(item);
                    elem_ty = match unify(&elem_ty, &t) {
                        Ok(unified) => unified,
                        Err(_) => Type::Any,
                    };
                }
                Type::List(Box::new(elem_ty))
            }

            // ---------------------------------------------------------------
            // Map literal — structural map type.
            // ---------------------------------------------------------------
            Expr::Map(pairs) => {
                let mut fields = std::collections::BTreeMap::new();
                for (key, val_expr) in pairs {
                    let vt = self.infer_expr(val_expr);
                    fields.insert(key.clone(), vt);
                }
                Type::Map(fields)
            }

            // ---------------------------------------------------------------
            // Function calls.
            //
            // Unknown functions fall through to the schema-aware pass
            // (cy-36u, spec §20) and type to `Any`. Registered builtins
            // (cy-5gh, cy-zo9, cy-zo9.1) have their argument kinds
            // checked against the declared `ArgShape` — mismatches emit
            // E5012 on the offending arg — and their return type is
            // resolved via `Builtin::resolve_return`.
            // ---------------------------------------------------------------
            Expr::Call { name, args, .. } => {
                let arg_tys: Vec<Type> = args.iter().map(|a| self.infer_expr(a)).collect();
                if let Some(sig) = builtins::lookup(name) {
                    self.check_builtin_args(sig, args, &arg_tys);
                    sig.resolve_return(&arg_tys)
                } else {
                    // Unknown function — arity / return-type checks
                    // deferred to schema-aware pass (cy-36u).
                    Type::Any
                }
            }

            // ---------------------------------------------------------------
            // Binary operators (spec §7.4).
            // ---------------------------------------------------------------
            Expr::BinOp { op, lhs, rhs } => self.infer_binop(*op, lhs, rhs),

            // ---------------------------------------------------------------
            // Unary operators.
            // ---------------------------------------------------------------
            Expr::UnaryOp { op, operand } => self.infer_unaryop(*op, operand),

            // ---------------------------------------------------------------
            // CASE — result is the union of arm result types.
            // ---------------------------------------------------------------
            Expr::Case {
                scrutinee,
                arms,
                otherwise,
            } => {
                if let Some(s) = scrutinee {
                    self.infer_expr(s);
                }
                let mut arm_types: Vec<Type> = Vec::new();
                for (cond, result) in arms {
                    let ct = self.infer_expr(cond);
                    // Conditions must be boolean.
                    if scrutinee.is_none() {
                        self.require_bool(&ct, dummy_span());
                    }
                    arm_types.push(self.infer_expr(result));
                }
                if let Some(o) = otherwise {
                    arm_types.push(self.infer_expr(o));
                }
                Type::union(arm_types)
            }

            // ---------------------------------------------------------------
            // IS NULL / IS NOT NULL — no type constraint on operand;
            // result is always Bool.
            // ---------------------------------------------------------------
            Expr::IsNull { operand, .. } => {
                self.infer_expr(operand);
                Type::Bool
            }

            // ---------------------------------------------------------------
            // IN list — operand type must unify with element type of list.
            // ---------------------------------------------------------------
            Expr::InList { operand, list } => {
                let op_ty = self.infer_expr(operand);
                let list_ty = self.infer_expr(list);
                self.check_in_list(&op_ty, &list_ty, dummy_span());
                Type::Bool
            }

            // ---------------------------------------------------------------
            // Pattern predicate — always Bool.
            // ---------------------------------------------------------------
            Expr::PatternPredicate(pat) => {
                self.check_pattern(pat);
                Type::Bool
            }

            // ---------------------------------------------------------------
            // Pattern comprehension — result is List(map_expr_type); the
            // optional predicate must be Bool, as for list comprehensions.
            // ---------------------------------------------------------------
            Expr::PatternComprehension {
                pattern,
                filter,
                map_expr,
                ..
            } => {
                self.check_pattern(pattern);
                if let Some(f) = filter {
                    let ft = self.infer_expr(f);
                    self.require_bool(&ft, dummy_span());
                }
                let elem_ty = self.infer_expr(map_expr);
                Type::List(Box::new(elem_ty))
            }

            // ---------------------------------------------------------------
            // List comprehension — result is List(map_expr_type). The
            // optional predicate must be Bool; non-bool predicates fall
            // under the usual boolean-operator diagnostic (E2011),
            // consistent with WHERE-clause handling. cy-5gh.
            // ---------------------------------------------------------------
            Expr::ListComprehension {
                iterable,
                filter,
                map_expr,
                ..
            } => {
                self.infer_expr(iterable);
                if let Some(f) = filter {
                    let ft = self.infer_expr(f);
                    self.require_bool(&ft, dummy_span());
                }
                let elem_ty = self.infer_expr(map_expr);
                Type::List(Box::new(elem_ty))
            }

            // ---------------------------------------------------------------
            // List predicate — result is always Bool (cy-8x5, §19).
            //
            // Type rules enforced by `cyrs-sema::kinds` (not here, because
            // the schema-free inference pass does not know the predicate's
            // iteration variable scope): iterable must be `LIST<T>`, the
            // predicate (if present) must be `BOOL`. See `kinds.rs`.
            // ---------------------------------------------------------------
            Expr::ListPredicate {
                iterable,
                predicate,
                ..
            } => {
                self.infer_expr(iterable);
                if let Some(p) = predicate {
                    self.infer_expr(p);
                }
                Type::Bool
            }

            // ---------------------------------------------------------------
            // Map projection — result is Map.
            // ---------------------------------------------------------------
            Expr::MapProjection { base, items } => {
                self.infer_expr(base);
                for item in items {
                    match item {
                        MapProjectionItem::Computed { value, .. }
                        | MapProjectionItem::Aliased { value, .. } => {
                            self.infer_expr(value);
                        }
                        MapProjectionItem::PropCopy { .. }
                        | MapProjectionItem::VarShorthand { .. } => {}
                    }
                }
                Type::Map(std::collections::BTreeMap::new())
            }
        }
    }

    // -----------------------------------------------------------------------
    // Binary operator inference (spec §7.4)
    // -----------------------------------------------------------------------

    fn infer_binop(&mut self, op: BinOp, lhs: &Expr, rhs: &Expr) -> Type {
        let lt = self.infer_expr(lhs);
        let rt = self.infer_expr(rhs);
        let span = dummy_span();

        match op {
            // Arithmetic: operands must unify to Num; result is the unified
            // numeric type (Int + Int → Int; Int + Float → Num; etc.).
            BinOp::Add | BinOp::Sub | BinOp::Mul | BinOp::Div | BinOp::Mod | BinOp::Pow => {
                let lt2 = self.require_numeric(&lt, span);
                let rt2 = self.require_numeric(&rt, span);
                // Unify the two (now-confirmed) numeric types.
                match unify(&lt2, &rt2) {
                    Ok(t) => t,
                    Err(_) => Type::Unknown,
                }
            }

            // Comparison: operands should be comparable scalars; result Bool.
            BinOp::Lt | BinOp::Le | BinOp::Gt | BinOp::Ge => {
                // Schema-free: we don't enforce a specific type for
                // comparisons (Any is fine), just require they unify.
                let _ = unify(&lt, &rt); // non-unifying is OK at schema-free level
                Type::Bool
            }

            // Equality: no type constraint schema-free; result Bool.
            BinOp::Eq | BinOp::Neq => Type::Bool,

            // Boolean operators: operands must be Bool.
            BinOp::And | BinOp::Or | BinOp::Xor => {
                self.require_bool(&lt, span);
                self.require_bool(&rt, span);
                Type::Bool
            }

            // String operators (CONTAINS, STARTS WITH, ENDS WITH) and regex:
            // both sides must be String.
            BinOp::StartsWith | BinOp::EndsWith | BinOp::Contains | BinOp::RegexMatch => {
                self.require_string(&lt, span);
                self.require_string(&rt, span);
                Type::Bool
            }

            // String / list concatenation: Any → Any (permissive schema-free).
            BinOp::Concat => Type::Any,
        }
    }

    // -----------------------------------------------------------------------
    // Unary operator inference
    // -----------------------------------------------------------------------

    fn infer_unaryop(&mut self, op: UnaryOp, operand: &Expr) -> Type {
        let span = dummy_span();
        let ot = self.infer_expr(operand);
        match op {
            UnaryOp::Neg => self.require_numeric(&ot, span),
            UnaryOp::Not => {
                self.require_bool(&ot, span);
                Type::Bool
            }
        }
    }

    // -----------------------------------------------------------------------
    // Type-requirement helpers
    // -----------------------------------------------------------------------

    /// Require that `ty` is numeric (Int, Float, or Num); emit E2009 if not.
    /// Returns the confirmed numeric type (or Unknown on error).
    fn require_numeric(&mut self, ty: &Type, span: HirSpan) -> Type {
        match ty {
            // Already numeric, or Any/Unknown — pass through without error.
            Type::Int | Type::Float | Type::Num | Type::Any | Type::Unknown => ty.clone(),
            // Non-numeric: emit error, return Unknown so we don't cascade.
            _ => {
                self.sink.push(Diagnostic::error(
                    DiagCode::E2009,
                    span,
                    format!(
                        "arithmetic operand must be numeric (`Int`, `Float`, or `Num`) \
                         but found `{}`",
                        type_name(ty),
                    ),
                ));
                Type::Unknown
            }
        }
    }

    /// Require that `ty` is a string; emit E2010 if not.
    fn require_string(&mut self, ty: &Type, span: HirSpan) {
        match ty {
            Type::String | Type::Any | Type::Unknown => {}
            _ => {
                self.sink.push(Diagnostic::error(
                    DiagCode::E2010,
                    span,
                    format!(
                        "string operator requires `String` operands but found `{}`",
                        type_name(ty),
                    ),
                ));
            }
        }
    }

    /// Require that `ty` is Bool; emit E2011 if not.
    fn require_bool(&mut self, ty: &Type, span: HirSpan) {
        match ty {
            Type::Bool | Type::Any | Type::Unknown => {}
            _ => {
                self.sink.push(Diagnostic::error(
                    DiagCode::E2011,
                    span,
                    format!(
                        "boolean operator requires `Bool` operands but found `{}`",
                        type_name(ty),
                    ),
                ));
            }
        }
    }

    /// Check that the `IN` operand is compatible with the list's element type.
    fn check_in_list(&mut self, op_ty: &Type, list_ty: &Type, span: HirSpan) {
        match list_ty {
            Type::List(elem_ty) => {
                // Element type must unify with operand type.
                if unify(op_ty, elem_ty).is_err() {
                    // Only emit if neither side is Any/Unknown (to avoid noise).
                    if !op_ty.is_any()
                        && !op_ty.is_unknown()
                        && !elem_ty.is_any()
                        && !elem_ty.is_unknown()
                    {
                        self.sink.push(Diagnostic::error(
                            DiagCode::E2012,
                            span,
                            format!(
                                "`IN` operand type `{}` is not compatible with list element \
                                 type `{}`",
                                type_name(op_ty),
                                type_name(elem_ty),
                            ),
                        ));
                    }
                }
            }
            // Any / Unknown / Null: no constraint.
            Type::Any | Type::Unknown | Type::Null => {}
            // Something that is definitely not a list.
            _ => {
                self.sink.push(Diagnostic::error(
                    DiagCode::E2013,
                    span,
                    format!(
                        "`IN` right-hand side must be a list but found `{}`",
                        type_name(list_ty),
                    ),
                ));
            }
        }
    }

    // -----------------------------------------------------------------------
    // Builtin argument-shape check (cy-zo9.1, §7.4 / §10.2)
    // -----------------------------------------------------------------------

    /// Validate each positional argument of a registered builtin against
    /// its declared `ArgShape`. Emits `E5012` with a span pointing
    /// to the offending argument on mismatch.
    ///
    /// Argument / parameter counts may diverge (arity is a schema-aware
    /// check — E3007 — not our job here): we iterate over the shorter
    /// slice and leave arity diagnostics to the schema-aware pass.
    ///
    fn check_builtin_args(&mut self, sig: &builtins::Builtin, args: &[Expr], arg_tys: &[Type]) {
        for ((shape, arg_expr), arg_ty) in sig.params.iter().zip(args.iter()).zip(arg_tys.iter()) {
            if !shape.accepts(arg_ty) {
                let span = expr_span(arg_expr);
                self.sink.push(Diagnostic::error(
                    DiagCode::E5012,
                    span,
                    format!(
                        "builtin `{}` argument has type `{}` but expected `{}`",
                        sig.name,
                        type_name(arg_ty),
                        shape.describe(),
                    ),
                ));
            }
        }
    }

    // -----------------------------------------------------------------------
    // Variable type helper
    // -----------------------------------------------------------------------

    fn var_type(&self, var: VarId) -> Type {
        use super::hir::VarKind;
        match self.bindings.get(&var).map(|b| b.kind) {
            Some(VarKind::Node) => Type::Node(None),
            Some(VarKind::Relationship) => Type::Relationship(None),
            Some(VarKind::Path) => Type::Path,
            Some(VarKind::Value) | None => Type::Any,
        }
    }
}

// ---------------------------------------------------------------------------
// Helpers
// ---------------------------------------------------------------------------

/// Human-readable name for a type (for diagnostic messages).
pub fn type_name(ty: &Type) -> &'static str {
    match ty {
        Type::Any => "Any",
        Type::Null => "Null",
        Type::Bool => "Bool",
        Type::Int => "Int",
        Type::Float => "Float",
        Type::Num => "Num",
        Type::String => "String",
        Type::Date => "Date",
        Type::Datetime => "Datetime",
        Type::List(_) => "List",
        Type::Map(_) => "Map",
        Type::Node(_) => "Node",
        Type::Relationship(_) => "Relationship",
        Type::Path => "Path",
        Type::Union(_) => "Union",
        Type::Unknown => "Unknown",
    }
}

/// Placeholder span — used when the HIR does not yet carry per-expression
/// spans. Once HIR expressions carry spans, callers should pass them directly.
fn dummy_span() -> HirSpan {
    HirSpan::empty(HirOffset::new(0))
}

/// Best-effort span for a HIR expression. The HIR's [`Expr`] variants do
/// not yet carry per-expression spans (deferred — see the module-level
/// docs), so this is structurally equivalent to [`dummy_span`] today.
/// A dedicated helper keeps the call sites ready for the follow-up that
/// plumbs real spans through the lowering layer.
fn expr_span(_expr: &Expr) -> HirSpan {
    dummy_span()
}
