//! `infer.rs` with its answers tested and its faults as records. Function by function as in `reference/infer.rs`, which see.
//!
//! Every expression is entered in the order of its line, so the lines of the expressions, in sheet order, are taken one
//! by one: that gives refusal 6 its line, the one of the innermost expression being typed.

use std::collections::BTreeMap;

use super::size::{fits, list_fits};
use super::unify::{unify, union, Stop};
use crate::reference::builtins;
use crate::reference::hir::{
    BinOp, Binding, Clause, Expr, HirId, MapProjectionItem, Pattern, PatternElement, RemoveItem,
    SetItem, Statement, UnaryOp, VarId, VarKind,
};
use crate::reference::infer::type_name;
use crate::reference::stand_ins::IndexMap;
use crate::reference::ty::Type;
use crate::report::{Entry, Fault};

/// A type was too large while the expression of this line was being typed.
#[derive(Debug, Clone, Copy, PartialEq, Eq)]
pub struct TooLarge(pub HirId);

/// Types a statement whose expressions stand at `lines`, in order: the report's entries in order, or refusal 6.
pub fn infer_types(stmt: &Statement, lines: &[HirId]) -> Result<Vec<Entry>, TooLarge> {
    let mut ctx = InferCtx {
        bindings: &stmt.bindings,
        lines,
        entered: 0,
        entries: Vec::new(),
    };
    for clause in &stmt.clauses {
        ctx.check_clause(clause)?;
    }
    Ok(ctx.entries)
}

struct InferCtx<'a> {
    bindings: &'a IndexMap<VarId, Binding>,
    lines: &'a [HirId],
    entered: usize,
    entries: Vec<Entry>,
}

impl InferCtx<'_> {
    fn check_clause(&mut self, clause: &Clause) -> Result<(), TooLarge> {
        match clause {
            Clause::Match { pattern, .. }
            | Clause::Create { pattern, .. }
            | Clause::Merge { pattern, .. } => self.check_clause_pattern(pattern),
            Clause::Where { predicate, .. } => self.top(predicate),
            Clause::With {
                projections,
                filter,
                ..
            } => {
                for proj in projections {
                    self.top(&proj.expr)?;
                }
                filter.iter().try_for_each(|f| self.top(f))
            }
            Clause::Return { projections, .. } => {
                projections.iter().try_for_each(|p| self.top(&p.expr))
            }
            Clause::Unwind { list, .. } => self.top(list),
            Clause::Set { items, .. } => items.iter().try_for_each(|i| self.check_set_item(i)),
            Clause::Remove { items, .. } => items.iter().try_for_each(|item| match item {
                RemoveItem::Property { target, .. } => self.top(target),
                RemoveItem::Labels { .. } => Ok(()),
            }),
            Clause::Delete { targets, .. } => targets.iter().try_for_each(|e| self.top(e)),
            Clause::Call { args, .. } => args.iter().try_for_each(|a| self.top(a)),
        }
    }

    fn check_set_item(&mut self, item: &SetItem) -> Result<(), TooLarge> {
        match item {
            SetItem::Property { target, value, .. } => {
                self.top(target)?;
                self.top(value)
            }
            SetItem::AssignMap { map, .. } => self.top(map),
            SetItem::Labels { .. } => Ok(()),
        }
    }

    /// A top expression: its type goes into the report (RULES 3.1).
    fn top(&mut self, expr: &Expr) -> Result<(), TooLarge> {
        let ty = self.infer_expr(expr)?;
        self.entries.push(Entry::Type(ty));
        Ok(())
    }

    fn check_clause_pattern(&mut self, pattern: &Pattern) -> Result<(), TooLarge> {
        properties(pattern).try_for_each(|p| self.top(p))
    }

    /// A pattern inside an expression: its expressions are no top expressions.
    fn check_pattern(&mut self, pattern: &Pattern) -> Result<(), TooLarge> {
        properties(pattern).try_for_each(|p| self.infer_expr(p).map(drop))
    }

    fn infer_expr(&mut self, expr: &Expr) -> Result<Type, TooLarge> {
        let here = self.lines[self.entered];
        self.entered += 1;
        let ty = self.infer_kind(expr, here)?;
        if fits(&ty) {
            Ok(ty)
        } else {
            Err(TooLarge(here))
        }
    }

    fn infer_kind(&mut self, expr: &Expr, here: HirId) -> Result<Type, TooLarge> {
        Ok(match expr {
            Expr::Null => Type::Null,
            Expr::Bool(_) => Type::Bool,
            Expr::Int(_) => Type::Int,
            Expr::Float(_) => Type::Float,
            Expr::String(_) => Type::String,
            Expr::Var(var) => self.var_type(*var),
            Expr::Param(_) => Type::Any,
            Expr::Unresolved(_) | Expr::ExistsSubqueryDeferred { .. } => Type::Unknown,
            Expr::Prop { target, .. } => {
                self.infer_expr(target)?;
                Type::Any
            }
            Expr::Index { target, index } => {
                let tgt_ty = self.infer_expr(target)?;
                self.infer_expr(index)?;
                match tgt_ty {
                    Type::List(elem) => *elem,
                    _ => Type::Any,
                }
            }
            Expr::Slice { target, start, end } => {
                let tgt_ty = self.infer_expr(target)?;
                if let Some(s) = start {
                    self.infer_expr(s)?;
                }
                if let Some(e) = end {
                    self.infer_expr(e)?;
                }
                match tgt_ty {
                    Type::List(_) => tgt_ty,
                    _ => Type::Any,
                }
            }
            Expr::List(items) => self.infer_list(items, here)?,
            Expr::Map(pairs) => {
                // The whole type so far is tested after each entry.
                let mut map = Type::Map(BTreeMap::new());
                for (key, val_expr) in pairs {
                    let vt = self.infer_expr(val_expr)?;
                    if let Type::Map(fields) = &mut map {
                        fields.insert(key.clone(), vt);
                    }
                    if !fits(&map) {
                        return Err(TooLarge(here));
                    }
                }
                map
            }
            Expr::Call { name, args, .. } => {
                let arg_tys = args
                    .iter()
                    .map(|a| self.infer_expr(a))
                    .collect::<Result<Vec<Type>, TooLarge>>()?;
                if let Some(sig) = builtins::lookup(name) {
                    self.check_builtin_args(sig, &arg_tys);
                    sig.resolve_return(&arg_tys)
                } else {
                    Type::Any
                }
            }
            Expr::BinOp { op, lhs, rhs } => self.infer_binop(*op, lhs, rhs, here)?,
            Expr::UnaryOp { op, operand } => self.infer_unaryop(*op, operand)?,
            Expr::Case {
                scrutinee,
                arms,
                otherwise,
            } => {
                if let Some(s) = scrutinee {
                    self.infer_expr(s)?;
                }
                let mut arm_types: Vec<Type> = Vec::new();
                for (cond, result) in arms {
                    let ct = self.infer_expr(cond)?;
                    if scrutinee.is_none() {
                        self.require_bool(&ct);
                    }
                    arm_types.push(self.infer_expr(result)?);
                }
                if let Some(o) = otherwise {
                    arm_types.push(self.infer_expr(o)?);
                }
                settled(union(arm_types), here)?.unwrap_or(Type::Unknown)
            }
            Expr::IsNull { operand, .. } => {
                self.infer_expr(operand)?;
                Type::Bool
            }
            Expr::InList { operand, list } => {
                let op_ty = self.infer_expr(operand)?;
                let list_ty = self.infer_expr(list)?;
                self.check_in_list(&op_ty, &list_ty, here)?;
                Type::Bool
            }
            Expr::PatternPredicate(pat) => {
                self.check_pattern(pat)?;
                Type::Bool
            }
            Expr::PatternComprehension {
                pattern,
                filter,
                map_expr,
                ..
            } => {
                self.check_pattern(pattern)?;
                self.comprehension(filter.as_deref(), map_expr)?
            }
            Expr::ListComprehension {
                iterable,
                filter,
                map_expr,
                ..
            } => {
                self.infer_expr(iterable)?;
                self.comprehension(filter.as_deref(), map_expr)?
            }
            Expr::ListPredicate {
                iterable,
                predicate,
                ..
            } => {
                self.infer_expr(iterable)?;
                if let Some(p) = predicate {
                    self.infer_expr(p)?;
                }
                Type::Bool
            }
            Expr::MapProjection { base, items } => {
                self.infer_expr(base)?;
                for item in items {
                    match item {
                        MapProjectionItem::Computed { value, .. }
                        | MapProjectionItem::Aliased { value, .. } => {
                            self.infer_expr(value)?;
                        }
                        MapProjectionItem::PropCopy { .. }
                        | MapProjectionItem::VarShorthand { .. } => {}
                    }
                }
                Type::Map(BTreeMap::new())
            }
        })
    }

    /// The running list type is tested after each item, the first included, after `unify`'s answer.
    fn infer_list(&mut self, items: &[Expr], here: HirId) -> Result<Type, TooLarge> {
        if items.is_empty() {
            return Ok(Type::List(Box::new(Type::Any)));
        }
        let mut elem_ty = self.infer_expr(&items[0])?;
        running_list(&elem_ty, here)?;
        for item in &items[1..] {
            let t = self.infer_expr(item)?;
            elem_ty = settled(unify(&elem_ty, &t), here)?.unwrap_or(Type::Any);
            running_list(&elem_ty, here)?;
        }
        Ok(Type::List(Box::new(elem_ty)))
    }

    fn comprehension(&mut self, filter: Option<&Expr>, map_expr: &Expr) -> Result<Type, TooLarge> {
        if let Some(f) = filter {
            let ft = self.infer_expr(f)?;
            self.require_bool(&ft);
        }
        let elem_ty = self.infer_expr(map_expr)?;
        Ok(Type::List(Box::new(elem_ty)))
    }

    fn infer_binop(
        &mut self,
        op: BinOp,
        lhs: &Expr,
        rhs: &Expr,
        here: HirId,
    ) -> Result<Type, TooLarge> {
        let lt = self.infer_expr(lhs)?;
        let rt = self.infer_expr(rhs)?;
        Ok(match op {
            BinOp::Add | BinOp::Sub | BinOp::Mul | BinOp::Div | BinOp::Mod | BinOp::Pow => {
                let lt2 = self.require_numeric(&lt);
                let rt2 = self.require_numeric(&rt);
                settled(unify(&lt2, &rt2), here)?.unwrap_or(Type::Unknown)
            }
            BinOp::Lt | BinOp::Le | BinOp::Gt | BinOp::Ge => {
                settled(unify(&lt, &rt), here)?;
                Type::Bool
            }
            BinOp::Eq | BinOp::Neq => Type::Bool,
            BinOp::And | BinOp::Or | BinOp::Xor => {
                self.require_bool(&lt);
                self.require_bool(&rt);
                Type::Bool
            }
            BinOp::StartsWith | BinOp::EndsWith | BinOp::Contains | BinOp::RegexMatch => {
                self.require_string(&lt);
                self.require_string(&rt);
                Type::Bool
            }
            BinOp::Concat => Type::Any,
        })
    }

    fn infer_unaryop(&mut self, op: UnaryOp, operand: &Expr) -> Result<Type, TooLarge> {
        let ot = self.infer_expr(operand)?;
        Ok(match op {
            UnaryOp::Neg => self.require_numeric(&ot),
            UnaryOp::Not => {
                self.require_bool(&ot);
                Type::Bool
            }
        })
    }

    fn push(&mut self, fault: Fault) {
        self.entries.push(Entry::Fault(fault));
    }

    fn require_numeric(&mut self, ty: &Type) -> Type {
        match ty {
            Type::Int | Type::Float | Type::Num | Type::Any | Type::Unknown => ty.clone(),
            _ => {
                self.push(Fault::one("2009", type_name(ty)));
                Type::Unknown
            }
        }
    }

    fn require_string(&mut self, ty: &Type) {
        match ty {
            Type::String | Type::Any | Type::Unknown => {}
            _ => self.push(Fault::one("2010", type_name(ty))),
        }
    }

    fn require_bool(&mut self, ty: &Type) {
        match ty {
            Type::Bool | Type::Any | Type::Unknown => {}
            _ => self.push(Fault::one("2011", type_name(ty))),
        }
    }

    fn check_in_list(&mut self, op_ty: &Type, list_ty: &Type, here: HirId) -> Result<(), TooLarge> {
        match list_ty {
            Type::List(elem_ty) => {
                if settled(unify(op_ty, elem_ty), here)?.is_none()
                    && !op_ty.is_any()
                    && !op_ty.is_unknown()
                    && !elem_ty.is_any()
                    && !elem_ty.is_unknown()
                {
                    self.push(Fault::two("2012", type_name(op_ty), type_name(elem_ty)));
                }
            }
            Type::Any | Type::Unknown | Type::Null => {}
            _ => self.push(Fault::one("2013", type_name(list_ty))),
        }
        Ok(())
    }

    fn check_builtin_args(&mut self, sig: &builtins::Builtin, arg_tys: &[Type]) {
        for (shape, arg_ty) in sig.params.iter().zip(arg_tys.iter()) {
            if !shape.accepts(arg_ty) {
                self.push(Fault::three(
                    "5012",
                    sig.name,
                    type_name(arg_ty),
                    shape.describe(),
                ));
            }
        }
    }

    fn var_type(&self, var: VarId) -> Type {
        match self.bindings.get(&var).map(|b| b.kind) {
            Some(VarKind::Node) => Type::Node(None),
            Some(VarKind::Relationship) => Type::Relationship(None),
            Some(VarKind::Path) => Type::Path,
            Some(VarKind::Value) | None => Type::Any,
        }
    }
}

/// The expressions that a pattern's elements hold, in order.
pub fn properties(pattern: &Pattern) -> impl Iterator<Item = &Expr> {
    pattern
        .parts
        .iter()
        .flat_map(|part| &part.elements)
        .filter_map(|elem| match elem {
            PatternElement::Node { props, .. } | PatternElement::Rel { props, .. } => {
                props.as_ref()
            }
        })
}

/// A unified type, none for a mismatch; too large stops at this line.
fn settled(answer: Result<Type, Stop>, here: HirId) -> Result<Option<Type>, TooLarge> {
    match answer {
        Ok(ty) => Ok(Some(ty)),
        Err(Stop::Mismatch(_)) => Ok(None),
        Err(Stop::TooLarge) => Err(TooLarge(here)),
    }
}

fn running_list(element: &Type, here: HirId) -> Result<(), TooLarge> {
    if list_fits(element) {
        Ok(())
    } else {
        Err(TooLarge(here))
    }
}
