//! The printer: a statement as the sheet that reads back to it.

use super::read::{BIN_OPS, DIRECTIONS, LIST_PREDS, SHORTEST_PATHS};
use crate::reference::hir::{
    Clause, Expr, MapProjectionItem, Pattern, PatternElement, Projection, RelLength, RemoveItem,
    SetItem, Statement, UnaryOp, VarId, VarKind,
};
use crate::reference::stand_ins::SmolStr;
use crate::type_line::write_hex;

/// The statement's sheet.
pub fn print_sheet(stmt: &Statement) -> Vec<u8> {
    let mut p = Printer { text: Vec::new() };
    p.line("cyrs,1");
    for (id, binding) in stmt.bindings.iter() {
        let kind = match binding.kind {
            VarKind::Node => "N",
            VarKind::Relationship => "R",
            VarKind::Path => "P",
            VarKind::Value => "V",
        };
        p.line(format!("b,{},{kind}", id.0));
    }
    for clause in &stmt.clauses {
        p.clause(clause);
    }
    p.line("end");
    p.text
}

struct Printer {
    text: Vec<u8>,
}

fn hex(name: &SmolStr) -> String {
    let mut text = Vec::new();
    write_hex(name, &mut text);
    String::from_utf8_lossy(&text).into_owned()
}

fn or_dash<T: ToString>(field: Option<T>) -> String {
    field.map_or("-".to_string(), |x| x.to_string())
}

fn bit(b: bool) -> u8 {
    u8::from(b)
}

/// The place of a value in its list.
fn place<T: PartialEq>(list: &[T], value: &T) -> usize {
    list.iter().position(|x| x == value).unwrap_or(0)
}

impl Printer {
    fn line(&mut self, line: impl AsRef<str>) {
        self.text.extend_from_slice(line.as_ref().as_bytes());
        self.text.push(b'\n');
    }

    fn exprs<'a>(&mut self, exprs: impl IntoIterator<Item = &'a Expr>) {
        for expr in exprs {
            self.expr(expr);
        }
    }

    fn clause(&mut self, clause: &Clause) {
        match clause {
            Clause::Match {
                optional, pattern, ..
            } => {
                self.line(format!("mat,{}", bit(*optional)));
                self.pattern(pattern);
            }
            Clause::Create { pattern, .. } => {
                self.line("cre");
                self.pattern(pattern);
            }
            Clause::Merge { pattern, .. } => {
                self.line("mer");
                self.pattern(pattern);
            }
            Clause::Where { predicate, .. } => {
                self.line("whe");
                self.expr(predicate);
            }
            Clause::With {
                projections,
                filter,
                ..
            } => {
                self.line(format!(
                    "wit,{},{}",
                    bit(filter.is_some()),
                    projections.len()
                ));
                self.projections(projections);
                self.exprs(filter);
            }
            Clause::Return {
                projections,
                distinct,
                ..
            } => {
                self.line(format!("ret,{},{}", bit(*distinct), projections.len()));
                self.projections(projections);
            }
            Clause::Unwind { list, bind, .. } => {
                self.line(format!("unw,{}", bind.0));
                self.expr(list);
            }
            Clause::Set { items, .. } => {
                self.line(format!("set,{}", items.len()));
                for item in items {
                    self.set_item(item);
                }
            }
            Clause::Remove { items, .. } => {
                self.line(format!("rem,{}", items.len()));
                for item in items {
                    self.remove_item(item);
                }
            }
            Clause::Delete {
                targets, detach, ..
            } => {
                self.line(format!("del,{},{}", bit(*detach), targets.len()));
                self.exprs(targets);
            }
            Clause::Call {
                procedure,
                args,
                optional,
                ..
            } => {
                self.line(format!(
                    "cal,{},{},{}",
                    hex(procedure),
                    bit(*optional),
                    args.len()
                ));
                self.exprs(args);
            }
        }
    }

    fn projections(&mut self, projections: &[Projection]) {
        for projection in projections {
            self.line(format!(
                "pro,{}",
                or_dash(projection.alias.as_ref().map(hex))
            ));
            self.expr(&projection.expr);
        }
    }

    fn set_item(&mut self, item: &SetItem) {
        match item {
            SetItem::Property {
                target,
                prop,
                value,
            } => {
                self.line(format!("sp,{}", hex(prop)));
                self.exprs([target, value]);
            }
            SetItem::Labels { target, labels } => self.labels_of("sl", *target, labels),
            SetItem::AssignMap {
                target,
                map,
                replace,
            } => {
                self.line(format!("sm,{},{}", target.0, bit(*replace)));
                self.expr(map);
            }
        }
    }

    fn remove_item(&mut self, item: &RemoveItem) {
        match item {
            RemoveItem::Property { target, prop } => {
                self.line(format!("rp,{}", hex(prop)));
                self.expr(target);
            }
            RemoveItem::Labels { target, labels } => self.labels_of("rl", *target, labels),
        }
    }

    fn labels_of(&mut self, word: &str, target: VarId, labels: &[SmolStr]) {
        self.line(format!("{word},{},{}", target.0, labels.len()));
        self.labels(labels);
    }

    fn labels(&mut self, labels: &[SmolStr]) {
        for label in labels {
            self.line(format!("lab,{}", hex(label)));
        }
    }

    fn pattern(&mut self, pattern: &Pattern) {
        self.line(format!("parts,{}", pattern.parts.len()));
        for part in &pattern.parts {
            self.line(format!(
                "part,{},{},{}",
                or_dash(part.named_as.map(|v| v.0)),
                place(&SHORTEST_PATHS, &part.shortest),
                part.elements.len()
            ));
            for element in &part.elements {
                self.element(element);
            }
        }
    }

    fn element(&mut self, element: &PatternElement) {
        match element {
            PatternElement::Node {
                bind,
                labels,
                props,
                ..
            } => {
                self.line(format!(
                    "nod,{},{},{}",
                    or_dash(bind.map(|v| v.0)),
                    bit(props.is_some()),
                    labels.len()
                ));
                self.labels(labels);
                self.exprs(props);
            }
            PatternElement::Rel {
                bind,
                types,
                direction,
                length,
                props,
                ..
            } => {
                let length = match length {
                    RelLength::Single => "0,-,-".to_string(),
                    RelLength::Variable { min, max } => {
                        format!("1,{},{}", or_dash(*min), or_dash(*max))
                    }
                };
                self.line(format!(
                    "rel,{},{},{length},{},{}",
                    or_dash(bind.map(|v| v.0)),
                    place(&DIRECTIONS, direction),
                    bit(props.is_some()),
                    types.len()
                ));
                self.labels(types);
                self.exprs(props);
            }
        }
    }

    fn expr(&mut self, expr: &Expr) {
        match expr {
            Expr::Null => self.line("null"),
            Expr::Bool(b) => self.line(format!("bool,{}", bit(*b))),
            Expr::Int(i) => self.line(format!("int,{i}")),
            Expr::Float(f) => self.line(format!("flt,{:016x}", f.to_bits())),
            Expr::String(s) => self.line(format!("str,{}", hex(s))),
            Expr::Var(v) => self.line(format!("var,{}", v.0)),
            Expr::Param(s) => self.line(format!("par,{}", hex(s))),
            Expr::Unresolved(s) => self.line(format!("unr,{}", hex(s))),
            Expr::ExistsSubqueryDeferred { .. } => self.line("exi"),
            Expr::Prop { target, prop } => {
                self.line(format!("prop,{}", hex(prop)));
                self.expr(target);
            }
            Expr::Index { target, index } => {
                self.line("idx");
                self.expr(target);
                self.expr(index);
            }
            Expr::Slice { target, start, end } => {
                let flags = bit(start.is_some()) + 2 * bit(end.is_some());
                self.line(format!("sli,{flags}"));
                self.expr(target);
                self.exprs(start.as_deref());
                self.exprs(end.as_deref());
            }
            Expr::List(items) => {
                self.line(format!("lis,{}", items.len()));
                self.exprs(items);
            }
            Expr::Map(pairs) => {
                self.line(format!("map,{}", pairs.len()));
                for (key, value) in pairs {
                    self.line(format!("key,{}", hex(key)));
                    self.expr(value);
                }
            }
            Expr::Call {
                name,
                args,
                distinct,
            } => {
                self.line(format!(
                    "call,{},{},{}",
                    hex(name),
                    bit(*distinct),
                    args.len()
                ));
                self.exprs(args);
            }
            Expr::BinOp { op, lhs, rhs } => {
                self.line(format!("bin,{}", place(&BIN_OPS, op)));
                self.expr(lhs);
                self.expr(rhs);
            }
            Expr::UnaryOp { op, operand } => {
                self.line(format!("una,{}", bit(*op == UnaryOp::Not)));
                self.expr(operand);
            }
            Expr::Case {
                scrutinee,
                arms,
                otherwise,
            } => {
                let flags = bit(scrutinee.is_some()) + 2 * bit(otherwise.is_some());
                self.line(format!("case,{flags},{}", arms.len()));
                self.exprs(scrutinee.as_deref());
                for (condition, result) in arms {
                    self.exprs([condition, result]);
                }
                self.exprs(otherwise.as_deref());
            }
            Expr::IsNull { operand, negated } => {
                self.line(format!("isn,{}", bit(*negated)));
                self.expr(operand);
            }
            Expr::InList { operand, list } => {
                self.line("in");
                self.expr(operand);
                self.expr(list);
            }
            Expr::PatternPredicate(pattern) => {
                self.line("pat");
                self.pattern(pattern);
            }
            Expr::ListComprehension {
                filter_var,
                iterable,
                filter,
                map_expr,
            } => {
                self.line(format!("lcp,{},{}", filter_var.0, bit(filter.is_some())));
                self.expr(iterable);
                self.exprs(filter.as_deref());
                self.expr(map_expr);
            }
            Expr::PatternComprehension {
                pattern,
                filter,
                map_expr,
                ..
            } => {
                self.line(format!("pcp,{}", bit(filter.is_some())));
                self.pattern(pattern);
                self.exprs(filter.as_deref());
                self.expr(map_expr);
            }
            Expr::ListPredicate {
                kind,
                var,
                iterable,
                predicate,
            } => {
                self.line(format!(
                    "lpr,{},{},{}",
                    place(&LIST_PREDS, kind),
                    var.0,
                    bit(predicate.is_some())
                ));
                self.expr(iterable);
                self.exprs(predicate.as_deref());
            }
            Expr::MapProjection { base, items } => {
                self.line(format!("mpr,{}", items.len()));
                self.expr(base);
                for item in items {
                    self.projection_item(item);
                }
            }
        }
    }

    fn projection_item(&mut self, item: &MapProjectionItem) {
        match item {
            MapProjectionItem::PropCopy { prop } => self.line(format!("cop,{}", hex(prop))),
            MapProjectionItem::Computed { key, value } => {
                self.line(format!("com,{}", hex(key)));
                self.expr(value);
            }
            MapProjectionItem::VarShorthand { var, name } => {
                self.line(format!("sho,{},{}", var.0, hex(name)));
            }
            MapProjectionItem::Aliased { key, value } => {
                self.line(format!("ali,{}", hex(key)));
                self.expr(value);
            }
        }
    }
}
