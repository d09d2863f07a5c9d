//! The report of a sheet (RULES 6), from either form of the reference.

use crate::limited::infer::properties;
use crate::reference::hir::{Clause, Expr, RemoveItem, SetItem, Statement};
use crate::reference::infer::InferCtx;
use crate::reference::stand_ins::{DiagCode, Diagnostic, DiagnosticsSink};
use crate::reference::ty::Type;
use crate::type_line::write_type;

/// A fault: its code and the words behind it.
#[derive(Debug, Clone, Copy, PartialEq, Eq)]
pub struct Fault {
    code: &'static str,
    words: [&'static str; 3],
    count: usize,
}

impl Fault {
    pub fn one(code: &'static str, a: &'static str) -> Self {
        Fault {
            code,
            words: [a, "", ""],
            count: 1,
        }
    }

    pub fn two(code: &'static str, a: &'static str, b: &'static str) -> Self {
        Fault {
            code,
            words: [a, b, ""],
            count: 2,
        }
    }

    pub fn three(code: &'static str, a: &'static str, b: &'static str, c: &'static str) -> Self {
        Fault {
            code,
            words: [a, b, c],
            count: 3,
        }
    }
}

/// What a report holds before its last line.
#[derive(Debug, Clone, PartialEq)]
pub enum Entry {
    Type(Type),
    Fault(Fault),
}

/// The report of these entries.
pub fn report(entries: &[Entry]) -> Vec<u8> {
    let mut lines = Lines::default();
    for entry in entries {
        match entry {
            Entry::Type(ty) => lines.top(ty),
            Entry::Fault(fault) => lines.fault(fault.code, &fault.words[..fault.count]),
        }
    }
    lines.end()
}

/// A report under way.
#[derive(Default)]
struct Lines {
    text: Vec<u8>,
    types: usize,
    faults: usize,
}

impl Lines {
    fn top(&mut self, ty: &Type) {
        self.text.extend_from_slice(b"T,");
        write_type(ty, &mut self.text);
        self.text.push(b'\n');
        self.types += 1;
    }

    fn fault(&mut self, code: &str, words: &[&str]) {
        self.text.extend_from_slice(b"F,");
        self.text.extend_from_slice(code.as_bytes());
        for word in words {
            self.text.push(b',');
            self.text.extend_from_slice(word.as_bytes());
        }
        self.text.push(b'\n');
        self.faults += 1;
    }

    fn end(mut self) -> Vec<u8> {
        let last = format!("end,{},{}\n", self.types, self.faults);
        self.text.extend_from_slice(last.as_bytes());
        self.text
    }
}

/// The report by the plain form, with no size test: `infer_expr` on each top expression in order.
pub fn plain_report(stmt: &Statement) -> Vec<u8> {
    let mut lines = Lines::default();
    for expr in top_expressions(stmt) {
        let mut sink = DiagnosticsSink::default();
        let ty = InferCtx {
            bindings: &stmt.bindings,
            sink: &mut sink,
        }
        .infer_expr(expr);
        for diagnostic in &sink.0 {
            write_diagnostic(diagnostic, &mut lines);
        }
        lines.top(&ty);
    }
    lines.end()
}

/// The fault lines that the plain `infer_types` pushes, in push order.
pub fn plain_faults(stmt: &Statement) -> Vec<u8> {
    let mut sink = DiagnosticsSink::default();
    crate::reference::infer::infer_types(stmt, &mut sink);
    let mut lines = Lines::default();
    for diagnostic in &sink.0 {
        write_diagnostic(diagnostic, &mut lines);
    }
    lines.text
}

/// The fault line of a diagnostic. Its words are the last quoted ones of the message, which stands as in the Rust.
fn write_diagnostic(diagnostic: &Diagnostic, lines: &mut Lines) {
    let (code, count) = match diagnostic.code {
        DiagCode::E2009 => ("2009", 1),
        DiagCode::E2010 => ("2010", 1),
        DiagCode::E2011 => ("2011", 1),
        DiagCode::E2012 => ("2012", 2),
        DiagCode::E2013 => ("2013", 1),
        DiagCode::E5012 => ("5012", 3),
    };
    let quoted: Vec<&str> = diagnostic.message.split('`').skip(1).step_by(2).collect();
    lines.fault(code, &quoted[quoted.len() - count..]);
}

/// The top expressions (RULES 3.1), in order.
pub fn top_expressions(stmt: &Statement) -> Vec<&Expr> {
    let mut tops = Vec::new();
    for clause in &stmt.clauses {
        match clause {
            Clause::Match { pattern, .. }
            | Clause::Create { pattern, .. }
            | Clause::Merge { pattern, .. } => tops.extend(properties(pattern)),
            Clause::Where { predicate, .. } => tops.push(predicate),
            Clause::With {
                projections,
                filter,
                ..
            } => {
                tops.extend(projections.iter().map(|p| &p.expr));
                tops.extend(filter);
            }
            Clause::Return { projections, .. } => tops.extend(projections.iter().map(|p| &p.expr)),
            Clause::Unwind { list, .. } => tops.push(list),
            Clause::Set { items, .. } => {
                for item in items {
                    match item {
                        SetItem::Property { target, value, .. } => tops.extend([target, value]),
                        SetItem::AssignMap { map, .. } => tops.push(map),
                        SetItem::Labels { .. } => {}
                    }
                }
            }
            Clause::Remove { items, .. } => {
                for item in items {
                    if let RemoveItem::Property { target, .. } = item {
                        tops.push(target);
                    }
                }
            }
            Clause::Delete { targets, .. } => tops.extend(targets),
            Clause::Call { args, .. } => tops.extend(args),
        }
    }
    tops
}
