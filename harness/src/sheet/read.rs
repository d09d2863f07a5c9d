//! The reader: the first line with 3, 4 or 5 decides; on one line word and field count, then the fields from left to right,
//! then the depth (RULES 7.3, 7.4).

use super::fields::Line;
use super::{Refused, Sheet};
use crate::limits::DEPTH;
use crate::reference::hir::{
    BinOp, Binding, Clause, Direction, Expr, HirId, HirOffset, HirSpan, ListPredKind,
    MapProjectionItem, Pattern, PatternElement, PatternPart, Projection, RelLength, RemoveItem,
    SetItem, ShortestPath, Statement, UnaryOp, VarId,
};
use crate::reference::stand_ins::SmolStr;

/// Reads a whole sheet.
pub fn read_sheet(bytes: &[u8]) -> Result<Sheet, Refused> {
    let mut reader = Reader {
        rest: bytes,
        line: 0,
        lines: Vec::new(),
    };
    let statement = reader.statement()?;
    Ok(Sheet {
        statement,
        lines: reader.lines,
    })
}

struct Reader<'a> {
    rest: &'a [u8],
    /// The number of the last line that was taken.
    line: u32,
    lines: Vec<HirId>,
}

fn no_span() -> HirSpan {
    HirSpan::empty(HirOffset::new(0))
}

/// The binary operators in `BinOp` order.
pub(super) const BIN_OPS: [BinOp; 20] = [
    BinOp::Add,
    BinOp::Sub,
    BinOp::Mul,
    BinOp::Div,
    BinOp::Mod,
    BinOp::Pow,
    BinOp::Eq,
    BinOp::Neq,
    BinOp::Lt,
    BinOp::Le,
    BinOp::Gt,
    BinOp::Ge,
    BinOp::And,
    BinOp::Or,
    BinOp::Xor,
    BinOp::StartsWith,
    BinOp::EndsWith,
    BinOp::Contains,
    BinOp::RegexMatch,
    BinOp::Concat,
];

pub(super) const LIST_PREDS: [ListPredKind; 4] = [
    ListPredKind::Any,
    ListPredKind::All,
    ListPredKind::None,
    ListPredKind::Single,
];

pub(super) const SHORTEST_PATHS: [ShortestPath; 3] = [
    ShortestPath::No,
    ShortestPath::Shortest,
    ShortestPath::AllShortest,
];

pub(super) const DIRECTIONS: [Direction; 3] = [
    Direction::Outgoing,
    Direction::Incoming,
    Direction::Undirected,
];

impl<'a> Reader<'a> {
    /// The next whole line. Where there is none the sheet ends early: 3 at the line after the last whole one.
    fn next(&mut self) -> Result<Line<'a>, Refused> {
        self.line += 1;
        let id = HirId(self.line);
        match self.rest.iter().position(|&b| b == b'\n') {
            None => Err(Refused {
                number: 3,
                line: id,
            }),
            Some(end) => {
                let text = &self.rest[..end];
                self.rest = &self.rest[end + 1..];
                Ok(Line::new(id, text))
            }
        }
    }

    /// The next line, if it has this word.
    fn expect(&mut self, word: &[u8]) -> Result<Line<'a>, Refused> {
        let line = self.next()?;
        if line.word != word {
            return Err(line.refused(3));
        }
        Ok(line)
    }

    /// As many of something as a count says.
    fn times<T>(
        &mut self,
        count: usize,
        mut one: impl FnMut(&mut Self) -> Result<T, Refused>,
    ) -> Result<Vec<T>, Refused> {
        (0..count).map(|_| one(self)).collect()
    }

    fn statement(&mut self) -> Result<Statement, Refused> {
        self.expect(b"cyrs")?.fields(1)?.edition()?;
        let mut statement = Statement::new(no_span());
        let mut line = self.bindings(&mut statement)?;
        while line.word != b"end" {
            let clause = self.clause(line)?;
            statement.clauses.push(clause);
            line = self.next()?;
        }
        line.fields(0)?;
        if !self.rest.is_empty() {
            return Err(Refused {
                number: 3,
                line: HirId(self.line + 1),
            });
        }
        Ok(statement)
    }

    /// The `b` lines, strictly ascending; gives back the first line that is none.
    fn bindings(&mut self, statement: &mut Statement) -> Result<Line<'a>, Refused> {
        let mut last: Option<VarId> = None;
        loop {
            let line = self.next()?;
            if line.word != b"b" {
                return Ok(line);
            }
            let mut f = line.fields(2)?;
            let id = f.var()?;
            if last.is_some_and(|l| l >= id) {
                return Err(line.refused(3));
            }
            let kind = f.var_kind()?;
            statement.bindings.insert(
                id,
                Binding {
                    id,
                    name: SmolStr::new(""),
                    kind,
                    defined_at: no_span(),
                },
            );
            last = Some(id);
        }
    }

    // ---- clauses

    fn clause(&mut self, line: Line<'a>) -> Result<Clause, Refused> {
        let id = line.id;
        let span = no_span();
        Ok(match line.word {
            b"mat" => {
                let optional = line.fields(1)?.bit()?;
                Clause::Match {
                    id,
                    optional,
                    pattern: self.pattern(0)?,
                    span,
                }
            }
            b"cre" => {
                line.fields(0)?;
                Clause::Create {
                    id,
                    pattern: self.pattern(0)?,
                    span,
                }
            }
            b"mer" => {
                line.fields(0)?;
                Clause::Merge {
                    id,
                    pattern: self.pattern(0)?,
                    on_create: Vec::new(),
                    on_match: Vec::new(),
                    span,
                }
            }
            b"whe" => {
                line.fields(0)?;
                Clause::Where {
                    id,
                    predicate: self.expr(0)?,
                    span,
                }
            }
            b"wit" => {
                let mut f = line.fields(2)?;
                let filtered = f.flag()?;
                let count = f.count()?;
                Clause::With {
                    id,
                    projections: self.times(count, Self::projection)?,
                    filter: self.optional(filtered, 0)?,
                    order_by: Vec::new(),
                    skip: None,
                    limit: None,
                    span,
                }
            }
            b"ret" => {
                let mut f = line.fields(2)?;
                let distinct = f.bit()?;
                let count = f.count()?;
                Clause::Return {
                    id,
                    projections: self.times(count, Self::projection)?,
                    distinct,
                    order_by: Vec::new(),
                    skip: None,
                    limit: None,
                    span,
                }
            }
            b"unw" => {
                let bind = line.fields(1)?.var()?;
                Clause::Unwind {
                    id,
                    list: self.expr(0)?,
                    bind,
                    span,
                }
            }
            b"set" => {
                let count = line.fields(1)?.count()?;
                Clause::Set {
                    id,
                    items: self.times(count, Self::set_item)?,
                    span,
                }
            }
            b"rem" => {
                let count = line.fields(1)?.count()?;
                Clause::Remove {
                    id,
                    items: self.times(count, Self::remove_item)?,
                    span,
                }
            }
            b"del" => {
                let mut f = line.fields(2)?;
                let detach = f.bit()?;
                let count = f.count()?;
                Clause::Delete {
                    id,
                    targets: self.times(count, |r| r.expr(0))?,
                    detach,
                    span,
                }
            }
            b"cal" => {
                let mut f = line.fields(3)?;
                let procedure = f.name()?;
                let optional = f.bit()?;
                let count = f.count()?;
                Clause::Call {
                    id,
                    procedure,
                    args: self.times(count, |r| r.expr(0))?,
                    yields: Vec::new(),
                    optional,
                    span,
                }
            }
            _ => return Err(line.refused(3)),
        })
    }

    fn projection(&mut self) -> Result<Projection, Refused> {
        let alias = self.expect(b"pro")?.fields(1)?.alias()?;
        Ok(Projection {
            expr: self.expr(0)?,
            alias,
            span: no_span(),
        })
    }

    fn set_item(&mut self) -> Result<SetItem, Refused> {
        let line = self.next()?;
        Ok(match line.word {
            b"sp" => {
                let prop = line.fields(1)?.name()?;
                SetItem::Property {
                    target: self.expr(0)?,
                    prop,
                    value: self.expr(0)?,
                }
            }
            b"sl" => {
                let (target, labels) = self.labels_of(line)?;
                SetItem::Labels { target, labels }
            }
            b"sm" => {
                let mut f = line.fields(2)?;
                let target = f.var()?;
                let replace = f.bit()?;
                SetItem::AssignMap {
                    target,
                    map: self.expr(0)?,
                    replace,
                }
            }
            _ => return Err(line.refused(3)),
        })
    }

    fn remove_item(&mut self) -> Result<RemoveItem, Refused> {
        let line = self.next()?;
        Ok(match line.word {
            b"rp" => {
                let prop = line.fields(1)?.name()?;
                RemoveItem::Property {
                    target: self.expr(0)?,
                    prop,
                }
            }
            b"rl" => {
                let (target, labels) = self.labels_of(line)?;
                RemoveItem::Labels { target, labels }
            }
            _ => return Err(line.refused(3)),
        })
    }

    /// A variable and its labels.
    fn labels_of(&mut self, line: Line<'a>) -> Result<(VarId, Vec<SmolStr>), Refused> {
        let mut f = line.fields(2)?;
        let target = f.var()?;
        let count = f.count()?;
        Ok((target, self.times(count, Self::label)?))
    }

    fn label(&mut self) -> Result<SmolStr, Refused> {
        self.expect(b"lab")?.fields(1)?.name()
    }

    // ---- patterns; `depth` counts the expressions around

    fn pattern(&mut self, depth: usize) -> Result<Pattern, Refused> {
        let count = self.expect(b"parts")?.fields(1)?.count()?;
        Ok(Pattern {
            parts: self.times(count, |r| r.part(depth))?,
        })
    }

    fn part(&mut self, depth: usize) -> Result<PatternPart, Refused> {
        let mut f = self.expect(b"part")?.fields(3)?;
        let named_as = f.optional_var()?;
        let shortest = SHORTEST_PATHS[f.number(2)? as usize];
        let count = f.count()?;
        Ok(PatternPart {
            named_as,
            elements: self.times(count, |r| r.element(depth))?,
            shortest,
        })
    }

    fn element(&mut self, depth: usize) -> Result<PatternElement, Refused> {
        let line = self.next()?;
        let id = line.id;
        let span = no_span();
        Ok(match line.word {
            b"nod" => {
                let mut f = line.fields(3)?;
                let bind = f.optional_var()?;
                let props = f.flag()?;
                let count = f.count()?;
                PatternElement::Node {
                    id,
                    bind,
                    labels: self.times(count, Self::label)?,
                    props: self.optional(props, depth)?,
                    span,
                }
            }
            b"rel" => {
                let mut f = line.fields(7)?;
                let bind = f.optional_var()?;
                let direction = DIRECTIONS[f.number(2)? as usize];
                let variable = f.bit()?;
                let min = f.bound(variable)?;
                let max = f.bound(variable)?;
                let length = match variable {
                    true => RelLength::Variable { min, max },
                    false => RelLength::Single,
                };
                let props = f.flag()?;
                let count = f.count()?;
                PatternElement::Rel {
                    id,
                    bind,
                    types: self.times(count, Self::label)?,
                    direction,
                    length,
                    props: self.optional(props, depth)?,
                    span,
                }
            }
            _ => return Err(line.refused(3)),
        })
    }

    // ---- expressions

    fn boxed(&mut self, depth: usize) -> Result<Box<Expr>, Refused> {
        Ok(Box::new(self.expr(depth)?))
    }

    /// An expression if its flag is set.
    fn optional(&mut self, present: bool, depth: usize) -> Result<Option<Expr>, Refused> {
        match present {
            true => Ok(Some(self.expr(depth)?)),
            false => Ok(None),
        }
    }

    fn optional_boxed(
        &mut self,
        present: bool,
        depth: usize,
    ) -> Result<Option<Box<Expr>>, Refused> {
        Ok(self.optional(present, depth)?.map(Box::new))
    }

    /// An expression line below `depth` others whose fields are fine: 5 if that is too deep. Gives the depth of what it holds.
    fn enter(&mut self, line: &Line<'a>, depth: usize) -> Result<usize, Refused> {
        if depth >= DEPTH {
            return Err(line.refused(5));
        }
        self.lines.push(line.id);
        Ok(depth + 1)
    }

    /// An expression below `depth` others.
    fn expr(&mut self, depth: usize) -> Result<Expr, Refused> {
        let line = self.next()?;
        match line.word {
            b"null" | b"bool" | b"int" | b"flt" | b"str" | b"var" | b"par" | b"unr" | b"exi" => {
                let leaf = leaf(&line)?;
                self.enter(&line, depth)?;
                Ok(leaf)
            }
            b"pat" | b"lcp" | b"pcp" | b"lpr" | b"mpr" => self.scoped(line, depth),
            _ => self.compound(line, depth),
        }
    }

    fn compound(&mut self, line: Line<'a>, depth: usize) -> Result<Expr, Refused> {
        Ok(match line.word {
            b"prop" => {
                let prop = line.fields(1)?.name()?;
                let d = self.enter(&line, depth)?;
                Expr::Prop {
                    target: self.boxed(d)?,
                    prop,
                }
            }
            b"idx" => {
                line.fields(0)?;
                let d = self.enter(&line, depth)?;
                Expr::Index {
                    target: self.boxed(d)?,
                    index: self.boxed(d)?,
                }
            }
            b"sli" => {
                let (start, end) = line.fields(1)?.two_flags()?;
                let d = self.enter(&line, depth)?;
                Expr::Slice {
                    target: self.boxed(d)?,
                    start: self.optional_boxed(start, d)?,
                    end: self.optional_boxed(end, d)?,
                }
            }
            b"lis" => {
                let count = line.fields(1)?.count()?;
                let d = self.enter(&line, depth)?;
                Expr::List(self.times(count, |r| r.expr(d))?)
            }
            b"map" => {
                let count = line.fields(1)?.count()?;
                let d = self.enter(&line, depth)?;
                Expr::Map(self.times(count, |r| r.entry(d))?)
            }
            b"call" => {
                let mut f = line.fields(3)?;
                let name = f.name()?;
                let distinct = f.bit()?;
                let count = f.count()?;
                let d = self.enter(&line, depth)?;
                Expr::Call {
                    name,
                    args: self.times(count, |r| r.expr(d))?,
                    distinct,
                }
            }
            b"bin" => {
                let op = BIN_OPS[line.fields(1)?.number(19)? as usize];
                let d = self.enter(&line, depth)?;
                Expr::BinOp {
                    op,
                    lhs: self.boxed(d)?,
                    rhs: self.boxed(d)?,
                }
            }
            b"una" => {
                let op = match line.fields(1)?.bit()? {
                    false => UnaryOp::Neg,
                    true => UnaryOp::Not,
                };
                let d = self.enter(&line, depth)?;
                Expr::UnaryOp {
                    op,
                    operand: self.boxed(d)?,
                }
            }
            b"case" => {
                let mut f = line.fields(2)?;
                let (scrutinee, otherwise) = f.two_flags()?;
                let count = f.count()?;
                let d = self.enter(&line, depth)?;
                Expr::Case {
                    scrutinee: self.optional_boxed(scrutinee, d)?,
                    arms: self.times(count, |r| Ok((r.expr(d)?, r.expr(d)?)))?,
                    otherwise: self.optional_boxed(otherwise, d)?,
                }
            }
            b"isn" => {
                let negated = line.fields(1)?.bit()?;
                let d = self.enter(&line, depth)?;
                Expr::IsNull {
                    operand: self.boxed(d)?,
                    negated,
                }
            }
            b"in" => {
                line.fields(0)?;
                let d = self.enter(&line, depth)?;
                Expr::InList {
                    operand: self.boxed(d)?,
                    list: self.boxed(d)?,
                }
            }
            _ => return Err(line.refused(3)),
        })
    }

    /// Patterns, comprehensions, list predicates and map projections.
    fn scoped(&mut self, line: Line<'a>, depth: usize) -> Result<Expr, Refused> {
        Ok(match line.word {
            b"pat" => {
                line.fields(0)?;
                let d = self.enter(&line, depth)?;
                Expr::PatternPredicate(self.pattern(d)?)
            }
            b"lcp" => {
                let mut f = line.fields(2)?;
                let filter_var = f.var()?;
                let filtered = f.flag()?;
                let d = self.enter(&line, depth)?;
                Expr::ListComprehension {
                    filter_var,
                    iterable: self.boxed(d)?,
                    filter: self.optional_boxed(filtered, d)?,
                    map_expr: self.boxed(d)?,
                }
            }
            b"pcp" => {
                let filtered = line.fields(1)?.flag()?;
                let d = self.enter(&line, depth)?;
                Expr::PatternComprehension {
                    pattern: self.pattern(d)?,
                    filter: self.optional_boxed(filtered, d)?,
                    map_expr: self.boxed(d)?,
                    span: no_span(),
                }
            }
            b"lpr" => {
                let mut f = line.fields(3)?;
                let kind = LIST_PREDS[f.number(3)? as usize];
                let var = f.var()?;
                let filtered = f.flag()?;
                let d = self.enter(&line, depth)?;
                Expr::ListPredicate {
                    kind,
                    var,
                    iterable: self.boxed(d)?,
                    predicate: self.optional_boxed(filtered, d)?,
                }
            }
            _ => {
                let count = line.fields(1)?.count()?;
                let d = self.enter(&line, depth)?;
                Expr::MapProjection {
                    base: self.boxed(d)?,
                    items: self.times(count, |r| r.projection_item(d))?,
                }
            }
        })
    }

    fn entry(&mut self, depth: usize) -> Result<(SmolStr, Expr), Refused> {
        let key = self.expect(b"key")?.fields(1)?.name()?;
        Ok((key, self.expr(depth)?))
    }

    fn projection_item(&mut self, depth: usize) -> Result<MapProjectionItem, Refused> {
        let line = self.next()?;
        Ok(match line.word {
            b"cop" => MapProjectionItem::PropCopy {
                prop: line.fields(1)?.name()?,
            },
            b"com" => {
                let key = line.fields(1)?.name()?;
                MapProjectionItem::Computed {
                    key,
                    value: self.expr(depth)?,
                }
            }
            b"sho" => {
                let mut f = line.fields(2)?;
                let var = f.var()?;
                let name = f.name()?;
                MapProjectionItem::VarShorthand { var, name }
            }
            b"ali" => {
                let key = line.fields(1)?.name()?;
                MapProjectionItem::Aliased {
                    key,
                    value: self.expr(depth)?,
                }
            }
            _ => return Err(line.refused(3)),
        })
    }
}

/// An expression of one line.
fn leaf(line: &Line) -> Result<Expr, Refused> {
    Ok(match line.word {
        b"bool" => Expr::Bool(line.fields(1)?.bit()?),
        b"int" => Expr::Int(line.fields(1)?.int()?),
        b"flt" => Expr::Float(line.fields(1)?.float()?),
        b"str" => Expr::String(line.fields(1)?.name()?),
        b"var" => Expr::Var(line.fields(1)?.var()?),
        b"par" => Expr::Param(line.fields(1)?.name()?),
        b"unr" => Expr::Unresolved(line.fields(1)?.name()?),
        b"exi" => {
            line.fields(0)?;
            Expr::ExistsSubqueryDeferred { span: no_span() }
        }
        _ => {
            line.fields(0)?;
            Expr::Null
        }
    })
}
