//! The line words of RULES 2 as a table: where each may stand, its fields, its children. Written apart from the reader, so
//! that each checks the other.

/// Where a line may stand.
#[derive(Debug, Clone, Copy, PartialEq, Eq)]
pub enum Class {
    First,
    Binding,
    End,
    Clause,
    Parts,
    Part,
    Element,
    Label,
    Projection,
    SetItem,
    RemoveItem,
    Key,
    Item,
    Expr,
}

/// What a field may be.
#[derive(Debug, Clone, Copy, PartialEq, Eq)]
pub enum Field {
    /// A number of at most so much.
    UpTo(u64),
    /// A flag number of so many bits.
    Flags(u32),
    Count,
    Var,
    OptionalVar,
    /// A bound of a relationship's length.
    Bound,
    Edition,
    /// A name that is read: a map's key.
    Key,
    /// A name that is not read.
    Unread,
    /// A function's name.
    Function,
    /// A name that is not read, or `-`.
    Alias,
    Int,
    Float,
    Kind,
}

/// Children of one class: `base + per * count`, and one for each bit of the flags if `by_flag`.
#[derive(Debug, Clone, Copy)]
pub struct Group {
    pub class: Class,
    pub base: usize,
    pub per: usize,
    pub by_flag: bool,
}

/// A line word.
#[derive(Debug)]
pub struct Row {
    pub word: &'static str,
    pub class: Class,
    pub fields: &'static [Field],
    pub groups: &'static [Group],
}

const fn fixed(class: Class, base: usize) -> Group {
    Group {
        class,
        base,
        per: 0,
        by_flag: false,
    }
}

const fn counted(class: Class, per: usize) -> Group {
    Group {
        class,
        base: 0,
        per,
        by_flag: false,
    }
}

const fn flagged(class: Class, base: usize, per: usize) -> Group {
    Group {
        class,
        base,
        per,
        by_flag: true,
    }
}

const fn row(
    word: &'static str,
    class: Class,
    fields: &'static [Field],
    groups: &'static [Group],
) -> Row {
    Row {
        word,
        class,
        fields,
        groups,
    }
}

const BIT: Field = Field::UpTo(1);

use Class as C;
use Field as F;

/// Every word.
pub static ROWS: [Row; 55] = [
    row("cyrs", C::First, &[F::Edition], &[]),
    row("b", C::Binding, &[F::Var, F::Kind], &[]),
    row("end", C::End, &[], &[]),
    row("mat", C::Clause, &[BIT], &[fixed(C::Parts, 1)]),
    row("cre", C::Clause, &[], &[fixed(C::Parts, 1)]),
    row("mer", C::Clause, &[], &[fixed(C::Parts, 1)]),
    row("whe", C::Clause, &[], &[fixed(C::Expr, 1)]),
    row(
        "wit",
        C::Clause,
        &[F::Flags(1), F::Count],
        &[counted(C::Projection, 1), flagged(C::Expr, 0, 0)],
    ),
    row(
        "ret",
        C::Clause,
        &[BIT, F::Count],
        &[counted(C::Projection, 1)],
    ),
    row("unw", C::Clause, &[F::Var], &[fixed(C::Expr, 1)]),
    row("set", C::Clause, &[F::Count], &[counted(C::SetItem, 1)]),
    row("rem", C::Clause, &[F::Count], &[counted(C::RemoveItem, 1)]),
    row("del", C::Clause, &[BIT, F::Count], &[counted(C::Expr, 1)]),
    row(
        "cal",
        C::Clause,
        &[F::Unread, BIT, F::Count],
        &[counted(C::Expr, 1)],
    ),
    row("parts", C::Parts, &[F::Count], &[counted(C::Part, 1)]),
    row(
        "part",
        C::Part,
        &[F::OptionalVar, F::UpTo(2), F::Count],
        &[counted(C::Element, 1)],
    ),
    row(
        "nod",
        C::Element,
        &[F::OptionalVar, F::Flags(1), F::Count],
        &[counted(C::Label, 1), flagged(C::Expr, 0, 0)],
    ),
    row(
        "rel",
        C::Element,
        &[
            F::OptionalVar,
            F::UpTo(2),
            BIT,
            F::Bound,
            F::Bound,
            F::Flags(1),
            F::Count,
        ],
        &[counted(C::Label, 1), flagged(C::Expr, 0, 0)],
    ),
    row("lab", C::Label, &[F::Unread], &[]),
    row("pro", C::Projection, &[F::Alias], &[fixed(C::Expr, 1)]),
    row("sp", C::SetItem, &[F::Unread], &[fixed(C::Expr, 2)]),
    row(
        "sl",
        C::SetItem,
        &[F::Var, F::Count],
        &[counted(C::Label, 1)],
    ),
    row("sm", C::SetItem, &[F::Var, BIT], &[fixed(C::Expr, 1)]),
    row("rp", C::RemoveItem, &[F::Unread], &[fixed(C::Expr, 1)]),
    row(
        "rl",
        C::RemoveItem,
        &[F::Var, F::Count],
        &[counted(C::Label, 1)],
    ),
    row("key", C::Key, &[F::Key], &[fixed(C::Expr, 1)]),
    row("cop", C::Item, &[F::Unread], &[]),
    row("com", C::Item, &[F::Unread], &[fixed(C::Expr, 1)]),
    row("sho", C::Item, &[F::Var, F::Unread], &[]),
    row("ali", C::Item, &[F::Unread], &[fixed(C::Expr, 1)]),
    row("null", C::Expr, &[], &[]),
    row("bool", C::Expr, &[BIT], &[]),
    row("int", C::Expr, &[F::Int], &[]),
    row("flt", C::Expr, &[F::Float], &[]),
    row("str", C::Expr, &[F::Unread], &[]),
    row("var", C::Expr, &[F::Var], &[]),
    row("par", C::Expr, &[F::Unread], &[]),
    row("unr", C::Expr, &[F::Unread], &[]),
    row("exi", C::Expr, &[], &[]),
    row("prop", C::Expr, &[F::Unread], &[fixed(C::Expr, 1)]),
    row("idx", C::Expr, &[], &[fixed(C::Expr, 2)]),
    row("sli", C::Expr, &[F::Flags(2)], &[flagged(C::Expr, 1, 0)]),
    row("lis", C::Expr, &[F::Count], &[counted(C::Expr, 1)]),
    row("map", C::Expr, &[F::Count], &[counted(C::Key, 1)]),
    row(
        "call",
        C::Expr,
        &[F::Function, BIT, F::Count],
        &[counted(C::Expr, 1)],
    ),
    row("bin", C::Expr, &[F::UpTo(19)], &[fixed(C::Expr, 2)]),
    row("una", C::Expr, &[BIT], &[fixed(C::Expr, 1)]),
    row(
        "case",
        C::Expr,
        &[F::Flags(2), F::Count],
        &[flagged(C::Expr, 0, 2)],
    ),
    row("isn", C::Expr, &[BIT], &[fixed(C::Expr, 1)]),
    row("in", C::Expr, &[], &[fixed(C::Expr, 2)]),
    row("pat", C::Expr, &[], &[fixed(C::Parts, 1)]),
    row(
        "lcp",
        C::Expr,
        &[F::Var, F::Flags(1)],
        &[flagged(C::Expr, 2, 0)],
    ),
    row(
        "pcp",
        C::Expr,
        &[F::Flags(1)],
        &[fixed(C::Parts, 1), flagged(C::Expr, 1, 0)],
    ),
    row(
        "lpr",
        C::Expr,
        &[F::UpTo(3), F::Var, F::Flags(1)],
        &[flagged(C::Expr, 1, 0)],
    ),
    row(
        "mpr",
        C::Expr,
        &[F::Count],
        &[fixed(C::Expr, 1), counted(C::Item, 1)],
    ),
];

/// The row of a word.
pub fn row_of(word: &str) -> Option<&'static Row> {
    ROWS.iter().find(|r| r.word == word)
}

impl Row {
    /// The classes of the children of a line with these fields, in order.
    pub fn children(&self, fields: &[String]) -> Vec<Class> {
        let mut count = 0;
        let mut flags: u64 = 0;
        for (field, text) in self.fields.iter().zip(fields) {
            let n = text.parse::<u64>().unwrap_or(0);
            match field {
                Field::Count => count = n as usize,
                Field::Flags(_) => flags = n,
                _ => {}
            }
        }
        let mut classes = Vec::new();
        for group in self.groups {
            let bits = match group.by_flag {
                true => flags.count_ones() as usize,
                false => 0,
            };
            classes.extend(vec![group.class; group.base + group.per * count + bits]);
        }
        classes
    }
}
