//! Cases whose sheets and type lines are built by small functions: repeated texts, one field at a time, types of a given size.

use super::Stated;
use crate::cases::Case;
use crate::limits::{UNIFY_OUT_BYTES, WORK_BYTES};
use crate::vectors::Answer;
use std::ops::Add;

/// Bytes that are put together from parts.
#[derive(Debug, Clone, PartialEq, Eq)]
pub struct Text(Vec<u8>);

impl From<&str> for Text {
    fn from(s: &str) -> Text {
        Text(s.as_bytes().to_vec())
    }
}

impl<T: Into<Text>> Add<T> for Text {
    type Output = Text;

    fn add(mut self, behind: T) -> Text {
        self.0.extend(behind.into().0);
        self
    }
}

pub fn text(s: &str) -> Text {
    s.into()
}

/// Bytes that are no text.
pub fn bytes(b: &[u8]) -> Text {
    Text(b.to_vec())
}

/// A text n times.
pub fn many(n: usize, s: &str) -> Text {
    Text(s.repeat(n).into_bytes())
}

pub fn repeated(n: usize, t: Text) -> Text {
    Text(t.0.repeat(n))
}

// A case: what is asked of a call, and all that it settles.

/// The texts of a call.
pub enum Question {
    Sheet(Text),
    Pair(Text, Text),
}

/// What is left in the buffers: this text at the front of the output and zeros in the work area; zeros in both; both as lent.
pub enum Left {
    Wrote(Text),
    Zeroed,
    AsLent,
}

pub fn sheet(s: impl Into<Text>) -> Question {
    Question::Sheet(s.into())
}

pub fn pair(a: impl Into<Text>, b: impl Into<Text>) -> Question {
    Question::Pair(a.into(), b.into())
}

pub fn wrote(t: impl Into<Text>) -> Left {
    Left::Wrote(t.into())
}

/// What the number of an answer says of the buffers (vectors/README.md).
fn is_said_by(left: &Left, number: u32) -> bool {
    match left {
        Left::Wrote(_) => matches!(number, 0 | 9),
        Left::AsLent => matches!(number, 1 | 2),
        Left::Zeroed => matches!(number, 3..=8),
    }
}

/// A call with buffers of these lengths, its number, what it returns and what is left in the buffers.
pub fn with_buffers(
    work: usize,
    out: usize,
    question: Question,
    number: u32,
    first: usize,
    second: usize,
    left: Left,
) -> Stated {
    assert!(
        is_said_by(&left, number),
        "what is left follows from {number}"
    );
    let output = match left {
        Left::Wrote(t) => t.0,
        Left::Zeroed | Left::AsLent => Vec::new(),
    };
    let case = match question {
        Question::Sheet(Text(sheet)) => Case::Sheet { sheet, work, out },
        Question::Pair(Text(a), Text(b)) => Case::Pair { a, b, work, out },
    };
    let answer = Answer {
        case_number: number,
        first: first as u64,
        second: second as u64,
        output,
    };
    Stated { case, answer }
}

/// The same with a work area of the length that is asked for.
pub fn with_output(
    out: usize,
    question: Question,
    number: u32,
    first: usize,
    second: usize,
    left: Left,
) -> Stated {
    with_buffers(WORK_BYTES, out, question, number, first, second, left)
}

/// The same with an output of 2,048 bytes.
fn usual(question: Question, number: u32, first: usize, second: usize, left: Left) -> Stated {
    with_output(UNIFY_OUT_BYTES, question, number, first, second, left)
}

fn accepted(question: Question, t: Text) -> Stated {
    usual(question, 0, t.0.len(), 0, Left::Wrote(t))
}

// Sheets.

/// A sheet with this report.
pub fn reports(s: impl Into<Text>, report: impl Into<Text>) -> Stated {
    accepted(sheet(s), report.into())
}

/// A sheet that is refused: the cause and the line.
pub fn refuses(s: impl Into<Text>, cause: u32, line: usize) -> Stated {
    usual(sheet(s), cause, line, 0, Left::Zeroed)
}

/// A sheet that returns one expression, which begins at line 4.
pub fn returning(e: impl Into<Text>) -> Text {
    text("cyrs,1\nret,0,1\npro,-\n") + e + "end\n"
}

/// Such a sheet has this type and no faults.
pub fn has_type(e: impl Into<Text>, t: impl Into<Text>) -> Stated {
    gives(e, text("T,") + t + "\nend,1,0\n")
}

/// Or this report.
pub fn gives(e: impl Into<Text>, report: impl Into<Text>) -> Stated {
    reports(returning(e), report)
}

/// Or is refused: the cause and the line.
pub fn stops(e: impl Into<Text>, cause: u32, line: usize) -> Stated {
    refuses(returning(e), cause, line)
}

// One field at a time.

/// A field: its line, the sheet up to it, what follows it on its line.
#[derive(Debug, Clone, Copy)]
pub struct Spot {
    line: usize,
    before: &'static str,
    after: &'static str,
}

pub fn spot(line: usize, before: &'static str, after: &'static str) -> Spot {
    Spot {
        line,
        before,
        after,
    }
}

/// Written so: refused at its line.
pub fn refused_at(field: impl Into<Text>, cause: u32, spots: &[Spot]) -> Vec<Stated> {
    let field = field.into();
    let sheet = |p: &Spot| text(p.before) + field.clone() + p.after + "\n";
    spots
        .iter()
        .map(|p| refuses(sheet(p), cause, p.line))
        .collect()
}

/// Written so, where more is to come, and then `end`: the field is taken, and the `end` line is unknown there.
pub fn taken(field: impl Into<Text>, spots: &[Spot]) -> Vec<Stated> {
    let field = field.into();
    let sheet = |p: &Spot| text(p.before) + field.clone() + p.after + "\nend\n";
    spots
        .iter()
        .map(|p| refuses(sheet(p), 3, p.line + 1))
        .collect()
}

/// Badly written: 3.
pub fn bad(field: &str, spots: &[Spot]) -> Vec<Stated> {
    refused_at(field, 3, spots)
}

/// The last in the range, and the first beyond it: 4.
pub fn limit(within: &str, beyond: &str, spots: &[Spot]) -> Vec<Stated> {
    [taken(within, spots), refused_at(beyond, 4, spots)].concat()
}

// Types of a given size.

/// A map of two fields of these names, so often repeated: 10 bytes and 2 for each byte of a name; its expression has 5 lines.
fn pair_in(x: &str, y: &str, a: usize, b: usize) -> Text {
    text("map,2\nkey,") + many(a, x) + "\nint,1\nkey," + many(b, y) + "\nint,1\n"
}

pub fn pair_of(x: &str, y: &str, a: usize, b: usize) -> Text {
    text("K,") + many(a, x) + ",D," + many(b, y) + ",D,!,"
}

/// With the names a.. and b..
pub fn two(a: usize, b: usize) -> Text {
    pair_in("61", "62", a, b)
}

pub fn two_type(a: usize, b: usize) -> Text {
    pair_of("61", "62", a, b)
}

/// And c of one byte: 15 bytes and 2 for each byte of the other names; its expression has 7 lines.
pub fn three(a: usize, b: usize) -> Text {
    text("map,3\nkey,")
        + many(a, "61")
        + "\nint,1\nkey,"
        + many(b, "62")
        + "\nint,1\nkey,63\nint,1\n"
}

pub fn three_type(a: usize, b: usize) -> Text {
    text("K,") + many(a, "61") + ",D," + many(b, "62") + ",D,63,D,!,"
}

/// A map of one field d..: 7 bytes and 2 for each byte of the name; its expression has 3 lines. Beside other fields it takes 4 less.
pub fn one(a: usize) -> Text {
    text("map,1\nkey,") + many(a, "64") + "\nint,1\n"
}

pub fn one_type(a: usize) -> Text {
    text("K,") + many(a, "64") + ",D,!,"
}

/// `[null, [null, .. 1]]`, n deep: 2 lines and nesting 2 for each, and 1.
pub fn deep(n: usize, e: &str) -> Text {
    many(n, "lis,2\nnull\n") + e
}

pub fn deep_type(n: usize, t: &str) -> Text {
    many(n, "J,O,B,") + t + many(n, "!,")
}

// Unification.

pub fn unifies(a: impl Into<Text>, b: impl Into<Text>, t: impl Into<Text>) -> Stated {
    accepted(pair(a, b), t.into())
}

/// Any type with Any is itself.
pub fn reads_as_itself(a: impl Into<Text>) -> Stated {
    let a = a.into();
    unifies(a.clone(), "A,", a)
}

/// Two types that do not unify: the expected and the actual type.
pub fn parts(
    a: impl Into<Text>,
    b: impl Into<Text>,
    expected: impl Into<Text>,
    actual: impl Into<Text>,
) -> Stated {
    let (expected, actual) = (expected.into(), actual.into());
    let (first, second) = (expected.0.len(), actual.0.len());
    usual(pair(a, b), 9, first, second, wrote(expected + actual))
}

pub fn too_large(a: impl Into<Text>, b: impl Into<Text>) -> Stated {
    usual(pair(a, b), 6, 0, 0, Left::Zeroed)
}

/// No type line in this place.
pub fn not_a_type_line(a: impl Into<Text>, b: impl Into<Text>, place: usize) -> Stated {
    usual(pair(a, b), 8, place, 0, Left::Zeroed)
}
