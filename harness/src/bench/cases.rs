//! Sheets of CASE: as many different answer types as fit in a union, and comparisons nested to the greatest depth.

use super::sheets::{Kind, Sheets};
use super::statements::{filled, leaf, top};
use crate::generate::tree::{Line, Tree};
use crate::limits::{DEPTH, SHEET_BYTES, TYPE_BYTES};
use crate::random::Random;

/// The bytes of a union beside its members.
const UNION_BYTES: usize = 4;

/// An expression and the bytes of its type line.
#[derive(Clone)]
struct Answer {
    bytes: usize,
    expr: Line,
}

fn answer(bytes: usize, expr: Line) -> Answer {
    Answer { bytes, expr }
}

/// The variables below: a node, a relationship and a path.
fn bindings() -> Vec<(u32, char)> {
    vec![(0, 'N'), (1, 'R'), (2, 'P')]
}

/// Every type of one letter that an expression has.
fn letters() -> Vec<Answer> {
    let int = || leaf("int", &["1"]);
    let float = || leaf("flt", &["3ff0000000000000"]);
    let exprs = [
        leaf("par", &["61"]),
        leaf("null", &[]),
        leaf("bool", &["1"]),
        int(),
        float(),
        Line::new("bin", &["0"], vec![int(), float()]),
        leaf("str", &["61"]),
        leaf("var", &["2"]),
        leaf("unr", &["61"]),
    ];
    exprs.into_iter().map(|e| answer(2, e)).collect()
}

/// Node, relationship and the empty map.
fn unnamed() -> Vec<Answer> {
    let exprs = [
        leaf("var", &["0"]),
        leaf("var", &["1"]),
        leaf("map", &["0"]),
    ];
    exprs.into_iter().map(|e| answer(4, e)).collect()
}

fn list(of: &Answer) -> Answer {
    let expr = Line::new("lis", &["1"], vec![of.expr.clone()]);
    answer(of.bytes + 2, expr)
}

/// A map of one entry.
fn map(name: &str, of: &Answer) -> Answer {
    let entry = Line::new("key", &[name], vec![of.expr.clone()]);
    let expr = Line::new("map", &["1"], vec![entry]);
    answer(of.bytes + name.len() + 5, expr)
}

/// Maps of one entry that differ in a name of one byte.
fn named() -> Vec<Answer> {
    let int = answer(2, leaf("int", &["1"]));
    let names = (0..=u8::MAX).map(|name| format!("{name:02x}"));
    names.map(|name| map(&name, &int)).collect()
}

/// Expressions of different types, the shortest types first.
fn different() -> Vec<Answer> {
    let letters = letters();
    let short: Vec<Answer> = unnamed()
        .into_iter()
        .chain(letters.iter().map(list))
        .collect();
    let lists: Vec<Answer> = short.iter().map(list).collect();
    let nameless = letters.iter().map(|of| map("", of));
    let deeper = lists.iter().map(list);
    let (four, six) = (short.iter().cloned(), lists.iter().cloned());
    let all = letters.iter().cloned().chain(four).chain(six);
    all.chain(nameless).chain(deeper).chain(named()).collect()
}

/// As many of them as a union has room for.
fn fitting() -> usize {
    let mut room = TYPE_BYTES - UNION_BYTES;
    let fits = |of: &Answer| match room.checked_sub(of.bytes) {
        Some(less) => {
            room = less;
            true
        }
        None => false,
    };
    let all = different();
    all.into_iter().take_while(fits).count()
}

/// A CASE of these answers in any order.
fn case(rng: &mut Random, mut answers: Vec<Answer>) -> Line {
    rng.shuffle(&mut answers);
    let count = answers.len().to_string();
    let arm = |of: Answer| [leaf("bool", &["1"]), of.expr];
    let arms = answers.into_iter().flat_map(arm).collect();
    Line::new("case", &["0", &count], arms)
}

/// A sheet of one CASE.
fn sheet_of(answers: &[Answer]) -> Vec<u8> {
    let case = case(&mut Random::new(1), answers.to_vec());
    let mut tree = Tree::returning(vec![case]);
    tree.bindings = bindings();
    tree.text()
}

/// One CASE of so many answers, different types of one length.
pub fn one_case(count: usize) -> Sheets {
    vec![sheet_of(&named()[..count])]
}

/// A sheet full of CASEs of as many different answers as fit.
fn wide_unions() -> Sheets {
    const BINDINGS_BYTES: usize = 18;
    let rng = &mut Random::new(1);
    let answers: Vec<Answer> = different().into_iter().take(fitting()).collect();
    let clause = || vec![top(case(rng, answers.clone()))];
    let mut tree = filled(SHEET_BYTES - BINDINGS_BYTES, clause);
    tree.bindings = bindings();
    vec![tree.text()]
}

/// A CASE that asks twice how an expression compares, and answers a number, a text or nothing.
fn asks(compared: Line) -> Line {
    let (int, text) = (|| leaf("int", &["7"]), leaf("str", &["61"]));
    let less = Line::new("bin", &["8"], vec![compared, int()]);
    let more = Line::new("bin", &["10"], vec![int(), int()]);
    let arms = vec![less, int(), more, text, leaf("null", &[])];
    Line::new("case", &["2", "2"], arms)
}

/// CASEs in comparisons in CASEs, to the greatest depth.
fn deep_comparisons() -> Sheets {
    let mut expr = Line::new("una", &["0"], vec![leaf("int", &["7"])]);
    while expr.depth() + 2 <= DEPTH {
        expr = asks(expr);
    }
    vec![filled(SHEET_BYTES, || vec![top(expr.clone())]).text()]
}

pub fn kinds() -> Vec<Kind> {
    vec![
        Kind::new("case-wide-unions", wide_unions),
        Kind::new("case-deep-comparisons", deep_comparisons),
    ]
}

#[cfg(test)]
mod tests {
    use super::*;
    use crate::calls::sheet_report;

    /// No further answer fits, and none is there twice.
    #[test]
    fn as_many_answers_as_fit() {
        let (all, most) = (different(), fitting());
        let more = sheet_report(&sheet_of(&all[..=most]));
        assert!(matches!(more, Err((6, _))));
        let report = sheet_report(&sheet_of(&all[..most])).expect("accepted");
        let line = report.split(|b| *b == b'\n').next().unwrap_or_default();
        let bytes: usize = all[..most].iter().map(|a| a.bytes).sum();
        assert_eq!(line.len(), b"T,".len() + UNION_BYTES + bytes);
    }

    #[test]
    fn comparisons_reach_the_greatest_depth() {
        let sheet = &deep_comparisons()[0];
        let tree = Tree::parse(sheet).expect("accepted");
        assert!(tree.clauses.iter().all(|c| c.depth() == DEPTH));
    }
}
