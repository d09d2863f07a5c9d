//! Small inputs in full: every operator and construct over operands of every kind, and all pairs of small types.

use super::exprs::{typed_bindings, NODE_VAR, PATH_VAR, RELATIONSHIP_VAR};
use super::tree::{hex, Line, Tree};
use crate::limits::SHEET_BYTES;
use crate::random::Random;

fn leaf(word: &str, fields: &[&str]) -> Line {
    Line::new(word, fields, Vec::new())
}

fn one(word: &str, fields: &[&str], child: Line) -> Line {
    Line::new(word, fields, vec![child])
}

fn two(word: &str, fields: &[&str], a: &Line, b: &Line) -> Line {
    Line::new(word, fields, vec![a.clone(), b.clone()])
}

/// An expression of each kind of type.
fn operands() -> Vec<Line> {
    let int = || leaf("int", &["1"]);
    let flt = || leaf("flt", &["3ff0000000000000"]);
    let yes = leaf("bool", &["1"]);
    let var = |v: u32| leaf("var", &[&v.to_string()]);
    vec![
        leaf("null", &[]),
        yes.clone(),
        int(),
        flt(),
        two("bin", &["0"], &int(), &flt()),
        leaf("str", &["61"]),
        leaf("par", &["61"]),
        leaf("exi", &[]),
        leaf("lis", &["0"]),
        one("lis", &["1"], int()),
        leaf("map", &["0"]),
        one("map", &["1"], one("key", &["61"], int())),
        var(NODE_VAR),
        var(RELATIONSHIP_VAR),
        var(PATH_VAR),
        Line::new("case", &["2", "1"], vec![yes, int(), leaf("str", &[""])]),
    ]
}

/// Every construct over two operands.
fn over_two(a: &Line, b: &Line) -> Vec<(String, Line)> {
    let mut all: Vec<(String, Line)> = (0..20)
        .map(|op| (format!("bin {op}"), two("bin", &[&op.to_string()], a, b)))
        .collect();
    let listed = one("lis", &["1"], b.clone());
    let yes = leaf("bool", &["1"]);
    let none = leaf("parts", &["0"]);
    let mut add = |name: &str, line: Line| all.push((name.to_string(), line));
    add("in", two("in", &[], a, b));
    add("in list", two("in", &[], a, &listed));
    add("lis", two("lis", &["2"], a, b));
    add("idx", two("idx", &[], a, b));
    add("sli", two("sli", &["2"], a, b));
    add("case", two("case", &["0", "1"], a, b));
    let arms = vec![yes.clone(), a.clone(), b.clone()];
    add("case else", Line::new("case", &["2", "1"], arms));
    let children = vec![a.clone(), yes, b.clone()];
    add("case of", Line::new("case", &["1", "1"], children));
    let children = vec![leaf("null", &[]), a.clone(), b.clone()];
    add("lcp", Line::new("lcp", &["5", "1"], children));
    let children = vec![none, a.clone(), b.clone()];
    add("pcp", Line::new("pcp", &["1"], children));
    add("lpr", two("lpr", &["1", "5", "1"], a, b));
    for name in [
        "id", "size", "head", "tail", "last", "keys", "values", "count",
    ] {
        add(name, two("call", &[&hex(name), "0", "2"], a, b));
    }
    all
}

/// Every construct over one operand, or none.
fn over_one(a: &Line) -> Vec<Line> {
    let mut all = vec![
        a.clone(),
        one("una", &["0"], a.clone()),
        one("una", &["1"], a.clone()),
        one("isn", &["1"], a.clone()),
        one("prop", &["61"], a.clone()),
        one("sli", &["0"], a.clone()),
        one("lis", &["1"], a.clone()),
        one("case", &["2", "0"], a.clone()),
        one("mpr", &["0"], a.clone()),
    ];
    for name in ["id", "size", "head", "tail", "last", "keys", "values", ""] {
        all.push(leaf("call", &[&hex(name), "0", "0"]));
        all.push(one("call", &[&hex(name), "1", "1"], a.clone()));
    }
    all
}

fn sheet_of(exprs: Vec<Line>) -> Vec<u8> {
    let mut tree = Tree::returning(exprs);
    tree.bindings = typed_bindings();
    tree.text()
}

/// A sheet for each construct, with all its operands, and a name for each.
pub fn sheets() -> Vec<(String, Vec<u8>)> {
    let operands = operands();
    let mut groups: Vec<(String, Vec<Line>)> = Vec::new();
    for a in &operands {
        for b in &operands {
            for (i, (name, line)) in over_two(a, b).into_iter().enumerate() {
                if groups.len() <= i {
                    groups.push((name, Vec::new()));
                }
                groups[i].1.push(line);
            }
        }
    }
    let ones = operands.iter().flat_map(over_one).collect();
    groups.push(("one operand".to_string(), ones));
    let named = |(name, exprs)| (format!("all {name}"), sheet_of(exprs));
    let sheets: Vec<(String, Vec<u8>)> = groups.into_iter().map(named).collect();
    assert!(sheets.iter().all(|s| s.1.len() <= SHEET_BYTES));
    sheets
}

/// A sheet of one to three constructs over operands, all by chance.
pub fn some(rng: &mut Random) -> Vec<u8> {
    let operands = operands();
    let count = rng.between(1, 3);
    let exprs = (0..count).map(|_| {
        let (a, b) = (rng.pick(&operands), rng.pick(&operands));
        match rng.once_in(4) {
            true => rng.pick(&over_one(a)).clone(),
            false => rng.pick(&over_two(a, b)).1.clone(),
        }
    });
    sheet_of(exprs.collect())
}

/// Small types of every shape.
const TYPES: [&str; 46] = [
    "A,",
    "B,",
    "C,",
    "D,",
    "E,",
    "F,",
    "G,",
    "H,",
    "I,",
    "N,",
    "P,",
    "L,!,",
    "L,+,!,",
    "L,+,61,!,",
    "L,+,62,!,",
    "L,+,61,62,!,",
    "M,!,",
    "M,+,61,",
    "M,+,62,",
    "J,A,",
    "J,B,",
    "J,D,",
    "J,E,",
    "J,G,",
    "J,P,",
    "J,J,D,",
    "J,O,B,D,!,",
    "J,K,61,D,!,",
    "K,!,",
    "K,61,D,!,",
    "K,61,E,!,",
    "K,61,G,!,",
    "K,62,D,!,",
    "K,61,D,62,G,!,",
    "K,61,O,B,D,!,!,",
    "O,A,B,!,",
    "O,A,D,!,",
    "O,B,D,!,",
    "O,B,P,!,",
    "O,C,E,!,",
    "O,D,G,!,",
    "O,D,E,!,",
    "O,J,D,K,!,!,",
    "O,K,61,D,!,L,!,!,",
    "O,B,J,D,K,61,G,!,!,",
    "O,L,+,61,!,M,+,61,!,",
];

/// All pairs of small types.
pub fn pairs() -> Vec<(Vec<u8>, Vec<u8>)> {
    let pair = |a: &str, b: &str| (a.as_bytes().to_vec(), b.as_bytes().to_vec());
    let all = TYPES
        .iter()
        .flat_map(|a| TYPES.iter().map(move |b| pair(a, b)));
    all.collect()
}
