//! Whole sheets of several kinds.

use super::exprs::{expr_of, typed_bindings, Maker};
use super::table::Class;
use super::tree::{hex, Line, Tree};
use super::types::{any_type, changed, large, middling, sized_map, Domain};
use crate::limits::{DEPTH, SHEET_BYTES};
use crate::random::Random;
use crate::reference::ty::Type;

/// A sheet without damage. Small ones are most frequent.
pub fn tree(rng: &mut Random) -> Tree {
    match rng.below(64) {
        0 => long(rng),
        1 => many_bindings(rng),
        2..=7 => deep(rng),
        8..=19 => typed(rng),
        20..=27 => random_tree(rng, 400),
        _ => random_tree(rng, 40),
    }
}

/// A small sheet without damage.
pub fn small_tree(rng: &mut Random) -> Tree {
    match rng.below(4) {
        0 => typed(rng),
        _ => random_tree(rng, 25),
    }
}

fn bindings(rng: &mut Random, most: usize) -> Vec<(u32, char)> {
    let mut vars: Vec<u32> = (0..rng.below(most + 1))
        .map(|_| match rng.below(8) {
            0 => rng.next_u64() as u32,
            1 => u32::MAX,
            _ => rng.below(2 * most) as u32,
        })
        .collect();
    vars.sort_unstable();
    vars.dedup();
    vars.into_iter()
        .map(|v| (v, *rng.pick(&['N', 'R', 'P', 'V'])))
        .collect()
}

fn random_tree(rng: &mut Random, fuel: usize) -> Tree {
    let bound = bindings(rng, 6);
    let fuel = rng.between(1, fuel);
    let depth = match rng.once_in(4) {
        true => DEPTH,
        false => rng.between(1, 8),
    };
    let mut maker = Maker::new(rng, fuel);
    maker.vars.extend(bound.iter().map(|b| b.0));
    let mut clauses = Vec::new();
    while maker.fuel > 0 && clauses.len() < 12 {
        clauses.push(maker.line(Class::Clause, depth));
    }
    Tree {
        bindings: bound,
        clauses,
    }
}

/// 22 to 24 levels of expressions, sometimes 25.
pub fn deep(rng: &mut Random) -> Tree {
    let levels = match rng.once_in(6) {
        true => DEPTH + 1,
        false => rng.between(DEPTH - 2, DEPTH),
    };
    deep_to(rng, levels)
}

/// At least so many levels of expressions.
pub fn deep_to(rng: &mut Random, levels: usize) -> Tree {
    let mut maker = Maker::new(rng, 60);
    // No word is left out, so that there is always one to go deeper by.
    maker.weights.iter_mut().for_each(|w| *w += 1);
    let mut expr = maker.expr(1);
    while expr.depth() < levels {
        expr = around(&mut maker, expr);
    }
    let mut tree = Tree::returning(vec![expr]);
    tree.bindings = typed_bindings();
    tree
}

/// A small expression in which this one takes the place of some child.
fn around(maker: &mut Maker, inner: Line) -> Line {
    loop {
        maker.fuel = 6;
        let mut outer = maker.expr(3);
        let mut places = 0;
        outer.visit(&mut |l| places += usize::from(l.is_expr()));
        if places < 2 {
            continue;
        }
        let chosen = maker.rng.between(1, places - 1);
        let mut at = 0;
        let mut inner = Some(inner);
        outer.visit_mut(&mut |l| {
            if l.is_expr() {
                if at == chosen {
                    if let Some(inner) = inner.take() {
                        *l = inner;
                    }
                }
                at += 1;
            }
        });
        return outer;
    }
}

/// Near 65,535 bytes, often exactly that, sometimes one more.
pub fn long(rng: &mut Random) -> Tree {
    let aim = SHEET_BYTES - rng.below(3000);
    let mut tree = random_tree(rng, 30);
    let mut len = tree.text().len();
    let style = rng.below(4);
    let mut maker = Maker::new(rng, 0);
    while len < aim {
        maker.fuel = 60;
        let clause = match style {
            0 => long_list(&mut maker),
            _ => maker.line(Class::Clause, 10),
        };
        let one = Tree {
            bindings: Vec::new(),
            clauses: vec![clause],
        };
        let more = one.text().len() - Tree::default().text().len();
        if len + more > SHEET_BYTES {
            break;
        }
        len += more;
        tree.clauses.extend(one.clauses);
    }
    fill(&mut tree, rng);
    tree
}

fn long_list(maker: &mut Maker) -> Line {
    let count = maker.rng.between(100, 900);
    let items: Vec<Line> = (0..count)
        .map(|_| match maker.rng.once_in(30) {
            true => maker.expr(3),
            false => maker.expr(1),
        })
        .collect();
    let list = Line::new("lis", &[&count.to_string()], items);
    Line::new("whe", &[], vec![list])
}

/// Often fills the sheet up to exactly 65,535 bytes, or one more.
fn fill(tree: &mut Tree, rng: &mut Random) {
    let len = tree.text().len();
    let aim = match rng.below(3) {
        0 => return,
        1 => SHEET_BYTES,
        _ => SHEET_BYTES + 1,
    };
    if len + 18 <= aim {
        tree.clauses.extend(filling(aim - len));
    }
}

/// Clauses of exactly so many bytes, which are at least 18. `whe` and `str,` with a name take 9 bytes and two for each byte
/// of the name.
pub fn filling(bytes: usize) -> Vec<Line> {
    let mut left = bytes;
    let mut clauses = Vec::new();
    while left > 0 {
        let take = match left {
            _ if left > 519 => 301,
            _ if left % 2 == 0 => 9,
            _ => left,
        };
        let name = "61".repeat((take - 9) / 2);
        let string = Line::new("str", &[&name], Vec::new());
        clauses.push(Line::new("whe", &[], vec![string]));
        left -= take;
    }
    clauses
}

fn many_bindings(rng: &mut Random) -> Tree {
    let bound = bindings(rng, 3000);
    let mut maker = Maker::new(rng, 0);
    maker.vars = bound.iter().map(|b| b.0).chain([0, u32::MAX]).collect();
    let items: Vec<Line> = (0..200)
        .map(|_| {
            let v = maker.rng.pick(&maker.vars).to_string();
            Line::new("var", &[&v], Vec::new())
        })
        .collect();
    let mut tree = Tree::returning(items);
    tree.bindings = bound;
    tree
}

/// A comparison of two unions that is too large in one order of the operands only, or close to that: what meets nothing
/// of the other side brings the other side whole.
fn lopsided(rng: &mut Random) -> Tree {
    let bytes = rng.between(1_013, 1_018);
    let map = sized_map(rng, Domain::Sheet, bytes);
    let small = Type::union([Type::Int, Type::String]);
    let large = Type::union([Type::Float, Type::String, map]);
    let mut operands = vec![expr_of(rng, &small), expr_of(rng, &large)];
    if rng.once_in(2) {
        operands.swap(0, 1);
    }
    let op = rng.between(8, 11).to_string();
    let mut tree = Tree::returning(vec![Line::new("bin", &[&op], operands)]);
    tree.bindings = typed_bindings();
    tree
}

/// Some expressions of middling or large types in one construct, so that several things are too large and the order tells.
fn crowd(rng: &mut Random) -> Tree {
    let exprs: Vec<Line> = (0..rng.between(2, 4))
        .map(|_| {
            let ty = match rng.below(4) {
                0 => large(rng, Domain::Sheet),
                1 => any_type(rng, Domain::Sheet, 3),
                _ => middling(rng, Domain::Sheet),
            };
            expr_of(rng, &ty)
        })
        .collect();
    let count = exprs.len().to_string();
    let expr = match rng.below(5) {
        0 => Line::new("lis", &[&count], exprs),
        1 => {
            let keys = ["61", "62", "", "63"];
            let entry = |(e, k): (Line, &str)| Line::new("key", &[k], vec![e]);
            Line::new(
                "map",
                &[&count],
                exprs.into_iter().zip(keys).map(entry).collect(),
            )
        }
        2 => Line::new("call", &[&hex("head"), "0", &count], exprs),
        _ => {
            let arm = |e: Line| [Line::new("bool", &["1"], vec![]), e];
            Line::new(
                "case",
                &["0", &count],
                exprs.into_iter().flat_map(arm).collect(),
            )
        }
    };
    let mut tree = Tree::returning(vec![expr]);
    tree.bindings = typed_bindings();
    tree
}

/// Expressions of types at the limits, met by every construct that unifies or joins.
pub fn typed(rng: &mut Random) -> Tree {
    match rng.below(10) {
        0 => return lopsided(rng),
        1 | 2 => return crowd(rng),
        _ => {}
    }
    let first = match rng.once_in(3) {
        true => any_type(rng, Domain::Sheet, 5),
        false => large(rng, Domain::Sheet),
    };
    let second = match rng.below(4) {
        0 => large(rng, Domain::Sheet),
        1 => any_type(rng, Domain::Sheet, 4),
        _ => changed(rng, &first, Domain::Sheet),
    };
    let a = expr_of(rng, &first);
    let b = expr_of(rng, &second);
    let expr = match rng.below(14) {
        0 => Line::new("lis", &["2"], vec![a, b]),
        1 => Line::new("lis", &["3"], vec![a, Line::new("null", &[], vec![]), b]),
        2 => {
            let op = rng.between(8, 11).to_string();
            Line::new("bin", &[&op], vec![a, b])
        }
        3 => Line::new("in", &[], vec![a, Line::new("lis", &["1"], vec![b])]),
        4 => {
            let yes = Line::new("bool", &["1"], vec![]);
            Line::new("case", &["2", "1"], vec![yes, a, b])
        }
        5 => Line::new(
            "map",
            &["2"],
            vec![
                Line::new("key", &["61"], vec![a]),
                Line::new("key", &[*rng.pick(&["61", "62", ""])], vec![b]),
            ],
        ),
        6 => {
            let name = hex(rng.pick(&["head", "tail", "last", "keys", "size", "id"]));
            Line::new("call", &[&name, "0", "2"], vec![a, b])
        }
        7 => Line::new("idx", &[], vec![a, b]),
        8 => Line::new("sli", &["1"], vec![a, b]),
        9 => Line::new("lcp", &["9", "1"], vec![a.clone(), b, a]),
        10 => Line::new("lis", &["1"], vec![a]),
        11 => {
            let op = rng.below(20).to_string();
            Line::new("bin", &[&op], vec![a, b])
        }
        _ => a,
    };
    let mut tree = Tree::returning(vec![expr]);
    tree.bindings = typed_bindings();
    tree
}
