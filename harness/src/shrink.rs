//! The search for a smaller input that still shows a difference.

use crate::cases::Case;
use crate::generate::tree::{Line, Tree};
use crate::reference::ty::Type;
use crate::type_line::{read_type_line, type_line};
use std::iter::successors;
use std::ops::Range;
use std::rc::Rc;

/// How many inputs are tried at most.
const TRIES: usize = 20_000;

/// A smallest case that was found for which `differs` holds, beginning with one for which it does.
pub fn smallest(case: Case, differs: impl FnMut(&Case) -> bool) -> Case {
    search(case, smaller, weight, differs)
}

/// The same for a sheet alone.
pub fn smallest_sheet(sheet: Vec<u8>, mut differs: impl FnMut(&[u8]) -> bool) -> Vec<u8> {
    search(sheet, |s| smaller_sheets(s), Vec::len, |s| differs(s))
}

pub(crate) fn search<T>(
    first: T,
    smaller: for<'a> fn(&'a T) -> Box<dyn Iterator<Item = T> + 'a>,
    weight: fn(&T) -> usize,
    mut differs: impl FnMut(&T) -> bool,
) -> T {
    let mut best = first;
    let mut tries = 0;
    loop {
        let found = smaller(&best)
            .take(TRIES - tries)
            .inspect(|_| tries += 1)
            .find(|c| weight(c) < weight(&best) && differs(c));
        match found {
            Some(better) => best = better,
            None => return best,
        }
    }
}

/// How large a case is.
pub(crate) fn weight(case: &Case) -> usize {
    match case {
        Case::Sheet { sheet, .. } => sheet.len(),
        Case::Pair { a, b, .. } => a.len() + b.len(),
    }
}

/// Cases with something taken away.
pub(crate) fn smaller(case: &Case) -> Box<dyn Iterator<Item = Case> + '_> {
    match case {
        Case::Sheet { sheet, work, out } => {
            Box::new(smaller_sheets(sheet).map(|sheet| Case::Sheet {
                sheet,
                work: *work,
                out: *out,
            }))
        }
        Case::Pair { a, b, work, out } => {
            let left = smaller_texts(a).map(|a| (a, b.clone()));
            let right = smaller_texts(b).map(|b| (a.clone(), b));
            Box::new(left.chain(right).map(|(a, b)| Case::Pair {
                a,
                b,
                work: *work,
                out: *out,
            }))
        }
    }
}

/// What to take away of so many things: all, halves, quarters, and so on down to single ones.
pub(crate) fn ranges(len: usize) -> impl Iterator<Item = Range<usize>> {
    let sizes = successors(Some(len), |n| Some(n / 2)).take_while(|&n| n > 0);
    sizes.flat_map(move |size| {
        let starts = (0..len).step_by(size);
        starts.map(move |at| at..(at + size).min(len))
    })
}

/// Parts of the text taken away.
pub(crate) fn cut(text: &[u8]) -> impl Iterator<Item = Vec<u8>> + '_ {
    ranges(text.len()).map(|r| [&text[..r.start], &text[r.end..]].concat())
}

// ---- sheets

fn smaller_sheets(sheet: &[u8]) -> Box<dyn Iterator<Item = Vec<u8>> + '_> {
    match Tree::parse(sheet) {
        Some(tree) => Box::new(smaller_trees(tree).map(|t| t.text())),
        None => {
            let lines: Vec<&[u8]> = sheet.split_inclusive(|&b| b == b'\n').collect();
            let fewer = ranges(lines.len())
                .map(move |r| [&lines[..r.start], &lines[r.end..]].concat().concat());
            Box::new(fewer.chain(cut(sheet)))
        }
    }
}

/// Made one by one: a long sheet has as many as it has lines, each about as long as itself.
fn smaller_trees(tree: Tree) -> impl Iterator<Item = Tree> {
    let mut size = 0;
    tree.visit(&mut |_| size += 1);
    let (clauses, bindings) = (tree.clauses.len(), tree.bindings.len());
    let all = Rc::new(tree);
    let tree = all.clone();
    let fewer_clauses = ranges(clauses).map(move |r| {
        let mut t = Tree::clone(&tree);
        t.clauses.drain(r);
        t
    });
    let tree = all.clone();
    let fewer_bindings = ranges(bindings).map(move |r| {
        let mut t = Tree::clone(&tree);
        t.bindings.drain(r);
        t
    });
    let edited = (0..size).flat_map(move |at| {
        let tree = all.clone();
        let lines = smaller_lines(nth(&tree, at));
        lines.into_iter().map(move |line| with_nth(&tree, at, line))
    });
    fewer_clauses.chain(fewer_bindings).chain(edited)
}

/// The line at this place of the clauses' lines, with what stands below it.
fn nth(tree: &Tree, at: usize) -> &Line {
    let mut lines = Vec::new();
    tree.visit(&mut |line| lines.push(line));
    lines[at]
}

/// The tree with another line at this place.
fn with_nth(tree: &Tree, at: usize, line: Line) -> Tree {
    let (mut tree, mut line) = (tree.clone(), line);
    let mut place = 0;
    tree.visit_mut(&mut |l| {
        if place == at {
            std::mem::swap(l, &mut line);
        }
        place += 1;
    });
    tree
}

/// A line with less below it, or something that stands below it in its place; what stands below is kept as it is.
fn smaller_lines(line: &Line) -> Vec<Line> {
    let mut lines = Vec::new();
    if line.is_expr() {
        line.visit(&mut |inner| {
            if inner.is_expr() && !std::ptr::eq(inner, line) {
                lines.push(inner.clone());
            }
        });
        if line.size() > 1 || line.row.word != "null" {
            lines.push(Line::new("null", &[], Vec::new()));
        }
    }
    lines.extend(fewer_children(line));
    for (i, field) in line.fields.iter().enumerate() {
        if field.len() > 2 {
            for shorter in [field[..2].to_string(), field[2..].to_string(), "0".into()] {
                let mut l = line.clone();
                l.fields[i] = shorter;
                lines.push(l);
            }
        }
    }
    lines
}

/// A line with less of what its count counts. Of a great count only large parts are taken: a line of many has many.
fn fewer_children(line: &Line) -> Vec<Line> {
    let Some(at) = line.count_field() else {
        return Vec::new();
    };
    let count: usize = line.fields[at].parse().unwrap_or(0);
    let Some(group) = line.row.groups.iter().find(|g| g.per > 0) else {
        return Vec::new();
    };
    let before = match line.row.word {
        "mpr" => 1,
        "case" => usize::from(line.fields[0] == "1" || line.fields[0] == "3"),
        _ => 0,
    };
    ranges(count)
        .take(60)
        .map(|r| {
            let mut l = line.clone();
            l.fields[at] = (count - r.len()).to_string();
            l.children
                .drain(before + r.start * group.per..before + r.end * group.per);
            l
        })
        .collect()
}

// ---- type texts

fn smaller_texts(text: &[u8]) -> Box<dyn Iterator<Item = Vec<u8>> + '_> {
    match read_type_line(text) {
        Some(ty) => Box::new(smaller_types(&ty).into_iter().map(|t| type_line(&t))),
        None => Box::new(cut(text)),
    }
}

fn smaller_types(ty: &Type) -> Vec<Type> {
    let mut types = vec![Type::Int, Type::Null];
    match ty {
        Type::List(element) => {
            types.push((**element).clone());
            let inner = smaller_types(element);
            types.extend(inner.into_iter().map(|t| Type::List(Box::new(t))));
        }
        Type::Map(fields) => {
            types.extend(fields.values().cloned());
            for (key, value) in fields {
                let mut less = fields.clone();
                less.remove(key);
                if key.len() > 1 {
                    let mut shorter = less.clone();
                    let half = crate::reference::stand_ins::SmolStr::new(&key[..key.len() / 2]);
                    shorter.insert(half, value.clone());
                    types.push(Type::Map(shorter));
                }
                types.push(Type::Map(less));
                for smaller in smaller_types(value) {
                    let mut with = fields.clone();
                    with.insert(key.clone(), smaller);
                    types.push(Type::Map(with));
                }
            }
        }
        Type::Union(members) => {
            types.extend(members.iter().cloned());
            for i in 0..members.len() {
                let mut less = members.clone();
                less.remove(i);
                types.push(Type::union(less));
                for smaller in smaller_types(&members[i]) {
                    let mut with = members.clone();
                    with[i] = smaller;
                    types.push(Type::union(with));
                }
            }
        }
        Type::Node(Some(labels)) => {
            for i in 0..labels.0.len() {
                let mut less = labels.0.clone();
                less.remove(i);
                types.push(Type::Node(Some(crate::reference::ty::LabelSet(less))));
            }
        }
        _ => {}
    }
    types
}
