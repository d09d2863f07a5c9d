//! Depth 24 and 25 by every way to put an expression into another one.

use super::{expr, leaf, probe, SheetProbe, TOP};
use crate::generate::tree::{Line, Tree};
use crate::limits::DEPTH;

/// Every way to put an expression into another one.
fn wraps(inner: &Line) -> Vec<Line> {
    let null = || leaf("null", &[]);
    let one = |word: &str, fields: &[&str]| expr(word, fields, vec![inner.clone()]);
    let pattern = |element: Line| {
        expr(
            "parts",
            &["1"],
            vec![expr("part", &["-", "0", "1"], vec![element])],
        )
    };
    let node = || pattern(one("nod", &["-", "1", "0"]));
    let relationship = || pattern(one("rel", &["-", "0", "0", "-", "-", "1", "0"]));
    let empty = || leaf("parts", &["0"]);
    vec![
        one("prop", &[""]),
        expr("idx", &[], vec![inner.clone(), null()]),
        expr("idx", &[], vec![null(), inner.clone()]),
        one("sli", &["0"]),
        expr("sli", &["1"], vec![null(), inner.clone()]),
        expr("sli", &["2"], vec![null(), inner.clone()]),
        one("lis", &["1"]),
        expr("map", &["1"], vec![one("key", &[""])]),
        one("call", &["", "0", "1"]),
        expr("bin", &["0"], vec![inner.clone(), null()]),
        expr("bin", &["19"], vec![null(), inner.clone()]),
        one("una", &["1"]),
        expr("case", &["1", "0"], vec![inner.clone()]),
        expr("case", &["2", "0"], vec![inner.clone()]),
        expr("case", &["0", "1"], vec![inner.clone(), null()]),
        expr("case", &["0", "1"], vec![null(), inner.clone()]),
        one("isn", &["0"]),
        expr("in", &[], vec![inner.clone(), null()]),
        expr("in", &[], vec![null(), inner.clone()]),
        expr("pat", &[], vec![node()]),
        expr("pat", &[], vec![relationship()]),
        expr("lcp", &["0", "0"], vec![inner.clone(), null()]),
        expr("lcp", &["0", "1"], vec![null(), inner.clone(), null()]),
        expr("lcp", &["0", "0"], vec![null(), inner.clone()]),
        expr("pcp", &["0"], vec![node(), null()]),
        expr("pcp", &["1"], vec![empty(), inner.clone(), null()]),
        expr("pcp", &["0"], vec![empty(), inner.clone()]),
        one("lpr", &["0", "0", "0"]),
        expr("lpr", &["3", "0", "1"], vec![null(), inner.clone()]),
        one("mpr", &["0"]),
        expr("mpr", &["1"], vec![null(), one("com", &[""])]),
        expr("mpr", &["1"], vec![null(), one("ali", &[""])]),
    ]
}

pub(super) fn depths(probes: &mut Vec<SheetProbe>) {
    let ways = wraps(&leaf("null", &[])).len();
    for way in 0..ways {
        for (word, field, wrong) in [("int", "5", 5), ("bool", "2", 4), ("int", "x", 3)] {
            let mut inner = leaf(word, &[field]);
            while inner.depth() < DEPTH {
                inner = wraps(&inner).swap_remove(way);
            }
            if wrong == 5 {
                depth_probe(probes, &inner, 0, 0);
            }
            let inner = wraps(&inner).swap_remove(way);
            // An expression beside the innermost one may stand before it, as deep as it.
            let mut lines = 0;
            match first_at(&inner, 1, &mut lines) {
                Some(l) if l.fields == [field] => depth_probe(probes, &inner, wrong, lines),
                _ => depth_probe(probes, &inner, 5, lines),
            }
        }
    }
}

fn depth_probe(probes: &mut Vec<SheetProbe>, top: &Line, number: u32, lines: u64) {
    let sheet = Tree::returning(vec![top.clone()]).text();
    let place = if number == 0 { 0 } else { TOP + lines - 1 };
    let name = format!("depth {} by {}", top.depth(), top.row.word);
    probes.push(probe(name, sheet, number, place));
}

/// The first expression at depth 25, and how many lines there are up to it.
fn first_at<'a>(line: &'a Line, depth: usize, lines: &mut u64) -> Option<&'a Line> {
    *lines += 1;
    if line.is_expr() && depth > DEPTH {
        return Some(line);
    }
    let below = depth + usize::from(line.is_expr());
    line.children.iter().find_map(|c| first_at(c, below, lines))
}
