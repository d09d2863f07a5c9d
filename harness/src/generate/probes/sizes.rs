//! Types of 1,024 and 1,025 bytes and of nesting 32 and 33 by every construct, and the order of refusals.

use super::{expr, leaf, probe, SheetProbe, TOP};
use crate::generate::exprs::expr_of;
use crate::generate::tree::{hex, Line, Tree};
use crate::generate::types::{sized_map, Domain};
use crate::limits::TYPE_BYTES;
use crate::random::Random;
use crate::reference::ty::Type;

fn returned(probes: &mut Vec<SheetProbe>, name: &str, expr: Line, place: u64) {
    let number = if place == 0 { 0 } else { 6 };
    let sheet = Tree::returning(vec![expr]).text();
    probes.push(probe(name, sheet, number, place));
}

/// A map's expression whose type line has so many bytes; its names begin with a capital.
fn map_expr(bytes: usize) -> Line {
    let mut rng = Random::new(bytes as u64);
    let ty = sized_map(&mut rng, Domain::Sheet, bytes);
    let plain = match ty {
        Type::Map(fields) => Type::Map(fields.into_keys().map(|k| (k, Type::Int)).collect()),
        other => other,
    };
    expr_of(&mut rng, &plain)
}

/// A map's expression of one entry whose type line has so many bytes, an odd number.
fn entry_expr(name: &str, bytes: usize) -> Line {
    let name = format!("{name}{}", "x".repeat((bytes - 7) / 2 - name.len()));
    let key = expr("key", &[&hex(name)], vec![leaf("int", &["1"])]);
    expr("map", &["1"], vec![key])
}

pub(super) fn sizes(probes: &mut Vec<SheetProbe>) {
    let at = |over: usize| if over == 0 { 0 } else { TOP };
    let yes = || leaf("bool", &["1"]);
    let null = || leaf("null", &[]);
    let par = || leaf("par", &[""]);
    let empty = || leaf("parts", &["0"]);
    for over in [0, 1, 2] {
        let map = |less: usize| map_expr(TYPE_BYTES + over - less);
        let mut add = |name: &str, e: Line| returned(probes, name, e, at(over));
        add("map bytes", map(0));
        add("list bytes", expr("lis", &["1"], vec![map(2)]));
        add(
            "list bytes after Any",
            expr("lis", &["2"], vec![par(), map(2)]),
        );
        add(
            "list bytes before Any",
            expr("lis", &["2"], vec![map(2), par()]),
        );
        add(
            "nullable list bytes",
            expr("lis", &["2"], vec![null(), map(8)]),
        );
        add(
            "list nullable bytes",
            expr("lis", &["2"], vec![map(8), null()]),
        );
        add(
            "list comprehension bytes",
            expr("lcp", &["0", "0"], vec![null(), map(2)]),
        );
        add(
            "pattern comprehension bytes",
            expr("pcp", &["0"], vec![empty(), map(2)]),
        );
        add("map of map bytes", {
            let key = expr("key", &["61"], vec![map(7)]);
            expr("map", &["1"], vec![key])
        });
        add(
            "case bytes",
            expr("case", &["2", "1"], vec![yes(), null(), map(6)]),
        );
        add(
            "case bytes, exchanged",
            expr("case", &["0", "2"], vec![yes(), map(6), yes(), null()]),
        );
        add(
            "comparison with null bytes",
            expr("bin", &["8"], vec![null(), map(6)]),
        );
        add(
            "comparison with null bytes, exchanged",
            expr("bin", &["11"], vec![map(6), null()]),
        );
        let sum = |less: usize| {
            // The lines of two maps without a common name add up, less four bytes.
            let total = TYPE_BYTES + over + 4 - less;
            let first = 509 - 2 * ((total + 1) % 2);
            vec![entry_expr("p", first), map_expr(total - first)]
        };
        add("unified map bytes in a list", expr("lis", &["2"], sum(2)));
        add(
            "unified map bytes in a comparison",
            expr("bin", &["9"], sum(0)),
        );
        add("unified map bytes in IN", {
            let mut both = sum(0);
            let list = expr("lis", &["1"], both.split_off(1));
            both.push(list);
            expr("in", &[], both)
        });
        // What passes a large type on or drops it is not in its way.
        returned(
            probes,
            "equality of large types",
            expr("bin", &["6"], sum(0)),
            0,
        );
        returned(
            probes,
            "concatenation of large types",
            expr("bin", &["19"], sum(0)),
            0,
        );
    }
    nestings(probes);
}

fn nestings(probes: &mut Vec<SheetProbe>) {
    // Sixteen nullable lists make a nesting of 33 around a type of one letter, fifteen and a list one of 32.
    let wrap = |e: Line| expr("lis", &["2"], vec![leaf("null", &[]), e]);
    let mut fifteen = leaf("int", &["1"]);
    for _ in 0..15 {
        fifteen = wrap(fifteen);
    }
    let list = |e: Line| expr("lis", &["1"], vec![e]);
    let key = |e: Line| expr("map", &["1"], vec![expr("key", &[""], vec![e])]);
    let case = |e: Line| {
        let yes = leaf("bool", &["1"]);
        expr("case", &["2", "1"], vec![yes, leaf("null", &[]), e])
    };
    let comprehension = |e: Line| expr("lcp", &["1", "0"], vec![leaf("null", &[]), e]);
    returned(probes, "nesting 31", fifteen.clone(), 0);
    returned(probes, "nesting 32 by list", list(fifteen.clone()), 0);
    returned(probes, "nesting 32 by map", key(fifteen.clone()), 0);
    returned(probes, "nesting 32 by case", case(fifteen.clone()), 0);
    returned(
        probes,
        "nesting 32 by comprehension",
        comprehension(fifteen.clone()),
        0,
    );
    returned(
        probes,
        "nesting 33 by nullable list",
        wrap(fifteen.clone()),
        TOP,
    );
    let deep = list(fifteen);
    returned(probes, "nesting 33 by list", list(deep.clone()), TOP);
    returned(probes, "nesting 33 by map", key(deep.clone()), TOP);
    returned(probes, "nesting 33 by case", case(deep.clone()), TOP);
    returned(
        probes,
        "nesting 33 by comprehension",
        comprehension(deep.clone()),
        TOP,
    );
    let less = expr("bin", &["8"], vec![leaf("null", &[]), deep.clone()]);
    returned(probes, "nesting 33 by comparison", less, TOP);
    let within = expr(
        "in",
        &[],
        vec![leaf("null", &[]), list(deep.children[0].clone())],
    );
    returned(probes, "nesting 32 by IN", within, 0);
}

pub(super) fn orders(probes: &mut Vec<SheetProbe>) {
    let yes = || leaf("bool", &["1"]);
    let large = || map_expr(TYPE_BYTES + 1);
    let half = |c: &str| entry_expr(c, 515);
    // All arms are typed before the union is made.
    let arms = vec![yes(), half("a"), yes(), half("b")];
    let case = expr("case", &["0", "2"], arms.clone());
    returned(probes, "union of arms too large", case, TOP);
    let mut longer = arms;
    longer.extend([yes(), large()]);
    let case = expr("case", &["0", "3"], longer);
    let sheet = Tree::returning(vec![case]).text();
    // case, (bool, map, key, int) twice, bool, map
    probes.push(probe("a later arm too large", sheet, 6, TOP + 10));
    // A map literal is refused although a later entry of the same name would shrink it.
    let entry = |name: &str, e: Line| expr("key", &[name], vec![e]);
    let map = expr(
        "map",
        &["3"],
        vec![
            entry("61", half("a")),
            entry("62", half("b")),
            entry("62", leaf("null", &[])),
        ],
    );
    returned(probes, "map too large on the way", map, TOP);
    let map = expr(
        "map",
        &["3"],
        vec![
            entry("61", half("a")),
            entry("61", half("b")),
            entry("61", leaf("null", &[])),
        ],
    );
    returned(probes, "map entry replaced", map, 0);
    // In unified maps the first field in name order decides: a mismatch makes the list's element Any.
    let pair = |a: Line, b: Line| expr("map", &["2"], vec![entry("61", a), entry("62", b)]);
    let wide = |c: &str| expr("lis", &["1"], vec![entry_expr(c, 515)]);
    let small = || leaf("int", &["1"]);
    let other = || leaf("str", &[""]);
    let first = pair(small(), wide("a"));
    let second = pair(other(), wide("b"));
    let list = expr("lis", &["2"], vec![first, second]);
    returned(probes, "mismatch before too large", list, 0);
    let first = pair(wide("a"), small());
    let second = pair(wide("b"), other());
    let list = expr("lis", &["2"], vec![first, second]);
    returned(probes, "too large before mismatch", list, TOP);
    // 6 comes before 7, and 7 tells of the full report.
    let sheet = Tree::returning(vec![leaf("null", &[]), large()]).text();
    let mut p = probe("6 before 7", sheet, 6, TOP + 2);
    p.out = 0;
    probes.push(p);
    // The whole sheet is read before anything is typed.
    let mut sheet = Tree::returning(vec![large()]).text();
    sheet.extend_from_slice(b"x");
    let place = sheet.iter().filter(|&&b| b == b'\n').count() as u64 + 1;
    probes.push(probe("3 before 6", sheet, 3, place));
    // Arguments of a built-in are all typed first.
    let call = expr("call", &[&hex("id"), "0", "2"], vec![small(), large()]);
    returned(probes, "later argument too large", call, TOP + 2);
}
