//! Sheets of whole statements: small, long, deep, with many bindings, with long names, with long lists, refused at their end.

use super::sheets::{Kind, Sheets};
use crate::calls;
use crate::generate::exprs::Maker;
use crate::generate::sheets::{deep_to, long};
use crate::generate::table::Class;
use crate::generate::tree::{Line, Tree};
use crate::limits::{DEPTH, NAME_BYTES, SHEET_BYTES};
use crate::random::Random;

const SMALL: [&str; 2] = [
    "cyrs,1\nb,0,N\nret,0,2\npro,-\nprop,6e616d65\nvar,0\npro,6e\ncall,73697a65,0,1\nvar,0\nend\n",
    "cyrs,1\nb,0,N\nret,1,1\npro,-\nbin,10\nprop,616765\nvar,0\nint,30\nend\n",
];

/// Items of the long lists.
const ITEMS: usize = 9_000;
/// Bound variables of the sheets of variables.
const VARIABLES: u32 = 2_600;
/// The bytes of a `b` line with a variable of four digits.
const BINDING_BYTES: usize = 9;
/// Sheets of mixed clauses in a family.
const MIXED: usize = 4;

/// A line with nothing below it.
pub fn leaf(word: &str, fields: &[&str]) -> Line {
    Line::new(word, fields, Vec::new())
}

/// A clause of one top expression.
pub fn top(expr: Line) -> Line {
    Line::new("whe", &[], vec![expr])
}

/// As many clauses as there is room for in a sheet of so many bytes.
pub fn filled(bytes: usize, mut clauses: impl FnMut() -> Vec<Line>) -> Tree {
    let mut tree = Tree::default();
    let mut taken = tree.text().len();
    loop {
        let clauses = clauses();
        let more = Tree {
            bindings: Vec::new(),
            clauses,
        };
        taken += more.text().len() - Tree::default().text().len();
        if taken > bytes {
            return tree;
        }
        tree.clauses.extend(more.clauses);
    }
}

fn small() -> Sheets {
    SMALL.map(|s| s.as_bytes().to_vec()).to_vec()
}

/// Accepted sheets of mixed clauses.
fn mixed() -> Sheets {
    let sheets = (0..).map(|seed| long(&mut Random::new(seed)).text());
    let accepted = sheets.filter(|sheet| calls::check_call(sheet).0 == 0);
    accepted.take(MIXED).collect()
}

/// The same with a last line that is no `end`.
fn refused_at_the_last_line() -> Sheets {
    let spoilt = |mut sheet: Vec<u8>| {
        let letter = sheet.len() - 2;
        sheet[letter] = b'x';
        sheet
    };
    mixed().into_iter().map(spoilt).collect()
}

/// Clauses drawn by one seed until there is no room in so many bytes. Each is accepted.
pub fn mixed_clauses(bytes: usize) -> Tree {
    let rng = &mut Random::new(1);
    let mut maker = Maker::new(rng, 0);
    maker.long_names = false;
    filled(bytes, || loop {
        maker.fuel = 60;
        let clauses = vec![maker.line(Class::Clause, 10)];
        let tree = Tree {
            bindings: Vec::new(),
            clauses,
        };
        if calls::sheet_report(&tree.text()).is_ok() {
            return tree.clauses;
        }
    })
}

/// Mixed clauses, and then one whose type is too large.
fn too_large_at_the_end() -> Sheets {
    const ENTRIES: usize = 5;
    let entry = |i: usize| {
        let name = format!("{i:02x}").repeat(NAME_BYTES / 2);
        Line::new("key", &[&name], vec![leaf("int", &["1"])])
    };
    let map = Line::new(
        "map",
        &[&ENTRIES.to_string()],
        (0..ENTRIES).map(entry).collect(),
    );
    let last = top(map);
    let room = ENTRIES * 2 * NAME_BYTES;
    let mut tree = mixed_clauses(SHEET_BYTES - room);
    tree.clauses.push(last);
    vec![tree.text()]
}

/// Clauses around expressions of the greatest depth.
fn deep() -> Sheets {
    let rng = &mut Random::new(1);
    let deepest = || loop {
        let clauses = deep_to(rng, DEPTH).clauses;
        if clauses[0].depth() == DEPTH {
            return clauses;
        }
    };
    vec![filled(SHEET_BYTES, deepest).text()]
}

fn many_bindings() -> Sheets {
    let variables = ["1000", "4000", "9999"].map(|v| leaf("var", &[v]));
    let mut tree = Tree::returning(variables.to_vec());
    let count = (SHEET_BYTES - tree.text().len()) / BINDING_BYTES;
    tree.bindings = (1_000..1_000 + count as u32).map(|v| (v, 'N')).collect();
    vec![tree.text()]
}

fn long_names() -> Sheets {
    let name = "6e".repeat(NAME_BYTES);
    let clause = || {
        vec![top(Line::new(
            "prop",
            &[&name],
            vec![leaf("str", &[&name])],
        ))]
    };
    vec![filled(SHEET_BYTES, clause).text()]
}

/// As many bound variables as returned ones, `gap` apart.
pub fn variables(count: u32, gap: u32) -> Sheets {
    let all = || (0..count).map(|i| i * gap);
    let variable = |v: u32| leaf("var", &[&v.to_string()]);
    let mut tree = Tree::returning(all().map(variable).collect());
    tree.bindings = all().map(|v| (v, 'N')).collect();
    vec![tree.text()]
}

/// A list of these items, over and over.
pub fn list(count: usize, items: &[Line]) -> Sheets {
    let items = items.iter().cycle().take(count).cloned().collect();
    let list = Line::new("lis", &[&count.to_string()], items);
    vec![Tree::returning(vec![list]).text()]
}

/// Items of two types.
pub fn numbers_and_nulls() -> [Line; 2] {
    [leaf("int", &["1"]), leaf("null", &[])]
}

pub fn kinds() -> Vec<Kind> {
    vec![
        Kind::new("small", small),
        Kind::new("long-mixed", mixed),
        Kind::new("deep", deep),
        Kind::new("many-bindings", many_bindings),
        Kind::new("long-names", long_names),
        Kind::new("variables", || variables(VARIABLES, 1)),
        Kind::new("variables-7-apart", || variables(VARIABLES, 7)),
        Kind::new("list-of-9000", || list(ITEMS, &[leaf("int", &["1"])])),
        Kind::new("list-of-9000-two-types", || {
            list(ITEMS, &numbers_and_nulls())
        }),
        Kind::new("refused-at-last-line", refused_at_the_last_line).refused(3),
        Kind::new("too-large-at-the-end", too_large_at_the_end)
            .refused(6)
            .for_typing(),
    ]
}
