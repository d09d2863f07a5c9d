//! Every field of every word at the ends of its range, field counts, and every word at every place.

use super::{expr, leaf, probe, SheetProbe};
use crate::generate::table::{Class, Field, Row, ROWS};
use crate::generate::tree::Tree;
use crate::limits::NAME_BYTES;

/// Lines around a line of this class: what stands before it.
fn before(class: Class) -> &'static [&'static str] {
    match class {
        Class::First => &[],
        Class::Binding | Class::Clause | Class::End => &["cyrs,1"],
        Class::Parts => &["cyrs,1", "mat,0"],
        Class::Part => &["cyrs,1", "mat,0", "parts,1"],
        Class::Element => &["cyrs,1", "mat,0", "parts,1", "part,-,0,1"],
        Class::Label => &["cyrs,1", "set,1", "sl,0,1"],
        Class::Projection => &["cyrs,1", "ret,0,1"],
        Class::SetItem => &["cyrs,1", "set,1"],
        Class::RemoveItem => &["cyrs,1", "rem,1"],
        Class::Key => &["cyrs,1", "whe", "map,1"],
        Class::Item => &["cyrs,1", "whe", "mpr,1", "null"],
        Class::Expr => &["cyrs,1", "whe"],
    }
}

/// The lines of a smallest thing of this class.
fn smallest(class: Class) -> &'static [&'static str] {
    match class {
        Class::First => &["cyrs,1"],
        Class::Binding => &["b,0,N"],
        Class::End => &["end"],
        Class::Clause => &["set,0"],
        Class::Parts => &["parts,0"],
        Class::Part => &["part,-,0,0"],
        Class::Element => &["nod,-,0,0"],
        Class::Label => &["lab,"],
        Class::Projection => &["pro,-", "null"],
        Class::SetItem => &["sl,0,0"],
        Class::RemoveItem => &["rl,0,0"],
        Class::Key => &["key,", "null"],
        Class::Item => &["cop,"],
        Class::Expr => &["null"],
    }
}

fn plain_field(field: Field) -> &'static str {
    match field {
        Field::UpTo(_) | Field::Flags(_) | Field::Count | Field::Var | Field::Int => "0",
        Field::OptionalVar | Field::Bound | Field::Alias => "-",
        Field::Edition => "1",
        Field::Key | Field::Unread | Field::Function => "",
        Field::Float => "0000000000000000",
        Field::Kind => "N",
    }
}

fn plain_fields(row: &Row) -> Vec<String> {
    row.fields
        .iter()
        .map(|f| plain_field(*f).to_string())
        .collect()
}

/// A sheet around a line, which has these classes below it, and the line's number.
fn sheet_around(class: Class, line: &str, below: &[Class]) -> (Vec<u8>, u64) {
    let mut lines: Vec<&str> = before(class).to_vec();
    lines.push(line);
    let place = lines.len() as u64;
    for inner in below {
        lines.extend(smallest(*inner));
    }
    if class != Class::End {
        lines.push("end");
    }
    let mut text = lines.join("\n").into_bytes();
    text.push(b'\n');
    (text, place)
}

fn line_text(word: &str, fields: &[String]) -> String {
    let mut text = word.to_string();
    for field in fields {
        text.push(',');
        text.push_str(field);
    }
    text
}

/// Texts for a field: fine, outside its range, badly written.
pub(in crate::generate) fn texts(field: Field) -> Texts {
    let number = |fine: Vec<u64>, over: &str| {
        (
            fine.iter().map(u64::to_string).collect(),
            vec![over.to_string(), "9".repeat(45)],
            strings(&[
                "",
                "-",
                "00",
                "01",
                "x",
                "+1",
                "-1",
                "1 ",
                "1x",
                "99999999999999999999x",
            ]),
        )
    };
    match field {
        Field::UpTo(most) => number((0..=most).collect(), &(most + 1).to_string()),
        Field::Flags(bits) => number((0..1 << bits).collect(), &(1 << bits).to_string()),
        Field::Count => number(vec![0, 1, 2], "10000"),
        Field::Var => number(vec![0, 1, 4_294_967_295], "4294967296"),
        Field::OptionalVar => optional(number(vec![0, 4_294_967_295], "4294967296")),
        Field::Bound => optional(number(vec![0, u64::MAX], "18446744073709551616")),
        Field::Edition => (
            strings(&["1"]),
            vec!["0".into(), "2".into(), "9".repeat(45)],
            strings(&["", "01", "1 ", "x", "-1"]),
        ),
        Field::Key | Field::Unread | Field::Function => names(),
        Field::Alias => optional(names()),
        Field::Int => (
            strings(&["0", "-1", "9223372036854775807", "-9223372036854775808"]),
            strings(&["9223372036854775808", "-9223372036854775809"]),
            strings(&["", "-", "-0", "-00", "01", "-01", "+1", "--1", "1-", "x"]),
        ),
        Field::Float => (
            strings(&["0000000000000000", "ffffffffffffffff", "7ff0000000000001"]),
            Vec::new(),
            strings(&[
                "",
                "000000000000000",
                "00000000000000000",
                "000000000000000G",
                "-",
                "A000000000000000",
            ]),
        ),
        Field::Kind => (
            strings(&["N", "R", "P", "V"]),
            Vec::new(),
            strings(&["", "n", "X", "NN", "0"]),
        ),
    }
}

fn strings(list: &[&str]) -> Vec<String> {
    list.iter().map(|s| s.to_string()).collect()
}

pub(in crate::generate) type Texts = (Vec<String>, Vec<String>, Vec<String>);

/// `-` is fine too.
fn optional((mut fine, over, bad): Texts) -> Texts {
    fine.push("-".into());
    (fine, over, bad.into_iter().filter(|t| t != "-").collect())
}

fn names() -> Texts {
    let full = "61".repeat(NAME_BYTES);
    (
        vec![String::new(), "61".into(), "ff00".into(), full.clone()],
        vec![full.clone() + "61"],
        vec![
            "-".into(),
            "6".into(),
            "6g".into(),
            "6A".into(),
            "616".into(),
            full.clone() + "6",
            full + "6g",
        ],
    )
}

/// A line with one field set. A bound asks for a variable length.
fn with_field(row: &Row, at: usize, text: &str) -> Vec<String> {
    let mut fields = plain_fields(row);
    if row.fields[at] == Field::Bound {
        fields[2] = "1".to_string();
    }
    fields[at] = text.to_string();
    fields
}

pub(super) fn field_probes(probes: &mut Vec<SheetProbe>) {
    for row in &ROWS {
        for (at, field) in row.fields.iter().enumerate() {
            let (fine, over, bad) = texts(*field);
            for (texts, number) in [(fine, 0), (over, 4), (bad, 3)] {
                for text in texts {
                    one_field(probes, row, at, &text, number);
                }
            }
            if *field == Field::Count {
                greatest_count(probes, row, at);
            }
        }
        field_counts(probes, row);
    }
    // A count of 9,999 whose lines are all there.
    let items = vec![leaf("exi", &[]); 9_999];
    let list = expr("lis", &["9999"], items);
    probes.push(probe(
        "9999 items",
        Tree::returning(vec![list]).text(),
        0,
        0,
    ));
}

fn one_field(probes: &mut Vec<SheetProbe>, row: &Row, at: usize, text: &str, number: u32) {
    let fields = with_field(row, at, text);
    let below = match number {
        0 => row.children(&fields),
        _ => Vec::new(),
    };
    let line = line_text(row.word, &fields);
    let (sheet, place) = sheet_around(row.class, &line, &below);
    let place = if number == 0 { 0 } else { place };
    probes.push(probe(format!("field {line}"), sheet, number, place));
}

/// 9,999 is within the range, so that the lines that are missing are what is wrong.
fn greatest_count(probes: &mut Vec<SheetProbe>, row: &Row, at: usize) {
    let plain = row.children(&plain_fields(row));
    let fields = with_field(row, at, "9999");
    let line = line_text(row.word, &fields);
    let (sheet, place) = sheet_around(row.class, &line, &plain);
    let given: usize = plain.iter().map(|c| smallest(*c).len()).sum();
    probes.push(probe(
        format!("count {line}"),
        sheet,
        3,
        place + 1 + given as u64,
    ));
}

fn field_counts(probes: &mut Vec<SheetProbe>, row: &Row) {
    let fields = plain_fields(row);
    let below = row.children(&fields);
    let mut more = fields.clone();
    more.push(String::new());
    let mut wrong = vec![more];
    if !fields.is_empty() {
        wrong.push(fields[1..].to_vec());
    }
    for fields in wrong {
        let line = line_text(row.word, &fields);
        let (sheet, place) = sheet_around(row.class, &line, &below);
        probes.push(probe(format!("field count {line}"), sheet, 3, place));
    }
}

/// With L 0 any bound is badly written; L comes first.
pub(super) fn bounds(probes: &mut Vec<SheetProbe>) {
    let cases = [
        ("rel,-,0,0,-,-,0,0", 0),
        ("rel,-,0,0,1,-,0,0", 3),
        ("rel,-,0,0,-,1,0,0", 3),
        ("rel,-,0,0,18446744073709551616,-,0,0", 3),
        ("rel,-,0,2,x,-,0,0", 4),
        ("rel,-,0,x,1,-,0,0", 3),
        ("rel,-,0,1,5,1,0,0", 0),
        ("rel,-,0,1,18446744073709551616,x,0,0", 4),
        ("rel,-,0,1,x,18446744073709551616,0,0", 3),
        ("rel,-,3,0,1,-,0,0", 4),
        ("rel,4294967296,3,0,x,-,0,0", 4),
    ];
    for (line, number) in cases {
        let (sheet, place) = sheet_around(Class::Element, line, &[]);
        let place = if number == 0 { 0 } else { place };
        probes.push(probe(format!("bounds {line}"), sheet, number, place));
    }
}

/// Each word at the place of each class: 3 at that line unless it may stand there.
pub(super) fn places(probes: &mut Vec<SheetProbe>) {
    for row in &ROWS {
        for class in [
            Class::First,
            Class::Clause,
            Class::Parts,
            Class::Part,
            Class::Element,
            Class::Label,
            Class::Projection,
            Class::SetItem,
            Class::RemoveItem,
            Class::Key,
            Class::Item,
            Class::Expr,
        ] {
            let open = class == Class::Clause && matches!(row.class, Class::Binding | Class::End);
            if row.class == class || open {
                continue;
            }
            // Fields out of range do not matter at a wrong place.
            for fields in [plain_fields(row), vec!["9".repeat(45); row.fields.len()]] {
                let line = line_text(row.word, &fields);
                let (sheet, place) = sheet_around(class, &line, &[]);
                probes.push(probe(format!("{line} as {class:?}"), sheet, 3, place));
            }
        }
    }
    for word in ["", "x", "nul", "nulls", "Null", "null ", "parts1", "\0null"] {
        let (sheet, place) = sheet_around(Class::Expr, word, &[]);
        probes.push(probe(format!("word {word:?}"), sheet, 3, place));
    }
}
