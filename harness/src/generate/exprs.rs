//! Expressions: random ones by weights of the words, and ones of a given type.

use super::table::{Class, Field, Row, ROWS};
use super::tree::{hex, Line};
use crate::random::Random;
use crate::reference::ty::Type;

const BUILTINS: [&str; 7] = ["id", "size", "head", "tail", "last", "keys", "values"];
const UNLISTED: [&str; 8] = [
    "",
    "ids",
    "siz",
    "count",
    "heads",
    "toString",
    "a",
    "значение",
];
const INTS: [&str; 9] = [
    "0",
    "1",
    "-1",
    "9",
    "10",
    "-10",
    "9223372036854775807",
    "-9223372036854775808",
    "1100",
];
const KEYS: [&str; 10] = ["a", "b", "c", "d", "aa", "ab", "", "B", "é", "z"];

/// Makes lines at random.
pub struct Maker<'a> {
    pub rng: &'a mut Random,
    /// A weight for each row of the table.
    pub weights: Vec<u32>,
    /// Variables to name.
    pub vars: Vec<u32>,
    /// About how many lines may still be made.
    pub fuel: usize,
    /// Whether names may be long.
    pub long_names: bool,
}

impl<'a> Maker<'a> {
    /// With weights of its own for each word, so that sheets differ in what they are made of.
    pub fn new(rng: &'a mut Random, fuel: usize) -> Self {
        let flat = rng.once_in(3);
        let weights = ROWS
            .iter()
            .map(|_| match flat {
                true => 1,
                false => *rng.pick(&[0, 1, 1, 2, 4, 12]),
            })
            .collect();
        let long_names = rng.once_in(8);
        Maker {
            rng,
            weights,
            vars: vec![0, 1, 2, 3],
            fuel,
            long_names,
        }
    }

    /// A line of this class, with so many levels of expressions allowed.
    pub fn line(&mut self, class: Class, depth: usize) -> Line {
        self.fuel = self.fuel.saturating_sub(1);
        let row = self.row(class, depth);
        let below = match class {
            Class::Expr => depth - 1,
            _ => depth,
        };
        let fields = self.fields(row, below);
        let children = row
            .children(&fields)
            .into_iter()
            .map(|c| self.line(c, below))
            .collect();
        Line {
            row,
            fields,
            children,
        }
    }

    pub fn expr(&mut self, depth: usize) -> Line {
        self.line(Class::Expr, depth)
    }

    fn row(&mut self, class: Class, depth: usize) -> &'static Row {
        let small = self.fuel == 0 || (class == Class::Expr && depth == 1);
        let of_class = |row: &Row| row.class == class;
        let mut rows = places(|row| of_class(row) && (!small || !needs_expr(row)));
        if rows.is_empty() {
            rows = places(of_class);
        }
        let weights: Vec<u32> = rows.iter().map(|&i| self.weights[i]).collect();
        let at = match weights.iter().all(|&w| w == 0) {
            true => self.rng.below(rows.len()),
            false => self.rng.weighted(&weights),
        };
        &ROWS[rows[at]]
    }

    fn fields(&mut self, row: &Row, below: usize) -> Vec<String> {
        let mut fields: Vec<String> = row.fields.iter().map(|f| self.field(*f, below)).collect();
        if row.word == "rel" && fields[2] == "0" {
            fields[3] = "-".to_string();
            fields[4] = "-".to_string();
        }
        fields
    }

    fn field(&mut self, field: Field, below: usize) -> String {
        match field {
            Field::UpTo(most) => self.rng.below(most as usize + 1).to_string(),
            Field::Flags(bits) => match below == 0 || self.fuel == 0 {
                true => "0".to_string(),
                false => self.rng.below(1 << bits).to_string(),
            },
            Field::Count => self.count(below).to_string(),
            Field::Var => self.var(),
            Field::OptionalVar => match self.rng.once_in(3) {
                true => "-".to_string(),
                false => self.var(),
            },
            Field::Bound => self
                .rng
                .pick(&["-", "0", "1", "7", "18446744073709551615"])
                .to_string(),
            Field::Edition => "1".to_string(),
            Field::Key => match self.long_names && self.rng.once_in(3) {
                true => self.long_name(),
                false => hex(self.rng.pick(&KEYS)),
            },
            Field::Unread => self.unread(),
            Field::Function => self.function(),
            Field::Alias => match self.rng.once_in(2) {
                true => "-".to_string(),
                false => self.unread(),
            },
            Field::Int => match self.rng.once_in(3) {
                true => (self.rng.next_u64() as i64).to_string(),
                false => self.rng.pick(&INTS).to_string(),
            },
            Field::Float => format!("{:016x}", self.rng.next_u64()),
            Field::Kind => self.rng.pick(&["N", "R", "P", "V"]).to_string(),
        }
    }

    fn count(&mut self, below: usize) -> usize {
        if below == 0 || self.fuel == 0 {
            return 0;
        }
        let most = match self.rng.below(20) {
            0 => 40,
            1 | 2 => 8,
            _ => 3,
        };
        self.rng.below(most.min(self.fuel) + 1)
    }

    fn var(&mut self) -> String {
        match self.rng.below(12) {
            0 => u32::MAX.to_string(),
            1 => (self.rng.next_u64() as u32).to_string(),
            _ => self.rng.pick(&self.vars).to_string(),
        }
    }

    fn long_name(&mut self) -> String {
        let len = *self.rng.pick(&[22, 23, 24, 60, 120, 200, 254, 255]);
        hex((0..len)
            .map(|_| b'a' + self.rng.below(2) as u8)
            .collect::<Vec<u8>>())
    }

    fn unread(&mut self) -> String {
        if self.long_names && self.rng.once_in(4) {
            return self.long_name();
        }
        let len = self.rng.below(4);
        hex((0..len)
            .map(|_| *self.rng.pick(&['a', 'Z', '\0', '\n', ',', 'ß', '織']))
            .collect::<String>())
    }

    fn function(&mut self) -> String {
        if self.rng.once_in(4) {
            return hex(self.rng.pick(&UNLISTED));
        }
        let name = *self.rng.pick(&BUILTINS);
        hex(other_case(self.rng, name))
    }
}

/// The name with some letters' case changed.
pub fn other_case(rng: &mut Random, name: &str) -> String {
    name.chars()
        .map(|c| match rng.once_in(4) {
            true => c.to_ascii_uppercase(),
            false => c.to_ascii_lowercase(),
        })
        .collect()
}

/// The places of some rows in the table.
fn places(chosen: impl Fn(&Row) -> bool) -> Vec<usize> {
    (0..ROWS.len()).filter(|&i| chosen(&ROWS[i])).collect()
}

/// Whether a line of this word cannot do without an expression below it.
fn needs_expr(row: &Row) -> bool {
    row.groups
        .iter()
        .any(|g| g.class == Class::Expr && g.base > 0)
}

/// The variable that is bound to a node, a relationship, a path, by [`expr_of`]'s sheets.
pub const NODE_VAR: u32 = 1;
pub const RELATIONSHIP_VAR: u32 = 2;
pub const PATH_VAR: u32 = 3;

/// The bindings that [`expr_of`] counts on.
pub fn typed_bindings() -> Vec<(u32, char)> {
    vec![(NODE_VAR, 'N'), (RELATIONSHIP_VAR, 'R'), (PATH_VAR, 'P')]
}

fn leaf(word: &str, fields: &[&str]) -> Line {
    Line::new(word, fields, Vec::new())
}

/// An expression of this type, which has to be one that expressions have: no dates, label sets or relationship names.
pub fn expr_of(rng: &mut Random, ty: &Type) -> Line {
    match ty {
        Type::Any => leaf("par", &["70"]),
        Type::Null => leaf("null", &[]),
        Type::Bool => leaf("bool", &["1"]),
        Type::Int => leaf("int", &["7"]),
        Type::Float => leaf("flt", &["3ff0000000000000"]),
        Type::Num => Line::new(
            "bin",
            &["2"],
            vec![expr_of(rng, &Type::Int), expr_of(rng, &Type::Float)],
        ),
        Type::String | Type::Date | Type::Datetime => leaf("str", &["78"]),
        Type::List(element) => list_of(rng, element),
        Type::Map(fields) => {
            let entries = fields
                .iter()
                .map(|(name, value)| {
                    Line::new("key", &[&hex(name.as_bytes())], vec![expr_of(rng, value)])
                })
                .collect();
            Line::new("map", &[&fields.len().to_string()], entries)
        }
        Type::Node(_) => leaf("var", &[&NODE_VAR.to_string()]),
        Type::Relationship(_) => leaf("var", &[&RELATIONSHIP_VAR.to_string()]),
        Type::Path => leaf("var", &[&PATH_VAR.to_string()]),
        Type::Union(members) => case_of(rng, members),
        Type::Unknown => leaf("exi", &[]),
    }
}

/// A list with this element type. A nullable element needs no level of its own.
fn list_of(rng: &mut Random, element: &Type) -> Line {
    match element {
        Type::Union(members) if members.len() == 2 && members[0] == Type::Null => {
            let mut items = vec![leaf("null", &[]), expr_of(rng, &members[1])];
            if rng.once_in(2) {
                items.swap(0, 1);
            }
            Line::new("lis", &["2"], items)
        }
        _ => {
            let item = expr_of(rng, element);
            match rng.below(6) {
                0 => Line::new("lcp", &["5", "0"], vec![leaf("par", &["70"]), item]),
                1 => Line::new(
                    "pcp",
                    &["0"],
                    vec![Line::new("parts", &["0"], Vec::new()), item],
                ),
                _ => Line::new("lis", &["1"], vec![item]),
            }
        }
    }
}

/// A CASE with these types as its arms, in some order, the last one perhaps as ELSE.
fn case_of(rng: &mut Random, members: &[Type]) -> Line {
    let mut results: Vec<Line> = members.iter().map(|m| expr_of(rng, m)).collect();
    for i in (1..results.len()).rev() {
        results.swap(i, rng.below(i + 1));
    }
    let otherwise = match rng.once_in(2) {
        true => results.pop(),
        false => None,
    };
    let flags = if otherwise.is_some() { "2" } else { "0" };
    let count = results.len().to_string();
    let mut children = Vec::new();
    for result in results {
        children.push(leaf("bool", &["0"]));
        children.push(result);
    }
    children.extend(otherwise);
    Line::new("case", &[flags, &count], children)
}
