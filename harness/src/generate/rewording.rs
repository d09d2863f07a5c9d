//! Rewordings of a sheet (RULES 8, demand 3).

use super::exprs::other_case;
use super::table::Field;
use super::tree::{hex, Line, Tree};
use crate::random::Random;
use crate::reference::builtins::lookup;
use crate::type_line::read_hex;
use std::collections::{BTreeMap, BTreeSet};

#[derive(Debug, Clone, Copy, PartialEq, Eq)]
pub enum Kind {
    Literal,
    UnreadName,
    Renumber,
    Operands,
    Arms,
    Entries,
}

pub const KINDS: [Kind; 6] = [
    Kind::Literal,
    Kind::UnreadName,
    Kind::Renumber,
    Kind::Operands,
    Kind::Arms,
    Kind::Entries,
];

impl Kind {
    /// The three exchanges may reorder faults.
    pub fn is_exchange(self) -> bool {
        matches!(self, Kind::Operands | Kind::Arms | Kind::Entries)
    }
}

/// Does one rewording of this kind somewhere in the sheet; false if there is no place for it.
pub fn reword(rng: &mut Random, tree: &mut Tree, kind: Kind) -> bool {
    match kind {
        Kind::Renumber => {
            renumber(rng, tree);
            true
        }
        Kind::Literal => at_some_line(rng, tree, is_literal, new_literal),
        Kind::UnreadName => at_some_line(rng, tree, has_unread_name, new_name),
        Kind::Operands => at_some_line(rng, tree, |l| l.row.word == "bin", swap_operands),
        Kind::Arms => at_some_line(rng, tree, |l| arm_count(l) >= 2, swap_arms),
        Kind::Entries => at_some_line(rng, tree, has_distinct_entries, swap_entries),
    }
}

/// Changes one of the lines that qualify.
fn at_some_line(
    rng: &mut Random,
    tree: &mut Tree,
    qualifies: impl Fn(&Line) -> bool,
    change: impl Fn(&mut Random, &mut Line),
) -> bool {
    let mut count = 0;
    tree.visit(&mut |l| count += usize::from(qualifies(l)));
    if count == 0 {
        return false;
    }
    let chosen = rng.below(count);
    let mut at = 0;
    tree.visit_mut(&mut |l| {
        if qualifies(l) {
            if at == chosen {
                change(rng, l);
            }
            at += 1;
        }
    });
    true
}

fn is_literal(line: &Line) -> bool {
    matches!(line.row.word, "bool" | "int" | "flt" | "str")
}

fn new_literal(rng: &mut Random, line: &mut Line) {
    line.fields[0] = match line.row.word {
        "bool" => rng.below(2).to_string(),
        "int" => match rng.below(3) {
            0 => i64::MIN.to_string(),
            1 => rng.below(12).to_string(),
            _ => (rng.next_u64() as i64).to_string(),
        },
        "flt" => format!("{:016x}", rng.next_u64()),
        _ => any_name(rng),
    };
}

fn any_name(rng: &mut Random) -> String {
    let len = match rng.below(12) {
        0 => 255,
        1 => rng.below(256),
        _ => rng.below(6),
    };
    hex((0..len)
        .map(|_| b'a' + rng.below(26) as u8)
        .collect::<Vec<u8>>())
}

/// The places of names that are not read, present ones only; a function's name always counts.
fn unread_places(line: &Line) -> Vec<usize> {
    let unread = |(i, field): (usize, &Field)| match field {
        Field::Unread | Field::Function => Some(i),
        Field::Alias if line.fields[i] != "-" => Some(i),
        _ => None,
    };
    line.row
        .fields
        .iter()
        .enumerate()
        .filter_map(unread)
        .collect()
}

fn has_unread_name(line: &Line) -> bool {
    !unread_places(line).is_empty()
}

fn new_name(rng: &mut Random, line: &mut Line) {
    let place = *rng.pick(&unread_places(line));
    line.fields[place] = match line.row.fields[place] {
        Field::Function => new_function(rng, &line.fields[place]),
        _ => any_name(rng),
    };
}

/// One unlisted name for another, or a built-in's letter case.
fn new_function(rng: &mut Random, old: &str) -> String {
    let name = read_hex(old.as_bytes()).unwrap_or_default();
    if lookup(&name).is_some() {
        return hex(other_case(rng, &String::from_utf8_lossy(&name)));
    }
    loop {
        let new = any_name(rng);
        if lookup(&read_hex(new.as_bytes()).unwrap_or_default()).is_none() {
            return new;
        }
    }
}

/// The places of the variables that are present.
fn var_places(line: &Line) -> Vec<usize> {
    let var = |(i, field): (usize, &Field)| match field {
        Field::Var => Some(i),
        Field::OptionalVar if line.fields[i] != "-" => Some(i),
        _ => None,
    };
    line.row.fields.iter().enumerate().filter_map(var).collect()
}

/// Takes every variable through one map that keeps different ones different; the `b` lines go back in ascending order.
fn renumber(rng: &mut Random, tree: &mut Tree) {
    let mut vars: BTreeSet<u32> = tree.bindings.iter().map(|b| b.0).collect();
    tree.visit(&mut |l| {
        vars.extend(
            var_places(l)
                .iter()
                .filter_map(|&i| l.fields[i].parse::<u32>().ok()),
        );
    });
    let map = one_to_one(rng, &vars);
    for binding in &mut tree.bindings {
        binding.0 = map[&binding.0];
    }
    tree.bindings.sort_unstable();
    tree.visit_mut(&mut |l| {
        for i in var_places(l) {
            if let Some(new) = l.fields[i].parse::<u32>().ok().and_then(|v| map.get(&v)) {
                l.fields[i] = new.to_string();
            }
        }
    });
}

fn one_to_one(rng: &mut Random, vars: &BTreeSet<u32>) -> BTreeMap<u32, u32> {
    let mut taken: BTreeSet<u32> = BTreeSet::new();
    let mut map = BTreeMap::new();
    for &v in vars {
        let mut to = match rng.below(4) {
            0 => rng.next_u64() as u32,
            1 => u32::MAX - rng.below(3) as u32,
            _ => rng.below(2 * vars.len()) as u32,
        };
        while !taken.insert(to) {
            to = rng.next_u64() as u32;
        }
        map.insert(v, to);
    }
    map
}

fn swap_operands(_: &mut Random, line: &mut Line) {
    line.children.swap(0, 1);
}

fn arm_count(line: &Line) -> usize {
    match line.row.word {
        "case" => line.fields[1].parse().unwrap_or(0),
        _ => 0,
    }
}

/// Two arms, moved whole.
fn swap_arms(rng: &mut Random, line: &mut Line) {
    let first = usize::from(line.fields[0] == "1" || line.fields[0] == "3");
    let (i, j) = two(rng, arm_count(line));
    line.children.swap(first + 2 * i, first + 2 * j);
    line.children.swap(first + 2 * i + 1, first + 2 * j + 1);
}

fn has_distinct_entries(line: &Line) -> bool {
    if line.row.word != "map" || line.children.len() < 2 {
        return false;
    }
    let names: BTreeSet<&String> = line.children.iter().map(|c| &c.fields[0]).collect();
    names.len() == line.children.len()
}

fn swap_entries(rng: &mut Random, line: &mut Line) {
    let (i, j) = two(rng, line.children.len());
    line.children.swap(i, j);
}

/// Two different numbers below `count`.
fn two(rng: &mut Random, count: usize) -> (usize, usize) {
    let i = rng.below(count);
    (i, (i + rng.between(1, count - 1)) % count)
}
