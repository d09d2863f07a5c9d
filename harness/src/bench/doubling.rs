//! Sheets of one kind in sizes that double, to see how time and instructions grow.

use super::cases::one_case;
use super::sheets::{Kind, Sheets};
use super::statements::{list, mixed_clauses, numbers_and_nulls, variables};
use crate::generate::tree::Tree;
use crate::limits::SHEET_BYTES;

/// How often the sizes double.
const DOUBLINGS: u32 = 4;
/// The bytes of a block of clauses: 32 of them fit in a sheet.
const BLOCK_BYTES: usize = 2_040;
const MOST_BLOCKS: usize = SHEET_BYTES / BLOCK_BYTES;
const MOST_VARIABLES: usize = 2_600;
const MOST_ITEMS: usize = 9_600;
/// One answer less than fit in a union.
const MOST_ANSWERS: usize = 112;

/// The same mixed clauses over and over.
fn blocks(count: usize) -> Sheets {
    let block = mixed_clauses(BLOCK_BYTES);
    let clauses = block.clauses.iter().cycle();
    let tree = Tree {
        clauses: clauses.take(count * block.clauses.len()).cloned().collect(),
        bindings: Vec::new(),
    };
    vec![tree.text()]
}

/// One kind, from a sixteenth of the most to the most.
fn sizes(name: &str, most: usize, make: fn(usize) -> Sheets) -> impl Iterator<Item = Kind> {
    let name = name.to_string();
    (0..=DOUBLINGS).map(move |step| {
        let count = most >> (DOUBLINGS - step);
        Kind::new(format!("{name}-{count}"), move || make(count)).doubling(step > 0)
    })
}

pub fn kinds() -> Vec<Kind> {
    let bound = |count| variables(count as u32, 7);
    let items = |count| list(count, &numbers_and_nulls());
    let typing = sizes("bound-variables", MOST_VARIABLES, bound)
        .chain(sizes("list-items", MOST_ITEMS, items))
        .chain(sizes("case-answers", MOST_ANSWERS, one_case));
    sizes("blocks", MOST_BLOCKS, blocks)
        .chain(typing.map(Kind::for_typing))
        .collect()
}
