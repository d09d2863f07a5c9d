//! Sheets (RULES 2): read with refusals 3, 4 and 5, and printed.

mod fields;
mod print;
mod read;

pub use print::print_sheet;
pub use read::read_sheet;

use crate::reference::hir::{HirId, Statement};

/// A sheet that is free of causes 3, 4 and 5.
#[derive(Debug, Clone)]
pub struct Sheet {
    pub statement: Statement,
    /// The lines of the expressions, in order.
    pub lines: Vec<HirId>,
}

/// Refusal 3, 4 or 5 at a line.
#[derive(Debug, Clone, Copy, PartialEq, Eq)]
pub struct Refused {
    pub number: u32,
    pub line: HirId,
}
