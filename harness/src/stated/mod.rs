//! Cases whose answers are stated here, by RULES and not by the reference: every rule, and both sides of every limit. They are
//! written to a file of vectors (vectors/README.md), which the program `replay` holds to the definitions.

pub mod limits;
pub mod long;
pub mod sizes;
pub mod texts;
pub mod walk;

use crate::cases::Case;
use crate::vectors::{stated_text, Answer};
use std::fs;
use std::io;
use std::path::Path;

pub const STATED_FILE: &str = "stated.txt";

/// A call and the answer that RULES gives it.
#[derive(Debug, Clone, PartialEq, Eq)]
pub struct Stated {
    pub case: Case,
    pub answer: Answer,
}

/// All of them, in the order of the file.
pub fn stated_cases() -> Vec<Stated> {
    [
        walk::cases(),
        limits::cases(),
        sizes::cases(),
        long::cases(),
    ]
    .concat()
}

/// The text of the file.
pub fn file_text() -> Vec<u8> {
    let mut text = Vec::new();
    for stated in stated_cases() {
        stated_text(&stated.case, &stated.answer, &mut text);
    }
    text
}

/// Writes the file; gives how many cases it holds.
pub fn write(folder: &Path) -> io::Result<usize> {
    fs::create_dir_all(folder)?;
    fs::write(folder.join(STATED_FILE), file_text())?;
    Ok(stated_cases().len())
}
