//! Why a call has no answer.

use std::error::Error;
use std::fmt;

/// The numbers of refusals, by the names that `include/cyrs.h` has for them; a test compares the two.
pub mod number {
    /// The sheet is longer than [`SHEET_LIMIT`](crate::limits::SHEET_LIMIT).
    pub const SHEET_LENGTH: u32 = 1;
    /// The work area has not [`WORK_SIZE`](crate::limits::WORK_SIZE) bytes.
    pub const WORK: u32 = 2;
    /// The store has not [`STORE_SIZE`](crate::limits::STORE_SIZE) bytes, or not the form.
    pub const STORE: u32 = 2;
    /// A line is badly written, not allowed where it stands, or missing.
    pub const LINE: u32 = 3;
    /// A field is outside its range.
    pub const RANGE: u32 = 4;
    /// An expression is deeper than [`DEPTH_LIMIT`](crate::limits::DEPTH_LIMIT).
    pub const DEPTH: u32 = 5;
    /// A type is longer than [`TYPE_LIMIT`](crate::limits::TYPE_LIMIT) or nested deeper than
    /// [`NESTING_LIMIT`](crate::limits::NESTING_LIMIT).
    pub const TYPE_SIZE: u32 = 6;
    /// The output is too short.
    pub const OUTPUT: u32 = 7;
    /// A text is no type line.
    pub const TYPE_LINE: u32 = 8;
    /// The types do not unify.
    pub const MISMATCH: u32 = 9;
    /// A text is no old type line.
    pub const OLD_LINE: u32 = 12;
    /// The live types and the new one would take more than [`STORE_ROOM`](crate::limits::STORE_ROOM).
    pub const STORE_ROOM: u32 = 13;
    /// A new number would pass [`STORE_NUMBERS`](crate::limits::STORE_NUMBERS), or a use
    /// [`STORE_USES`](crate::limits::STORE_USES).
    pub const STORE_NUMBERS: u32 = 14;
    /// The released or looked-up number is not live.
    pub const NOT_LIVE: u32 = 15;
}

/// A refused call: its number and its place. As text it is a sentence.
///
/// ```
/// let refusal = cyrs::check_sheet(b"cyrs,1\nwhe\nbool,2\nend\n").unwrap_err();
/// assert_eq!((refusal.number(), refusal.place()), (cyrs::number::RANGE, 3));
/// assert_eq!(refusal.to_string(), "refusal 4 at line 3: a field is outside its range");
/// ```
#[derive(Debug, Clone, Copy, PartialEq, Eq, Hash)]
pub struct Refusal {
    number: u32,
    place: u64,
}

impl Refusal {
    /// The refusal of a call of [`lent`](crate::lent), by its number (not 0) and its first returned number.
    pub const fn new(number: u32, place: u64) -> Self {
        Refusal { number, place }
    }

    /// The number of the cause, one of [`number`].
    pub const fn number(&self) -> u32 {
        self.number
    }

    /// The line of the sheet, from 1, for 3 to 6; which text, for 8; 0 if there is no place.
    pub const fn place(&self) -> u64 {
        self.place
    }

    /// The cause in words.
    pub const fn cause(&self) -> &'static str {
        match self.number {
            number::SHEET_LENGTH => "the sheet has more than 65,535 bytes",
            number::WORK => "the work area or the store has not 65,536 bytes, or the store has not the form of one",
            number::LINE => "the line is badly written, not allowed where it stands, or missing",
            number::RANGE => "a field is outside its range",
            number::DEPTH => "an expression is deeper than 24",
            number::TYPE_SIZE => "a type is longer than 1,024 bytes or nested deeper than 32",
            number::OUTPUT => "the output is too short",
            number::TYPE_LINE => "the text is no type line",
            number::MISMATCH => "the two types do not unify",
            number::OLD_LINE => "the text is no old type line",
            number::STORE_ROOM => "the live types and the new one would take more than 65,528 bytes of the store",
            number::STORE_NUMBERS => "a new number would pass 65,535, or the uses of a type 4,294,967,295",
            number::NOT_LIVE => "no live type has this number",
            _ => "a cause that this crate does not know",
        }
    }
}

impl fmt::Display for Refusal {
    fn fmt(&self, f: &mut fmt::Formatter<'_>) -> fmt::Result {
        write!(f, "refusal {}", self.number)?;
        match (self.number, self.place) {
            (_, 0) | (number::MISMATCH, _) => {}
            (number::TYPE_LINE, text) => write!(f, " of text {text}")?,
            (_, line) => write!(f, " at line {line}")?,
        }
        write!(f, ": {}", self.cause())
    }
}

impl Error for Refusal {}
