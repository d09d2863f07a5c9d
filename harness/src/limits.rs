//! The limits of docs/RULES.md, each once.

/// Longest sheet, in bytes.
pub const SHEET_BYTES: usize = 65_535;
/// The work area's length.
pub const WORK_BYTES: usize = 65_536;
/// The output buffer of the program `typesheet`.
pub const TYPESHEET_OUT_BYTES: usize = 65_536;
/// Shortest output for `unify`.
pub const UNIFY_OUT_BYTES: usize = 2_048;
/// Longest type line, in bytes.
pub const TYPE_BYTES: usize = 1_024;
/// Deepest nesting of a type.
pub const TYPE_NESTING: usize = 32;
/// Longest name, in bytes.
pub const NAME_BYTES: usize = 255;
/// Greatest count.
pub const COUNT: u64 = 9_999;
/// Greatest variable.
pub const VAR: u64 = u32::MAX as u64;
/// Deepest expression.
pub const DEPTH: usize = 24;
/// Longest old type line, in bytes (RULES 10.3, ask 11).
pub const OLD_BYTES: usize = 4_096;
/// Shortest output for a regular line (RULES 10.3, ask 11).
pub const REGULAR_OUT_BYTES: usize = 1_024;
