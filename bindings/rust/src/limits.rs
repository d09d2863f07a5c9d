//! The limits, in bytes unless it is said; a test compares them with `include/cyrs.h`.

/// Of a sheet.
pub const SHEET_LIMIT: usize = 65_535;
/// Of the work area.
pub const WORK_SIZE: usize = 65_536;
/// Of the output of [`lent::unify`](crate::lent::unify), at least.
pub const UNIFY_OUTPUT: usize = 2_048;
/// Of the output of [`lent::regular_line`](crate::lent::regular_line), at least.
pub const REGULAR_OUTPUT: usize = 1_024;
/// Of stack that a call needs, at most.
pub const STACK: usize = 65_536;
/// Of a name.
pub const NAME_LIMIT: usize = 255;
/// A count.
pub const COUNT_LIMIT: u64 = 9_999;
/// Nesting of expressions.
pub const DEPTH_LIMIT: usize = 24;
/// Of a type line.
pub const TYPE_LIMIT: usize = 1_024;
/// Nesting of a type.
pub const NESTING_LIMIT: usize = 32;
/// Of an old type line.
pub const OLD_LIMIT: usize = 4_096;
/// Of a store.
pub const STORE_SIZE: usize = 65_536;
/// Of a store, for its types: each takes its length and [`STORE_HEAD`].
pub const STORE_ROOM: usize = 65_528;
/// Of what a store keeps with each type.
pub const STORE_HEAD: usize = 8;
/// The last number that a store gives to a type.
pub const STORE_NUMBERS: u64 = 65_535;
/// Uses of one type.
pub const STORE_USES: u64 = 4_294_967_295;
