//! The differential harness: the Rust reference with the sheets, limits and refusals of docs/RULES.md around it, generators,
//! fixed answers, and the comparison with the static library.

pub mod bench;
pub mod calls;
pub mod cases;
pub mod catalogue;
pub mod differential;
pub mod exchange;
pub mod external;
pub mod facts;
pub mod generate;
pub mod library;
pub mod limited;
pub mod limits;
pub mod old;
pub mod random;
pub mod reference;
pub mod report;
pub mod self_check;
pub mod sheet;
pub mod shrink;
pub mod stated;
pub mod type_line;
pub mod validation;
pub mod vectors;
