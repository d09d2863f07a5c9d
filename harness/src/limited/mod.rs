//! The reference with the size tests of RULES 4.7 put in where it says, in the Rust's order of evaluation.
//! It gives the plain form's answers, or refusal 6 with its line.

pub mod infer;
pub mod size;
pub mod unify;
