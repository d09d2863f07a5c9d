//! The reference: the Rust that RULES 1.1 names, its logic unchanged, over stand-ins for what is missing.

pub mod builtins;
pub mod hir;
pub mod infer;
pub mod stand_ins;
pub mod ty;
pub mod unify;
