//! Seeded generators: sheets of every kind, damaged and hostile ones, both sides of every limit, type texts and pairs, rewordings.

pub mod damage;
pub mod exhaustive;
pub mod exprs;
pub mod hostile;
pub mod old;
pub mod probes;
pub mod rewording;
pub mod sheets;
pub mod table;
pub mod tree;
pub mod types;
pub mod union_free;
