//! Old type lines made regular (RULES 10.3, ask 11): read, made, their meaning, the call, and its comparison with the library.

pub mod bench;
pub mod call;
pub mod compare;
pub mod made;
pub mod meaning;
pub mod read;
pub mod self_check;
pub mod shrink;
pub mod tree;
pub mod vectors;
