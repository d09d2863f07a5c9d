//! Fixed cases on both sides of every limit, each with what RULES say of it.

mod buffers;
mod depths;
mod fields;
mod pairs;
mod sizes;

pub(super) use fields::texts;
pub use pairs::pair_probes;

use super::tree::Line;
use crate::limits::{TYPESHEET_OUT_BYTES, WORK_BYTES};

/// A sheet call with its number, and its place if it is refused.
#[derive(Debug, Clone)]
pub struct SheetProbe {
    pub name: String,
    pub sheet: Vec<u8>,
    pub work: usize,
    pub out: usize,
    pub number: u32,
    pub place: u64,
}

/// A unify call with its number, and its place if it is an 8.
#[derive(Debug, Clone)]
pub struct PairProbe {
    pub name: String,
    pub a: Vec<u8>,
    pub b: Vec<u8>,
    pub work: usize,
    pub out: usize,
    pub number: u32,
    pub place: u64,
}

fn probe(name: impl Into<String>, sheet: Vec<u8>, number: u32, place: u64) -> SheetProbe {
    SheetProbe {
        name: name.into(),
        sheet,
        work: WORK_BYTES,
        out: TYPESHEET_OUT_BYTES,
        number,
        place,
    }
}

/// All probes of the sheet call.
pub fn sheet_probes() -> Vec<SheetProbe> {
    let mut probes = Vec::new();
    buffers::buffers(&mut probes);
    buffers::endings(&mut probes);
    fields::field_probes(&mut probes);
    fields::bounds(&mut probes);
    fields::places(&mut probes);
    depths::depths(&mut probes);
    sizes::sizes(&mut probes);
    sizes::orders(&mut probes);
    probes
}

/// The first expression of a returning sheet without bindings stands at this line.
const TOP: u64 = 4;

fn expr(word: &str, fields: &[&str], children: Vec<Line>) -> Line {
    Line::new(word, fields, children)
}

fn leaf(word: &str, fields: &[&str]) -> Line {
    Line::new(word, fields, Vec::new())
}
