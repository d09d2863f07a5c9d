//! A case for a call: its inputs and the lengths of its buffers, from a seed or from a probe.

use crate::calls::sheet_report;
use crate::generate::damage::damaged;
use crate::generate::exhaustive;
use crate::generate::hostile::hostile;
use crate::generate::probes::{pair_probes, sheet_probes, PairProbe, SheetProbe};
use crate::generate::sheets::{small_tree, tree};
use crate::generate::types::text_pair;
use crate::limits::{TYPESHEET_OUT_BYTES, UNIFY_OUT_BYTES, WORK_BYTES};
use crate::random::Random;

/// One call.
#[derive(Debug, Clone, PartialEq, Eq, Hash)]
pub enum Case {
    Sheet {
        sheet: Vec<u8>,
        work: usize,
        out: usize,
    },
    Pair {
        a: Vec<u8>,
        b: Vec<u8>,
        work: usize,
        out: usize,
    },
}

/// A sheet, damaged in two of five cases.
pub fn random_sheet(rng: &mut Random) -> Vec<u8> {
    let sheet = tree(rng).text();
    match rng.below(5) {
        0 | 1 => damaged(rng, &sheet),
        _ => sheet,
    }
}

/// A small sheet, damaged in two of five cases.
pub fn small_sheet(rng: &mut Random) -> Vec<u8> {
    let sheet = small_tree(rng).text();
    match rng.below(5) {
        0 | 1 => damaged(rng, &sheet),
        _ => sheet,
    }
}

/// A sheet for validation, hostile in half of the cases.
pub fn check_sheet(rng: &mut Random) -> Vec<u8> {
    match rng.once_in(2) {
        true => hostile(rng),
        false => random_sheet(rng),
    }
}

pub(crate) fn work_length(rng: &mut Random) -> usize {
    match rng.below(200) {
        0 => 0,
        1 => WORK_BYTES - 1,
        2 => WORK_BYTES + 1,
        3 => rng.below(WORK_BYTES),
        _ => WORK_BYTES,
    }
}

/// An output for a report of this length: large, exactly full, one short, or anything.
pub fn out_length(rng: &mut Random, report: usize) -> usize {
    match rng.below(12) {
        0 => report,
        1 => report.saturating_sub(1),
        2 => report + 1,
        3 => rng.below(report + 40),
        4 => 0,
        5 => TYPESHEET_OUT_BYTES,
        _ => report + 64 + rng.below(4000),
    }
}

/// A random sheet call.
pub fn sheet_case(rng: &mut Random) -> Case {
    let sheet = random_sheet(rng);
    let report = sheet_report(&sheet).map_or(0, |r| r.len());
    Case::Sheet {
        sheet,
        work: work_length(rng),
        out: out_length(rng, report),
    }
}

/// A random unify call.
pub fn pair_case(rng: &mut Random) -> Case {
    let (a, b) = text_pair(rng);
    pair_call(rng, a, b)
}

/// A unify call on two texts: mostly with buffers that earn neither 2 nor 7.
pub fn pair_call(rng: &mut Random, a: Vec<u8>, b: Vec<u8>) -> Case {
    let out = match rng.below(150) {
        0 => UNIFY_OUT_BYTES - 1,
        1 => 0,
        2 => rng.below(UNIFY_OUT_BYTES),
        3 => UNIFY_OUT_BYTES + 1,
        _ => UNIFY_OUT_BYTES,
    };
    Case::Pair {
        a,
        b,
        work: work_length(rng),
        out,
    }
}

/// The fixed sheet calls, with their names: all probes, and every construct over all kinds of operands.
pub fn fixed_sheet_cases() -> Vec<(String, Case)> {
    let probe = |p: SheetProbe| {
        let (sheet, work, out) = (p.sheet, p.work, p.out);
        (p.name, Case::Sheet { sheet, work, out })
    };
    let full = |(name, sheet)| {
        let (work, out) = (WORK_BYTES, TYPESHEET_OUT_BYTES);
        (name, Case::Sheet { sheet, work, out })
    };
    let probes = sheet_probes().into_iter().map(probe);
    probes
        .chain(exhaustive::sheets().into_iter().map(full))
        .collect()
}

/// The fixed unify calls, with their names: all probes, and all pairs of small types.
pub fn fixed_pair_cases() -> Vec<(String, Case)> {
    let probe = |p: PairProbe| {
        let (a, b, work, out) = (p.a, p.b, p.work, p.out);
        (p.name, Case::Pair { a, b, work, out })
    };
    let full = |(a, b)| {
        let (work, out) = (WORK_BYTES, UNIFY_OUT_BYTES);
        ("all pairs".to_string(), Case::Pair { a, b, work, out })
    };
    let probes = pair_probes().into_iter().map(probe);
    probes
        .chain(exhaustive::pairs().into_iter().map(full))
        .collect()
}
