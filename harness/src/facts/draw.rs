//! Random small calls: sheets and pairs that the checker computes in little time.

use super::Fact;
use crate::calls::sheet_report;
use crate::cases::{random_sheet, small_sheet, Case};
use crate::generate::exhaustive;
use crate::generate::probes::{pair_probes, sheet_probes};
use crate::generate::sheets::{deep, typed};
use crate::generate::types::text_pair;
use crate::limits::{UNIFY_OUT_BYTES, WORK_BYTES};
use crate::random::Random;
use std::collections::{BTreeMap, HashSet};

/// Most lines of a small sheet.
pub const SMALL_LINES: usize = 60;

/// Most bytes of a small sheet.
pub const SMALL_BYTES: usize = 2_000;

/// One in so many facts names every byte of the work area.
const WHOLE: usize = 9;

/// What is drawn from.
pub struct Drawer {
    /// By the number that RULES 7 says.
    probed_sheets: Vec<Vec<Vec<u8>>>,
    probed_pairs: Vec<(Vec<u8>, Vec<u8>)>,
    small_pairs: Vec<(Vec<u8>, Vec<u8>)>,
}

impl Default for Drawer {
    fn default() -> Self {
        Self::new()
    }
}

impl Drawer {
    pub fn new() -> Self {
        let mut probed: BTreeMap<u32, Vec<Vec<u8>>> = BTreeMap::new();
        for probe in sheet_probes() {
            if is_small(&probe.sheet) {
                probed.entry(probe.number).or_default().push(probe.sheet);
            }
        }
        Drawer {
            probed_sheets: probed.into_values().collect(),
            probed_pairs: pair_probes().into_iter().map(|p| (p.a, p.b)).collect(),
            small_pairs: exhaustive::pairs(),
        }
    }

    /// So many different sheet calls, each from a seed of its own: this one and the next ones.
    pub fn sheets(&self, count: u64, seed: u64) -> Vec<Fact> {
        different(count, seed, "sheet", |rng| self.sheet(rng))
    }

    /// So many different unify calls, each from a seed of its own: this one and the next ones.
    pub fn pairs(&self, count: u64, seed: u64) -> Vec<Fact> {
        different(count, seed, "pair", |rng| self.pair(rng))
    }

    fn sheet(&self, rng: &mut Random) -> Case {
        let kind = rng.below(16);
        let sheet = loop {
            let sheet = match kind {
                0..=4 => small_sheet(rng),
                5..=7 => random_sheet(rng),
                8..=10 => exhaustive::some(rng),
                11 | 12 => typed(rng).text(),
                13 => deep(rng).text(),
                _ => {
                    let probes = rng.pick(&self.probed_sheets);
                    rng.pick(probes).clone()
                }
            };
            if is_small(&sheet) {
                break sheet;
            }
        };
        let out = match (rng.below(4), sheet_report(&sheet)) {
            (0, Ok(report)) => out_length(rng, report.len()),
            (0, Err(_)) => *rng.pick(&[0, 1, 7, 8, 20, 100]),
            _ => UNIFY_OUT_BYTES,
        };
        Case::Sheet {
            sheet,
            work: work_length(rng),
            out,
        }
    }

    fn pair(&self, rng: &mut Random) -> Case {
        let (a, b) = match rng.below(10) {
            0 => rng.pick(&self.probed_pairs).clone(),
            1..=3 => rng.pick(&self.small_pairs).clone(),
            _ => text_pair(rng),
        };
        let out = match rng.below(50) {
            0 => UNIFY_OUT_BYTES - 1,
            1 => rng.below(UNIFY_OUT_BYTES),
            2 => UNIFY_OUT_BYTES + 1,
            _ => UNIFY_OUT_BYTES,
        };
        let work = work_length(rng);
        Case::Pair { a, b, work, out }
    }
}

fn work_length(rng: &mut Random) -> usize {
    match rng.below(200) {
        0 => rng.below(300),
        1 => *rng.pick(&[WORK_BYTES - 1, WORK_BYTES + 1]),
        _ => WORK_BYTES,
    }
}

/// An output that is exactly full, one short, or near that.
fn out_length(rng: &mut Random, report: usize) -> usize {
    match rng.below(4) {
        0 => report,
        1 => report.saturating_sub(1),
        2 => report + 1,
        _ => rng.below(report + 40),
    }
}

fn is_small(sheet: &[u8]) -> bool {
    let lines = sheet.iter().filter(|&&b| b == b'\n').count();
    sheet.len() <= SMALL_BYTES && lines <= SMALL_LINES
}

/// So many calls of which no two are the same, with their seeds.
fn different(
    count: u64,
    seed: u64,
    what: &str,
    mut draw: impl FnMut(&mut Random) -> Case,
) -> Vec<Fact> {
    let mut seen = HashSet::new();
    let mut facts = Vec::new();
    let mut seed = seed;
    while (facts.len() as u64) < count {
        let case = draw(&mut Random::new(seed));
        if seen.insert(case.clone()) {
            let from = format!("{what} of seed {seed}");
            let whole = facts.len() % WHOLE == 0;
            facts.push(Fact { case, from, whole });
        }
        seed = seed.wrapping_add(1);
    }
    facts
}
