//! Checks of the reference alone: the plain form against the one with size tests, reader against printer and table, the
//! order of types against the order of lines, demand 3 over lists of rewordings, unification from either side, and old lines.

use crate::calls::{sheet_report, unify_call};
use crate::cases::random_sheet;
use crate::exchange::{agrees, exchange_case};
use crate::generate::rewording::{reword, Kind, KINDS};
use crate::generate::sheets::{small_tree, tree};
use crate::generate::tree::Tree;
use crate::generate::types::{text_pair, type_pair};
use crate::limited::size::fits;
use crate::limited::unify::{unify as limited_unify, Stop};
use crate::old;
use crate::random::Random;
use crate::reference::unify::unify;
use crate::report::{plain_faults, plain_report};
use crate::sheet::{print_sheet, read_sheet};
use crate::type_line::{read_type_line, type_line};
use std::time::Instant;

/// What was seen, so that a run that checked little shows.
#[derive(Debug, Default, Clone, PartialEq, Eq)]
pub struct Seen {
    pub sheets: u64,
    pub sheets_read: u64,
    pub sheets_accepted: u64,
    pub pairs: u64,
    pub pairs_too_large: u64,
    pub chains: u64,
    pub chains_accepted: u64,
    /// Chains with a refused sheet between, and those of them whose two ends are accepted.
    pub middles_refused: u64,
    pub accepted_around_refused: u64,
    pub steps: [u64; 6],
    /// Pairs without unions that agree in both orders, by number.
    pub exchanged: [u64; 10],
    pub old: old::self_check::Seen,
}

/// Runs `count` rounds from a seed; the first thing that is wrong as an error.
pub fn run(count: u64, seed: u64) -> Result<Seen, String> {
    let mut seen = Seen::default();
    let start = Instant::now();
    for i in 0..count {
        let one = seed.wrapping_add(i);
        let mut rng = Random::new(one);
        let round = check_sheet(&random_sheet(&mut rng), &mut seen)
            .and_then(|()| check_pair(&mut rng, &mut seen))
            .and_then(|()| check_chain(&mut rng, &mut seen))
            .and_then(|()| check_exchange(&mut rng, &mut seen))
            .and_then(|()| old::self_check::round(&mut rng, &mut seen.old));
        round.map_err(|e| format!("seed {one}: {e}"))?;
        if (i + 1) % 50_000 == 0 {
            println!("{} of {count}, {} s", i + 1, start.elapsed().as_secs());
        }
    }
    Ok(seen)
}

fn shown(text: &[u8]) -> String {
    String::from_utf8_lossy(text).into_owned()
}

/// Reader, printer and table agree; both forms agree unless something is too large.
pub fn check_sheet(sheet: &[u8], seen: &mut Seen) -> Result<(), String> {
    seen.sheets += 1;
    let Ok(read) = read_sheet(sheet) else {
        return Ok(());
    };
    seen.sheets_read += 1;
    if print_sheet(&read.statement) != sheet {
        return Err(format!("printed otherwise than read:\n{}", shown(sheet)));
    }
    let tree = Tree::parse(sheet).map(|t| t.text());
    if tree.as_deref() != Some(sheet) {
        return Err(format!("the table reads it otherwise:\n{}", shown(sheet)));
    }
    let plain = plain_report(&read.statement);
    let faults: Vec<u8> = lines_of(&plain, b"F,").concat();
    if faults != plain_faults(&read.statement) {
        return Err(format!(
            "infer_types pushes other faults:\n{}",
            shown(sheet)
        ));
    }
    if let Ok(report) = sheet_report(sheet) {
        seen.sheets_accepted += 1;
        if report != plain {
            return Err(format!("the two forms differ:\n{}", shown(sheet)));
        }
        check_types(&report)?;
    }
    Ok(())
}

/// The lines of a report with this beginning, LF included.
fn lines_of<'a>(report: &'a [u8], start: &[u8]) -> Vec<&'a [u8]> {
    report
        .split_inclusive(|&b| b == b'\n')
        .filter(|l| l.starts_with(start))
        .collect()
}

/// Every type of a report is a type line: its unions have two members or more, ascending, none a union.
fn check_types(report: &[u8]) -> Result<(), String> {
    for line in lines_of(report, b"T,") {
        let text = &line[2..line.len() - 1];
        let ty = read_type_line(text).ok_or_else(|| format!("no type line: {}", shown(text)))?;
        if type_line(&ty) != text {
            return Err(format!("written otherwise: {}", shown(text)));
        }
    }
    Ok(())
}

/// Both forms of `unify` agree unless something is too large; lines are ordered as types are.
fn check_pair(rng: &mut Random, seen: &mut Seen) -> Result<(), String> {
    seen.pairs += 1;
    let (a, b) = type_pair(rng);
    let (x, y) = (type_line(&a), type_line(&b));
    let pair = || format!("{}\n{}", shown(&x), shown(&y));
    if a.cmp(&b) != x.cmp(&y) {
        return Err(format!("lines are ordered otherwise:\n{}", pair()));
    }
    for (ty, line) in [(&a, &x), (&b, &y)] {
        if read_type_line(line).as_ref() != Some(ty).filter(|t| fits(t)) {
            return Err(format!("type line read otherwise: {}", shown(line)));
        }
    }
    let plain = unify(&a, &b);
    match (limited_unify(&a, &b), &plain) {
        (Err(Stop::TooLarge), _) => seen.pairs_too_large += 1,
        (Ok(t), Ok(u)) if t == *u && fits(u) => {}
        (Err(Stop::Mismatch(m)), Err(n)) if m == *n => {}
        _ => return Err(format!("the two forms of unify differ:\n{}", pair())),
    }
    let (x, y) = text_pair(rng);
    for text in [x, y] {
        if read_type_line(&text).is_some_and(|ty| type_line(&ty) != text) {
            return Err(format!("no type line, but read as one: {}", shown(&text)));
        }
    }
    Ok(())
}

/// The unify call from either side (RULES 10.2, ask 7).
fn check_exchange(rng: &mut Random, seen: &mut Seen) -> Result<(), String> {
    let case = exchange_case(rng);
    let number = agrees(unify_call, &case)
        .ok_or_else(|| format!("the two orders of a pair do not agree: {case:?}"))?;
    seen.exchanged[number as usize] += 1;
    Ok(())
}

/// Demand 3 on a list of rewordings. Sheets over 65,535 bytes are held to it too.
fn check_chain(rng: &mut Random, seen: &mut Seen) -> Result<(), String> {
    let first = match rng.once_in(8) {
        true => tree(rng),
        false => small_tree(rng),
    };
    let before = first.text();
    if read_sheet(&before).is_err() {
        return Ok(());
    }
    let mut last = first;
    let mut kinds = Vec::new();
    let mut refused = false;
    let among = match rng.once_in(3) {
        true => &KINDS[3..],
        false => &KINDS[..],
    };
    for _ in 0..rng.below(9) {
        let kind = *rng.pick(among);
        if reword(rng, &mut last, kind) {
            kinds.push(kind);
            seen.steps[kind as usize] += 1;
        }
        if let Err((number, _)) = sheet_report(&last.text()) {
            refused = true;
            if number < 6 {
                return Err(format!(
                    "rewording leaves {number}:\n{}",
                    shown(&last.text())
                ));
            }
        }
    }
    seen.chains += 1;
    seen.middles_refused += u64::from(refused);
    let after = last.text();
    let (Ok(x), Ok(y)) = (sheet_report(&before), sheet_report(&after)) else {
        return Ok(());
    };
    seen.chains_accepted += 1;
    seen.accepted_around_refused += u64::from(refused);
    same_search(&kinds, &x, &y).map_err(|e| {
        format!(
            "{e} after {kinds:?}:\n{}\n{}",
            shown(&before),
            shown(&after)
        )
    })
}

/// Whether two reports are of one search.
fn same_search(kinds: &[Kind], x: &[u8], y: &[u8]) -> Result<(), String> {
    if !kinds.iter().any(|k| k.is_exchange()) && x != y {
        return Err("reports differ without an exchange".into());
    }
    let (x, y) = (groups(x), groups(y));
    if x != y {
        return Err("reports differ".into());
    }
    Ok(())
}

/// The T lines and the last line in order, each with the F lines before it, sorted.
fn groups(report: &[u8]) -> Vec<(Vec<&[u8]>, &[u8])> {
    let mut groups = Vec::new();
    let mut faults: Vec<&[u8]> = Vec::new();
    for line in report.split_inclusive(|&b| b == b'\n') {
        if line.starts_with(b"F,") {
            faults.push(line);
        } else {
            faults.sort_unstable();
            groups.push((std::mem::take(&mut faults), line));
        }
    }
    groups
}
