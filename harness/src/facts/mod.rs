//! The definitions of crates/semantics against the reference: random small calls with the reference's answers become facts
//! in a scratch repository, and the checker computes them.

mod antt;
mod draw;
mod scratch;

pub use antt::{bytes, readable, record, Left, Settled};
pub use draw::{Drawer, SMALL_BYTES, SMALL_LINES};

use crate::cases::Case;
use crate::differential::show_case;
use crate::generate::table::ROWS;
use crate::shrink::{smaller, weight};
use scratch::{Refusal, Scratch};
use std::collections::BTreeSet;
use std::path::Path;
use std::time::{Duration, Instant};

/// Facts of one module, which are one computation.
const MODULE_FACTS: usize = 45;

/// Facts that are checked apart in one run of the checker.
const BATCH: usize = 100;

/// How long smaller facts are looked for.
const LOOKING: Duration = Duration::from_secs(300);

/// A call with where it came from, and whether the fact names every byte of the work area too. (Otherwise it speaks of the
/// definitions' own zeros there.)
#[derive(Debug, Clone)]
pub struct Fact {
    pub case: Case,
    pub from: String,
    pub whole: bool,
}

/// Has the checker compute so many sheet calls and unify calls; true if it admits all. The scratch repository is left in
/// `keep`; without it, only if something is refused.
pub fn run(sheets: u64, pairs: u64, seed: u64, keep: Option<&Path>) -> Result<bool, String> {
    let version = scratch::version()?;
    let start = Instant::now();
    let drawer = Drawer::new();
    let mut facts = drawer.sheets(sheets, seed);
    show_sheets(&facts);
    let drawn = drawer.pairs(pairs, seed);
    show_pairs(&drawn);
    facts.extend(drawn);

    let mut scratch = Scratch::new(seed, keep)?;
    let groups: Vec<&[Fact]> = facts.chunks(MODULE_FACTS).collect();
    let modules = groups.iter().map(|group| antt::list_module(group));
    scratch.write_crate("facts", modules)?;
    println!(
        "{} facts in {} modules, {version}",
        facts.len(),
        groups.len()
    );
    let checked = scratch.check("facts")?;
    let seconds = start.elapsed().as_secs_f64();
    if checked.admitted {
        println!("all {} facts admitted, {seconds:.1} s", facts.len());
        scratch.finish(keep.is_some());
        return Ok(true);
    }
    let refused = checked.errors.len();
    println!("NOT ADMITTED: {refused} modules refused, {seconds:.1} s");
    if refused == 0 {
        println!("{}", checked.output);
    }
    for error in &checked.errors {
        if explain(&mut scratch, groups[error.module], error)? {
            break;
        }
    }
    println!("the scratch repository is {}", scratch.folder().display());
    Ok(false)
}

/// Checks the facts of a refused module one by one, and shows the first that differs as small as it can be found; true if
/// one does.
fn explain(scratch: &mut Scratch, group: &[Fact], whole: &Refusal) -> Result<bool, String> {
    let errors = check_singly(scratch, group)?;
    if errors.is_empty() {
        let text = &whole.text;
        println!(
            "a module is refused, and no fact of it alone; of the module the checker says:\n{text}"
        );
    }
    for error in &errors {
        let verdict = match error.out_of_steps {
            true => "no verdict, out of steps",
            false => "refused",
        };
        println!("{verdict}: {}", group[error.module].from);
    }
    let Some(first) = errors.iter().find(|e| !e.out_of_steps) else {
        return Ok(false);
    };
    let first = &group[first.module];
    println!("DIFFERENCE ({})", first.from);
    let least = smallest(scratch, first)?.case;
    show_case(&least);
    println!("reference: {}", Settled::of(&least));
    scratch.write_crate("seen", [antt::seen_module(&least)])?;
    println!(
        "definition (`rt check` in crates/seen of the scratch repository), where the message says 'found':"
    );
    for error in scratch.check("seen")?.errors {
        println!("{}", readable(&error.text));
    }
    Ok(true)
}

/// What the checker refuses of these facts, each a module of its own.
fn check_singly(scratch: &mut Scratch, facts: &[Fact]) -> Result<Vec<Refusal>, String> {
    let modules = facts.chunks(1).map(antt::list_module);
    scratch.write_crate("single", modules)?;
    Ok(scratch.check("single")?.errors)
}

/// A smallest fact found that is refused, beginning with one that is.
fn smallest(scratch: &mut Scratch, fact: &Fact) -> Result<Fact, String> {
    let mut best = fact.clone();
    let start = Instant::now();
    // To name every byte of the work area takes most of the time, and seldom matters.
    let short = Fact {
        whole: false,
        ..best.clone()
    };
    let errors = check_singly(scratch, std::slice::from_ref(&short))?;
    if errors.iter().any(|e| !e.out_of_steps) {
        best = short;
    }
    'smaller: loop {
        println!("looking for less than {} bytes", weight(&best.case));
        let mut tries: Vec<Fact> = smaller(&best.case)
            .filter(|case| weight(case) < weight(&best.case))
            .map(|case| Fact {
                case,
                ..best.clone()
            })
            .collect();
        tries.sort_by_key(|fact| weight(&fact.case));
        for batch in tries.chunks(BATCH) {
            if start.elapsed() > LOOKING {
                return Ok(best);
            }
            let errors = check_singly(scratch, batch)?;
            if let Some(error) = errors.iter().find(|e| !e.out_of_steps) {
                best = batch[error.module].clone();
                continue 'smaller;
            }
        }
        return Ok(best);
    }
}

/// How many calls ended with each number.
fn numbers<'a>(facts: impl Iterator<Item = &'a Fact>) -> [usize; 10] {
    let mut numbers = [0; 10];
    for fact in facts {
        numbers[Settled::of(&fact.case).number as usize % 10] += 1;
    }
    numbers
}

fn show_sheets(facts: &[Fact]) {
    let mut words = BTreeSet::new();
    let mut faults = BTreeSet::new();
    for fact in facts {
        let settled = Settled::of(&fact.case);
        if let (Case::Sheet { sheet, .. }, Left::Wrote(report)) = (&fact.case, &settled.left) {
            words.extend(sheet.split(|&b| b == b'\n').map(first_field));
            let lines = report.split(|&b| b == b'\n');
            let lines = lines.filter_map(|line| line.strip_prefix(b"F,"));
            faults.extend(lines.map(|line| first_field(line).to_vec()));
        }
    }
    let known = ROWS.iter().filter(|r| words.contains(r.word.as_bytes()));
    println!(
        "{} different sheets, by number 0 to 9: {:?}; accepted ones have {} of the {} words and {} kinds of faults",
        facts.len(),
        numbers(facts.iter()),
        known.count(),
        ROWS.len(),
        faults.len()
    );
}

fn show_pairs(facts: &[Fact]) {
    let mut kinds = BTreeSet::new();
    for fact in facts {
        if let (Case::Pair { a, b, .. }, 0 | 6 | 9) = (&fact.case, Settled::of(&fact.case).number) {
            kinds.insert((a[0], b[0]));
        }
    }
    println!(
        "{} different pairs, by number 0 to 9: {:?}; read ones have {} of the 256 pairs of first letters",
        facts.len(),
        numbers(facts.iter()),
        kinds.len()
    );
}

fn first_field(line: &[u8]) -> &[u8] {
    line.split(|&b| b == b',').next().unwrap_or(line)
}
