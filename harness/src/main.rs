//! The commands of the harness; README.md tells of each.

use cyrs_harness::differential::{self, Kind};
use cyrs_harness::library::{self, Library, NOT_LINKED};
use cyrs_harness::{
    bench, catalogue, exchange, external, facts, old, self_check, stated, validation, vectors,
};
use std::env;
use std::path::Path;
use std::process::ExitCode;

const USAGE: &str = "usage, with the library linked (CYRS_LIB when this is built):
  cyrs-harness N [SEED]                  compare all its calls with the reference on all fixed and N random inputs
  cyrs-harness CALL N [SEED]             the same for one: sheets, pairs, validation, old or catalogue
  cyrs-harness exchange N [SEED]         unify N pairs without unions in both orders
  cyrs-harness quick                     all of it with 40,000 inputs, after a short check of the reference
  cyrs-harness bench                     measure the calls and the reference on the same inputs
  cyrs-harness bench counts FILE         the same, with the instructions that tools/instructions.sh counted
  cyrs-harness bench list                each family, each of its sides, and turns enough to count instructions
  cyrs-harness bench one FAMILY SIDE N   run one side (library, reference, bare) of a family N turns, with no measurement
with or without it:
  cyrs-harness self N [SEED]             check the reference alone, N rounds
  cyrs-harness vectors DIR               write the fixed answers into DIR
  cyrs-harness typesheet PATH N [SEED]   compare a typesheet program on all fixed and N random sheets
  cyrs-harness facts N M [SEED] [--keep DIR]
                                         have the checker compute N sheets and M pairs by the definitions";

/// Seeds count up from here unless one is given.
const SEED: u64 = 1;

fn main() -> ExitCode {
    let args: Vec<String> = env::args().skip(1).collect();
    let args: Vec<&str> = args.iter().map(String::as_str).collect();
    match command(&args) {
        Ok(true) => ExitCode::SUCCESS,
        Ok(false) => ExitCode::FAILURE,
        Err(message) => {
            eprintln!("{message}");
            ExitCode::from(2)
        }
    }
}

fn command(args: &[&str]) -> Result<bool, String> {
    match args {
        ["quick"] => Ok(with_library(quick)),
        ["bench", rest @ ..] => measure(rest),
        ["self", rest @ ..] => {
            let (count, seed) = count_and_seed(rest)?;
            Ok(check_reference(count, seed))
        }
        ["vectors", folder] => write_vectors(folder),
        ["typesheet", path, rest @ ..] => {
            let (count, seed) = count_and_seed(rest)?;
            external::run(path, count, seed).map_err(|e| format!("{path}: {e}"))
        }
        ["facts", rest @ .., "--keep", folder] => check_facts(rest, Some(folder)),
        ["facts", rest @ ..] => check_facts(rest, None),
        [name, rest @ ..] => match comparison(name) {
            Some(run) => compare(run, rest),
            None => compare(differential::run, args),
        },
        [] => Err(USAGE.to_string()),
    }
}

/// Compares a library with the reference on all fixed inputs and so many random ones from a seed on; true if nothing differs.
type Comparison = fn(Library, u64, u64) -> bool;

/// The comparison of one call alone, by its name.
fn comparison(name: &str) -> Option<Comparison> {
    Some(match name {
        "sheets" => |l, count, seed| differential::run_cases(l, Kind::Sheets, count, seed),
        "pairs" => |l, count, seed| differential::run_cases(l, Kind::Pairs, count, seed),
        "validation" => |l, count, seed| validation::run(l.check, count, seed),
        "old" => |l, count, seed| old::compare::run(l.regular, count, seed),
        "catalogue" => |l, count, seed| catalogue::compare::run(l.store, count, seed),
        "exchange" => |l, count, seed| exchange::run(l.unify, count, seed),
        _ => return None,
    })
}

fn compare(run: Comparison, args: &[&str]) -> Result<bool, String> {
    let (count, seed) = count_and_seed(args)?;
    Ok(with_library(|library| run(library, count, seed)))
}

/// What needs the linked library; without one it fails, since nothing was compared.
fn with_library(run: impl FnOnce(Library) -> bool) -> bool {
    let Some(library) = library::linked() else {
        eprintln!("{NOT_LINKED}");
        return false;
    };
    run(library)
}

fn measure(args: &[&str]) -> Result<bool, String> {
    let Some(library) = library::linked() else {
        eprintln!("{NOT_LINKED}");
        return Ok(false);
    };
    match args {
        [] => bench::run(library, None),
        ["counts", file] => bench::run(library, Some(Path::new(file))),
        ["list"] => {
            bench::list(library);
            Ok(true)
        }
        ["one", family, side, turns] => bench::one(library, family, side, number(turns)?),
        _ => Err(USAGE.to_string()),
    }
}

fn number(text: &str) -> Result<u64, String> {
    text.replace('_', "").parse().map_err(|_| USAGE.to_string())
}

fn count_and_seed(args: &[&str]) -> Result<(u64, u64), String> {
    match args {
        [count] => Ok((number(count)?, SEED)),
        [count, seed] => Ok((number(count)?, number(seed)?)),
        _ => Err(USAGE.to_string()),
    }
}

fn quick(library: Library) -> bool {
    check_reference(5_000, SEED)
        && differential::run(library, 40_000, SEED)
        && exchange::run(library.unify, 20_000, SEED)
}

fn check_reference(count: u64, seed: u64) -> bool {
    match self_check::run(count, seed) {
        Ok(seen) => println!("the reference agrees with itself: {seen:#?}"),
        Err(message) => {
            println!("{message}");
            return false;
        }
    }
    true
}

fn check_facts(args: &[&str], keep: Option<&str>) -> Result<bool, String> {
    let Some((sheets, rest)) = args.split_first() else {
        return Err(USAGE.to_string());
    };
    let (pairs, seed) = count_and_seed(rest)?;
    facts::run(number(sheets)?, pairs, seed, keep.map(Path::new))
}

fn write_vectors(folder: &str) -> Result<bool, String> {
    let (sheets, pairs) =
        vectors::write(Path::new(folder)).map_err(|e| format!("{folder}: {e}"))?;
    println!("{sheets} sheets and {pairs} pairs written");
    let stated = stated::write(Path::new(folder)).map_err(|e| format!("{folder}: {e}"))?;
    println!("{stated} stated cases written");
    let lines = old::vectors::write(Path::new(folder)).map_err(|e| format!("{folder}: {e}"))?;
    println!("{lines} old type lines written");
    let stores =
        catalogue::vectors::write(Path::new(folder)).map_err(|e| format!("{folder}: {e}"))?;
    println!("{stores} store calls written");
    Ok(true)
}
