//! Fixed answers of the reference in two text files, which a program with no Rust at hand can replay. The form is told in
//! vectors/README.md; the file of old type lines is made in old/vectors.rs.

use crate::calls::{sheet_call, sheet_report, unify_call};
use crate::cases::{fixed_pair_cases, fixed_sheet_cases, out_length, small_sheet, Case};
use crate::generate::sheets::tree;
use crate::generate::types::text_pair;
use crate::limits::{TYPESHEET_OUT_BYTES, UNIFY_OUT_BYTES, WORK_BYTES};
use crate::random::Random;
use std::fs;
use std::io;
use std::path::Path;

pub const SHEETS_FILE: &str = "sheets.txt";
pub const PAIRS_FILE: &str = "pairs.txt";

/// The seed of the random ones among the fixed answers.
const SEED: u64 = 1_100;

/// Longest random sheet among them, in bytes.
const RANDOM_SHEET_BYTES: usize = 2_000;

/// Whether a text is printable ASCII and LF.
pub(crate) fn is_plain_text(text: &[u8]) -> bool {
    text.iter()
        .all(|&b| b == b'\n' || (b' '..=b'~').contains(&b))
}

/// Whether the case's texts are.
fn is_plain(case: &Case) -> bool {
    match case {
        Case::Sheet { sheet, .. } => is_plain_text(sheet),
        Case::Pair { a, b, .. } => is_plain_text(a) && is_plain_text(b),
    }
}

/// One answer: what went in, and what came out.
#[derive(Debug, Clone, PartialEq, Eq)]
pub struct Answer {
    pub case_number: u32,
    pub first: u64,
    pub second: u64,
    pub output: Vec<u8>,
}

/// What the reference answers. The output is what the call writes at the front of the output: the report, the type line,
/// the two texts of 9, or nothing.
pub fn answer(case: &Case) -> Answer {
    match case {
        Case::Sheet { sheet, work, out } => {
            let (mut work, mut out) = (vec![1; *work], vec![1; *out]);
            let (case_number, first) = sheet_call(sheet, &mut work, &mut out);
            let len = if case_number == 0 { first as usize } else { 0 };
            out.truncate(len);
            Answer {
                case_number,
                first,
                second: 0,
                output: out,
            }
        }
        Case::Pair { a, b, work, out } => {
            let (mut work, mut out) = (vec![1; *work], vec![1; *out]);
            let (case_number, first, second) = unify_call(a, b, &mut work, &mut out);
            let len = match case_number {
                0 | 9 => (first + second) as usize,
                _ => 0,
            };
            out.truncate(len);
            Answer {
                case_number,
                first,
                second,
                output: out,
            }
        }
    }
}

fn write_case(case: &Case, text: &mut Vec<u8>) {
    stated_text(case, &answer(case), text);
}

/// Puts a case with this answer behind the text of a file.
pub(crate) fn stated_text(case: &Case, answer: &Answer, text: &mut Vec<u8>) {
    let (number, first, second) = (answer.case_number, answer.first, answer.second);
    let (header, parts) = match case {
        Case::Sheet { sheet, work, out } => (
            format!(
                "S {number} {first} {work} {out} {} {}\n",
                sheet.len(),
                answer.output.len()
            ),
            vec![sheet, &answer.output],
        ),
        Case::Pair { a, b, work, out } => (
            format!(
                "U {number} {first} {second} {work} {out} {} {} {}\n",
                a.len(),
                b.len(),
                answer.output.len()
            ),
            vec![a, b, &answer.output],
        ),
    };
    text.extend_from_slice(header.as_bytes());
    for part in parts {
        text.extend_from_slice(part);
        text.push(b'\n');
    }
}

/// One in how many of the fixed cases with such a name goes into the file.
fn share(name: &str) -> usize {
    match name {
        _ if name.starts_with("field ") => 5,
        _ if name.contains(" as ") => 16,
        _ if name.starts_with("depth ") => 3,
        _ if name.starts_with("all ") => 8,
        // As long as a sheet may be: two are enough.
        "9999 items" | "sheet before work area" => usize::MAX,
        _ => 1,
    }
}

/// The sheets: a share of the fixed ones, then random ones.
fn sheet_cases() -> Vec<Case> {
    let mut rng = Random::new(SEED);
    let mut cases: Vec<Case> = Vec::new();
    for (name, case) in fixed_sheet_cases() {
        if rng.once_in(share(&name)) && is_plain(&case) {
            cases.push(case);
        }
    }
    while cases.len() < 1_000 {
        let sheet = match rng.once_in(3) {
            true => tree(&mut rng).text(),
            false => small_sheet(&mut rng),
        };
        if sheet.len() > RANDOM_SHEET_BYTES {
            continue;
        }
        let report = sheet_report(&sheet).map_or(0, |r| r.len());
        let out = match rng.once_in(6) {
            true => out_length(&mut rng, report),
            false => TYPESHEET_OUT_BYTES,
        };
        let work = WORK_BYTES;
        let case = Case::Sheet { sheet, work, out };
        if is_plain(&case) {
            cases.push(case);
        }
    }
    cases
}

/// The pairs: a share of the fixed ones, then random ones.
fn pair_cases() -> Vec<Case> {
    let mut rng = Random::new(SEED);
    let mut cases: Vec<Case> = Vec::new();
    for (name, case) in fixed_pair_cases() {
        if rng.once_in(share(&name)) && is_plain(&case) {
            cases.push(case);
        }
    }
    while cases.len() < 900 {
        let (a, b) = text_pair(&mut rng);
        let case = Case::Pair {
            a,
            b,
            work: WORK_BYTES,
            out: UNIFY_OUT_BYTES,
        };
        if is_plain(&case) {
            cases.push(case);
        }
    }
    cases
}

/// The text of a file of cases.
pub fn file_text(cases: &[Case]) -> Vec<u8> {
    let mut text = Vec::new();
    for case in cases {
        write_case(case, &mut text);
    }
    text
}

/// Writes both files; gives how many cases each holds.
pub fn write(folder: &Path) -> io::Result<(usize, usize)> {
    let (sheets, pairs) = (sheet_cases(), pair_cases());
    fs::create_dir_all(folder)?;
    fs::write(folder.join(SHEETS_FILE), file_text(&sheets))?;
    fs::write(folder.join(PAIRS_FILE), file_text(&pairs))?;
    Ok((sheets.len(), pairs.len()))
}

/// The cases of a file, each with its stored answer.
pub fn read(text: &[u8]) -> Result<Vec<(Case, Answer)>, String> {
    let mut rest = text;
    let mut cases = Vec::new();
    while !rest.is_empty() {
        let end = rest
            .iter()
            .position(|&b| b == b'\n')
            .ok_or("a header without LF")?;
        let header = std::str::from_utf8(&rest[..end]).map_err(|e| e.to_string())?;
        rest = &rest[end + 1..];
        cases.push(read_case(header, &mut rest).ok_or(format!("header {header:?}"))?);
    }
    Ok(cases)
}

fn read_case(header: &str, rest: &mut &[u8]) -> Option<(Case, Answer)> {
    let (kind, numbers) = header.split_once(' ')?;
    let n: Vec<u64> = numbers
        .split(' ')
        .map(|t| t.parse().ok())
        .collect::<Option<Vec<u64>>>()?;
    match (kind, n.as_slice()) {
        ("S", &[number, first, work, out, sheet, output]) => {
            let sheet = take(rest, sheet)?;
            let output = take(rest, output)?;
            let case = Case::Sheet {
                sheet,
                work: work as usize,
                out: out as usize,
            };
            Some((case, stored(number, first, 0, output)))
        }
        ("U", &[number, first, second, work, out, a, b, output]) => {
            let a = take(rest, a)?;
            let b = take(rest, b)?;
            let output = take(rest, output)?;
            let case = Case::Pair {
                a,
                b,
                work: work as usize,
                out: out as usize,
            };
            Some((case, stored(number, first, second, output)))
        }
        _ => None,
    }
}

fn stored(number: u64, first: u64, second: u64, output: Vec<u8>) -> Answer {
    Answer {
        case_number: number as u32,
        first,
        second,
        output,
    }
}

/// So many bytes and the LF behind them.
pub(crate) fn take(rest: &mut &[u8], len: u64) -> Option<Vec<u8>> {
    let len = len as usize;
    if rest.len() <= len || rest[len] != b'\n' {
        return None;
    }
    let bytes = rest[..len].to_vec();
    *rest = &rest[len + 1..];
    Some(bytes)
}
