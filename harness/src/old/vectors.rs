//! Fixed answers of the call that makes old lines regular, in a text file of their own (vectors/README.md).

use super::call::regular_call;
use super::compare::OldCase;
use crate::generate::old::{old_pair, old_probes, old_text, small_lines, OldProbe, EVERY_LETTER};
use crate::limits::OLD_BYTES;
use crate::random::Random;
use crate::vectors::{is_plain_text, take, Answer};
use std::fs;
use std::io;
use std::path::Path;

pub const OLD_FILE: &str = "old.txt";

/// The seed of the random ones among them.
const SEED: u64 = 1_100;

/// Longest line of a fixed case among them, in bytes.
const LINE_BYTES: usize = 5_000;

/// Longest random line among them, in bytes.
const RANDOM_LINE_BYTES: usize = 500;

/// How many cases there are, or one more.
const CASES: usize = 700;

/// What the reference answers.
pub fn answer(case: &OldCase) -> Answer {
    let (mut work, mut out) = (vec![1; case.work], vec![1; case.out]);
    let (case_number, first) = regular_call(&case.line, &mut work, &mut out);
    out.truncate(first as usize);
    Answer {
        case_number,
        first,
        second: 0,
        output: out,
    }
}

/// One in how many probes like this goes into the file.
fn share(probe: &OldProbe) -> usize {
    let beside_limit = [OLD_BYTES, OLD_BYTES + 1].contains(&probe.line.len());
    match probe.name {
        "length" | "length and result" if !beside_limit => usize::MAX,
        "length far over" if probe.line.len() > LINE_BYTES => usize::MAX,
        "nesting" | "nesting inside" => 3,
        "result" | "result in other words" | "12 behind a large part" => 4,
        _ => 1,
    }
}

/// The cases: a share of the probes, small lines, then random ones.
pub fn old_cases() -> Vec<OldCase> {
    let mut rng = Random::new(SEED);
    let mut cases: Vec<OldCase> = Vec::new();
    for probe in old_probes() {
        if rng.once_in(share(&probe)) && is_plain_text(&probe.line) {
            let (line, work, out) = (probe.line, probe.work, probe.out);
            cases.push(OldCase { line, work, out });
        }
    }
    cases.push(OldCase::of(EVERY_LETTER.into()));
    cases.extend(small_lines(2).into_iter().map(OldCase::of));
    while cases.len() < CASES {
        let lines = match rng.once_in(2) {
            true => vec![old_text(&mut rng)],
            false => {
                let (_, a, b) = old_pair(&mut rng);
                vec![a, b]
            }
        };
        if lines
            .iter()
            .all(|l| l.len() <= RANDOM_LINE_BYTES && is_plain_text(l))
        {
            cases.extend(lines.into_iter().map(OldCase::of));
        }
    }
    cases
}

/// Writes the file; gives how many cases it holds.
pub fn write(folder: &Path) -> io::Result<usize> {
    let cases = old_cases();
    fs::create_dir_all(folder)?;
    fs::write(folder.join(OLD_FILE), file_text(&cases))?;
    Ok(cases.len())
}

/// The text of a file of cases.
pub fn file_text(cases: &[OldCase]) -> Vec<u8> {
    let mut text = Vec::new();
    for case in cases {
        let answer = answer(case);
        let header = format!(
            "O {} {} {} {} {} {}\n",
            answer.case_number,
            answer.first,
            case.work,
            case.out,
            case.line.len(),
            answer.output.len()
        );
        text.extend_from_slice(header.as_bytes());
        for part in [&case.line, &answer.output] {
            text.extend_from_slice(part);
            text.push(b'\n');
        }
    }
    text
}

/// The cases of a file, each with its stored answer; none if it is not of that form.
pub fn read(text: &[u8]) -> Option<Vec<(OldCase, Answer)>> {
    let mut rest = text;
    let mut cases = Vec::new();
    while !rest.is_empty() {
        let end = rest.iter().position(|&b| b == b'\n')?;
        let header = std::str::from_utf8(&rest[..end]).ok()?;
        rest = &rest[end + 1..];
        let numbers = header.strip_prefix("O ")?.split(' ');
        let numbers: Vec<u64> = numbers.map(|n| n.parse().ok()).collect::<Option<_>>()?;
        let &[number, first, work, out, line, output] = &numbers[..] else {
            return None;
        };
        let case = OldCase {
            line: take(&mut rest, line)?,
            work: work as usize,
            out: out as usize,
        };
        let answer = Answer {
            case_number: number as u32,
            first,
            second: 0,
            output: take(&mut rest, output)?,
        };
        cases.push((case, answer));
    }
    Some(cases)
}
