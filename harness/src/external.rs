//! The comparison with an external `typesheet` program: a sheet on its standard input, the report or the refusal on its
//! standard output.

use crate::calls::sheet_call;
use crate::cases::{fixed_sheet_cases, random_sheet, Case};
use crate::differential::show_case;
use crate::limits::{TYPESHEET_OUT_BYTES, WORK_BYTES};
use crate::random::Random;
use crate::shrink::smallest;
use std::io::{self, Read, Write};
use std::process::{Command, Stdio};
use std::time::Instant;

/// What the program `typesheet` has to write for a sheet (RULES 7.9).
pub fn expected_output(sheet: &[u8]) -> Vec<u8> {
    let mut work = vec![0; WORK_BYTES];
    let mut out = vec![0; TYPESHEET_OUT_BYTES];
    match sheet_call(sheet, &mut work, &mut out) {
        (0, len) => out[..len as usize].to_vec(),
        (number, place) => format!("refused,{number},{place}\n").into_bytes(),
    }
}

/// What the program writes for a sheet.
fn program_output(path: &str, sheet: &[u8]) -> io::Result<Vec<u8>> {
    let mut child = Command::new(path)
        .stdin(Stdio::piped())
        .stdout(Stdio::piped())
        .spawn()?;
    if let Some(mut stdin) = child.stdin.take() {
        // A program may stop reading early.
        let _ = stdin.write_all(sheet);
    }
    let mut output = Vec::new();
    if let Some(mut stdout) = child.stdout.take() {
        stdout.read_to_end(&mut output)?;
    }
    let status = child.wait()?;
    if !status.success() {
        output.extend_from_slice(format!("[{status}]").as_bytes());
    }
    Ok(output)
}

/// Compares the program on the fixed sheets and on `count` random ones; true if nothing differs.
pub fn run(path: &str, count: u64, seed: u64) -> io::Result<bool> {
    let start = Instant::now();
    let mut different = 0;
    let mut compared: u64 = 0;
    let fixed = fixed_sheet_cases()
        .into_iter()
        .filter_map(|(name, case)| match case {
            Case::Sheet { sheet, .. } => Some((name, sheet)),
            Case::Pair { .. } => None,
        });
    let random = (0..count).map(|i| {
        let one = seed.wrapping_add(i);
        (format!("seed {one}"), random_sheet(&mut Random::new(one)))
    });
    for (name, sheet) in fixed.chain(random) {
        compared += 1;
        if program_output(path, &sheet)? != expected_output(&sheet) {
            different += 1;
            show_difference(path, &name, sheet)?;
            if different == 3 {
                break;
            }
        }
        if compared % 5_000 == 0 {
            println!(
                "{compared}, {different} different, {} s",
                start.elapsed().as_secs()
            );
        }
    }
    println!(
        "{compared} sheets compared, {different} different, {} s",
        start.elapsed().as_secs()
    );
    Ok(different == 0)
}

fn show_difference(path: &str, name: &str, sheet: Vec<u8>) -> io::Result<()> {
    println!("DIFFERENCE ({name})");
    let case = Case::Sheet {
        sheet,
        work: WORK_BYTES,
        out: TYPESHEET_OUT_BYTES,
    };
    let least = smallest(case, |c| match c {
        Case::Sheet { sheet, .. } => {
            program_output(path, sheet).is_ok_and(|o| o != expected_output(sheet))
        }
        Case::Pair { .. } => false,
    });
    show_case(&least);
    if let Case::Sheet { sheet, .. } = &least {
        println!(
            "reference:\n{}",
            String::from_utf8_lossy(&expected_output(sheet))
        );
        println!(
            "program:\n{}",
            String::from_utf8_lossy(&program_output(path, sheet)?)
        );
    }
    Ok(())
}
