//! The calls, by the reference: number, returned numbers, and every byte of output and work area (RULES 7).

use crate::limited::infer::infer_types;
use crate::limited::unify::{unify, Stop};
use crate::limits::{SHEET_BYTES, UNIFY_OUT_BYTES, WORK_BYTES};
use crate::report::report;
use crate::sheet::read_sheet;
use crate::type_line::{read_type_line, type_line};

/// A sheet's report with no limit on the output, or its refusal 3, 4, 5 or 6: number and line.
pub fn sheet_report(sheet: &[u8]) -> Result<Vec<u8>, (u32, u64)> {
    let read = read_sheet(sheet).map_err(|r| (r.number, u64::from(r.line.0)))?;
    let entries =
        infer_types(&read.statement, &read.lines).map_err(|large| (6, u64::from(large.0 .0)))?;
    Ok(report(&entries))
}

/// Validates a sheet: number and place.
pub fn check_call(sheet: &[u8]) -> (u32, u64) {
    if sheet.len() > SHEET_BYTES {
        return (1, 0);
    }
    read_sheet(sheet).map_or_else(|r| (r.number, u64::from(r.line.0)), |_| (0, 0))
}

/// Types a sheet: number and first returned number.
pub fn sheet_call(sheet: &[u8], work: &mut [u8], out: &mut [u8]) -> (u32, u64) {
    if sheet.len() > SHEET_BYTES {
        return (1, 0);
    }
    if work.len() != WORK_BYTES {
        return (2, 0);
    }
    work.fill(0);
    match sheet_report(sheet) {
        Ok(report) if report.len() <= out.len() => {
            out[..report.len()].copy_from_slice(&report);
            (0, report.len() as u64)
        }
        refusal => {
            out.fill(0);
            refusal.err().unwrap_or((7, 0))
        }
    }
}

/// The unification of two texts with no buffers: the type line, or the refusal 6, 8 or 9 with the texts of 9.
pub enum Unified {
    Line(Vec<u8>),
    Mismatch(Vec<u8>, Vec<u8>),
    TooLarge,
    NoTypeLine(u64),
}

/// Unifies two texts.
pub fn unify_texts(a: &[u8], b: &[u8]) -> Unified {
    let Some(first) = read_type_line(a) else {
        return Unified::NoTypeLine(1);
    };
    let Some(second) = read_type_line(b) else {
        return Unified::NoTypeLine(2);
    };
    match unify(&first, &second) {
        Ok(ty) => Unified::Line(type_line(&ty)),
        Err(Stop::Mismatch(m)) => Unified::Mismatch(type_line(&m.expected), type_line(&m.actual)),
        Err(Stop::TooLarge) => Unified::TooLarge,
    }
}

/// Unifies two type lines: number, first and second returned number.
pub fn unify_call(a: &[u8], b: &[u8], work: &mut [u8], out: &mut [u8]) -> (u32, u64, u64) {
    if work.len() != WORK_BYTES {
        return (2, 0, 0);
    }
    work.fill(0);
    if out.len() < UNIFY_OUT_BYTES {
        out.fill(0);
        return (7, 0, 0);
    }
    match unify_texts(a, b) {
        Unified::Line(line) => {
            out[..line.len()].copy_from_slice(&line);
            (0, line.len() as u64, 0)
        }
        Unified::Mismatch(expected, actual) => {
            let both = [&expected[..], &actual[..]].concat();
            out[..both.len()].copy_from_slice(&both);
            (9, expected.len() as u64, actual.len() as u64)
        }
        Unified::TooLarge => {
            out.fill(0);
            (6, 0, 0)
        }
        Unified::NoTypeLine(place) => {
            out.fill(0);
            (8, place, 0)
        }
    }
}
