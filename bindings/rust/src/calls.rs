//! The calls on sheets and type lines, with all that they are lent.

use crate::lent;
use crate::limits::{REGULAR_OUTPUT, UNIFY_OUTPUT, WORK_SIZE};
use crate::refusal::{number, Refusal};
use crate::report::Report;

/// The output lent first; a report that is longer gets twice as much until it fits.
const REPORT_ROOM: usize = 65_536;

/// Types a sheet: its report. Refusals 1 and 3 to 6.
///
/// ```
/// let report = cyrs::infer_types(b"cyrs,1\nwhe\nnull\nend\n")?;
/// assert_eq!(report.text(), b"T,B,\nend,1,0\n");
/// # Ok::<(), cyrs::Refusal>(())
/// ```
pub fn infer_types(sheet: &[u8]) -> Result<Report, Refusal> {
    let mut work = vec![0; WORK_SIZE];
    let mut out = vec![0; REPORT_ROOM];
    loop {
        match lent::infer_types(sheet, &mut work, &mut out) {
            (0, length) => return Ok(Report::of(front(out, length))),
            // Only a report that is longer than `out` gets this.
            (number::OUTPUT, _) => out.resize(2 * out.len(), 0),
            (refusal, place) => return Err(Refusal::new(refusal, place)),
        }
    }
}

/// Reads a sheet and types nothing. Refusals 1 and 3 to 5, which [`infer_types`] would give too.
///
/// ```
/// assert!(cyrs::check_sheet(b"cyrs,1\nwhe\nnull\nend\n").is_ok());
/// assert_eq!(cyrs::check_sheet(b"cyrs,1\nwhe\n").unwrap_err(), cyrs::Refusal::new(3, 3));
/// ```
pub fn check_sheet(sheet: &[u8]) -> Result<(), Refusal> {
    match lent::check_sheet(sheet) {
        (0, _) => Ok(()),
        (refusal, place) => Err(Refusal::new(refusal, place)),
    }
}

/// What comes of two types.
#[derive(Debug, Clone, PartialEq, Eq, Hash)]
pub enum Unified {
    /// The type line of both.
    Line(Vec<u8>),
    /// They do not unify; where they part, these two do not (refusal 9 of the library).
    Mismatch {
        /// The type line that was expected.
        expected: Vec<u8>,
        /// The type line that was found.
        actual: Vec<u8>,
    },
}

/// Unifies two type lines. Refusals 6 and 8.
///
/// ```
/// use cyrs::{unify, Unified};
/// assert_eq!(unify(b"D,", b"E,")?, Unified::Line(b"F,".to_vec()));
/// let (expected, actual) = (b"D,".to_vec(), b"G,".to_vec());
/// assert_eq!(unify(b"J,D,", b"J,G,")?, Unified::Mismatch { expected, actual });
/// assert_eq!(unify(b"D,", b"D").unwrap_err().to_string(), "refusal 8 of text 2: the text is no type line");
/// # Ok::<(), cyrs::Refusal>(())
/// ```
pub fn unify(a: &[u8], b: &[u8]) -> Result<Unified, Refusal> {
    let mut work = vec![0; WORK_SIZE];
    let mut out = vec![0; UNIFY_OUTPUT];
    match lent::unify(a, b, &mut work, &mut out) {
        (0, length, _) => Ok(Unified::Line(front(out, length))),
        (number::MISMATCH, first, second) => {
            let mut expected = front(out, first + second);
            let actual = expected.split_off(first as usize);
            Ok(Unified::Mismatch { expected, actual })
        }
        (refusal, place, _) => Err(Refusal::new(refusal, place)),
    }
}

/// Makes an old type line regular. Refusals 6 and 12.
///
/// ```
/// assert_eq!(cyrs::regular_line(b"O,O,!,D,!,")?, b"O,D,P,!,");
/// # Ok::<(), cyrs::Refusal>(())
/// ```
pub fn regular_line(line: &[u8]) -> Result<Vec<u8>, Refusal> {
    let mut work = vec![0; WORK_SIZE];
    let mut out = vec![0; REGULAR_OUTPUT];
    match lent::regular_line(line, &mut work, &mut out) {
        (0, length) => Ok(front(out, length)),
        (refusal, place) => Err(Refusal::new(refusal, place)),
    }
}

/// The front of an output.
fn front(mut out: Vec<u8>, length: u64) -> Vec<u8> {
    out.truncate(length as usize);
    out
}
