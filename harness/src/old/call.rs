//! The call that makes an old type line regular, by the reference: number, returned number, and every byte of output and
//! work area (RULES 10.3, ask 11).

use super::made::made;
use super::read::read_old;
use crate::limited::size::fits;
use crate::limits::{REGULAR_OUT_BYTES, WORK_BYTES};
use crate::type_line::type_line;

/// The regular line with no buffers, or the refusal 12 or 6.
pub fn regular_line(line: &[u8]) -> Result<Vec<u8>, u32> {
    let ty = made(&read_old(line).ok_or(12_u32)?);
    match fits(&ty) {
        true => Ok(type_line(&ty)),
        false => Err(6),
    }
}

/// Makes an old type line regular: number and first returned number.
pub fn regular_call(line: &[u8], work: &mut [u8], out: &mut [u8]) -> (u32, u64) {
    if work.len() != WORK_BYTES {
        return (2, 0);
    }
    work.fill(0);
    if out.len() < REGULAR_OUT_BYTES {
        out.fill(0);
        return (7, 0);
    }
    match regular_line(line) {
        Ok(regular) => {
            out[..regular.len()].copy_from_slice(&regular);
            (0, regular.len() as u64)
        }
        Err(number) => {
            out.fill(0);
            (number, 0)
        }
    }
}
