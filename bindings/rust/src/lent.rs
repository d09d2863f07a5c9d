//! The calls on lent slices, as the library has them: any slices of any lengths, nothing allocated. Each gives its number, 0 or a
//! refusal's, and then its returned numbers; what the slices hold afterwards follows from the number (`include/cyrs.h`).
//!
//! The calls of the crate's root lend what is needed and make a `Result` of the answer.

use crate::raw;

/// What a returned number holds before the call. The library sets each, and a test would see one that it does not.
const UNSET: u64 = 0xdead_beef_dead_beef;

// SAFETY, of each call below: each address and length are those of a live slice, those that are written are lent as `&mut` and so
// to nothing else, and the returned numbers are locals of their own. The library asks for no more.

/// Types a sheet: the number, and the report's length or the place.
pub fn infer_types(sheet: &[u8], work: &mut [u8], out: &mut [u8]) -> (u32, u64) {
    let mut first = UNSET;
    // SAFETY: above.
    let number = unsafe {
        raw::cyrs_infer_types(
            sheet.as_ptr(),
            sheet.len(),
            work.as_mut_ptr(),
            work.len(),
            out.as_mut_ptr(),
            out.len(),
            &mut first,
        )
    };
    (number, first)
}

/// Reads a sheet: the number and the place.
pub fn check_sheet(sheet: &[u8]) -> (u32, u64) {
    let mut place = UNSET;
    // SAFETY: above.
    let number = unsafe { raw::cyrs_check_sheet(sheet.as_ptr(), sheet.len(), &mut place) };
    (number, place)
}

/// Unifies two type lines: the number, and the line's length, the place, or the lengths of the two types.
pub fn unify(a: &[u8], b: &[u8], work: &mut [u8], out: &mut [u8]) -> (u32, u64, u64) {
    let (mut first, mut second) = (UNSET, UNSET);
    // SAFETY: above; `a` and `b` may overlap, both are only read.
    let number = unsafe {
        raw::cyrs_unify(
            a.as_ptr(),
            a.len(),
            b.as_ptr(),
            b.len(),
            work.as_mut_ptr(),
            work.len(),
            out.as_mut_ptr(),
            out.len(),
            &mut first,
            &mut second,
        )
    };
    (number, first, second)
}

/// Makes an old type line regular: the number, and the regular line's length.
pub fn regular_line(line: &[u8], work: &mut [u8], out: &mut [u8]) -> (u32, u64) {
    let mut first = UNSET;
    // SAFETY: above.
    let number = unsafe {
        raw::cyrs_regular_line(
            line.as_ptr(),
            line.len(),
            work.as_mut_ptr(),
            work.len(),
            out.as_mut_ptr(),
            out.len(),
            &mut first,
        )
    };
    (number, first)
}

/// Enters a type into a store: the number, and the type's number and its uses.
pub fn enter_type(store: &mut [u8], line: &[u8]) -> (u32, u64, u64) {
    let (mut first, mut second) = (UNSET, UNSET);
    // SAFETY: above.
    let number = unsafe {
        raw::cyrs_enter_type(
            store.as_mut_ptr(),
            store.len(),
            line.as_ptr(),
            line.len(),
            &mut first,
            &mut second,
        )
    };
    (number, first, second)
}

/// Releases a use of a type: the number, and the uses left.
pub fn release_type(store: &mut [u8], number: u64) -> (u32, u64) {
    let mut first = UNSET;
    // SAFETY: above.
    let refusal =
        unsafe { raw::cyrs_release_type(store.as_mut_ptr(), store.len(), number, &mut first) };
    (refusal, first)
}

/// Looks a number up: the number of the call, where the line stands in the store and how long it is, and the uses.
pub fn look_up_type(store: &[u8], number: u64) -> (u32, u64, u64, u64) {
    let (mut at, mut len, mut uses) = (UNSET, UNSET, UNSET);
    // SAFETY: above.
    let refusal = unsafe {
        raw::cyrs_look_up_type(
            store.as_ptr(),
            store.len(),
            number,
            &mut at,
            &mut len,
            &mut uses,
        )
    };
    (refusal, at, len, uses)
}
