//! The library's calls, by the crate `cyrs` (bindings/rust), and the kinds of calls that it and the reference have. CYRS_LIB alone
//! decides: with it all are linked, without it none.

use crate::calls;
use crate::catalogue;
use crate::old;

/// A call on a sheet: number and first returned number.
pub type SheetCall = fn(&[u8], &mut [u8], &mut [u8]) -> (u32, u64);

/// A call on two texts: number, first and second returned number.
pub type UnifyCall = fn(&[u8], &[u8], &mut [u8], &mut [u8]) -> (u32, u64, u64);

/// A call on an old type line: number and first returned number.
pub type RegularCall = fn(&[u8], &mut [u8], &mut [u8]) -> (u32, u64);

/// Validation of a sheet: number and place.
pub type CheckCall = fn(&[u8]) -> (u32, u64);

/// Enters a type in a store: number, the type's number, its uses.
pub type EnterCall = fn(&mut [u8], &[u8]) -> (u32, u64, u64);

/// Releases a use: number, uses left.
pub type ReleaseCall = fn(&mut [u8], u64) -> (u32, u64);

/// Looks a number up: number, place and length of the line in the store, uses.
pub type LookUpCall = fn(&[u8], u64) -> (u32, u64, u64, u64);

/// The three calls on a store of types.
#[derive(Clone, Copy)]
pub struct StoreCalls {
    pub enter: EnterCall,
    pub release: ReleaseCall,
    pub look_up: LookUpCall,
}

/// All calls.
#[derive(Clone, Copy)]
pub struct Library {
    pub sheet: SheetCall,
    pub unify: UnifyCall,
    pub check: CheckCall,
    pub regular: RegularCall,
    pub store: StoreCalls,
}

/// The reference in the library's place, to try a comparison.
pub const REFERENCE: Library = Library {
    sheet: calls::sheet_call,
    unify: calls::unify_call,
    check: calls::check_call,
    regular: old::call::regular_call,
    store: catalogue::cases::REFERENCE,
};

/// The linked library, if there is one.
#[cfg(cyrs_linked)]
pub fn linked() -> Option<Library> {
    use cyrs::lent;
    Some(Library {
        sheet: lent::infer_types,
        unify: lent::unify,
        check: lent::check_sheet,
        regular: lent::regular_line,
        store: StoreCalls {
            enter: lent::enter_type,
            release: lent::release_type,
            look_up: lent::look_up_type,
        },
    })
}

/// None is linked.
#[cfg(not(cyrs_linked))]
pub fn linked() -> Option<Library> {
    None
}

/// What is said where a library is needed and none is linked.
pub const NOT_LINKED: &str =
    "no library is linked, so nothing can be compared: CYRS_LIB, when this is built, names libcyrs.a by its whole path";
