//! The C functions of the library; `include/cyrs.h` says what each asks and does. [`lent`](crate::lent) has them on slices.

extern "C" {
    /// Types a sheet.
    pub fn cyrs_infer_types(
        sheet: *const u8,
        sheet_len: usize,
        work: *mut u8,
        work_len: usize,
        out: *mut u8,
        out_len: usize,
        first: *mut u64,
    ) -> u32;

    /// Reads a sheet and types nothing.
    pub fn cyrs_check_sheet(sheet: *const u8, sheet_len: usize, place: *mut u64) -> u32;

    /// Unifies two type lines.
    pub fn cyrs_unify(
        a: *const u8,
        a_len: usize,
        b: *const u8,
        b_len: usize,
        work: *mut u8,
        work_len: usize,
        out: *mut u8,
        out_len: usize,
        first: *mut u64,
        second: *mut u64,
    ) -> u32;

    /// Makes an old type line regular.
    pub fn cyrs_regular_line(
        line: *const u8,
        line_len: usize,
        work: *mut u8,
        work_len: usize,
        out: *mut u8,
        out_len: usize,
        first: *mut u64,
    ) -> u32;

    /// Enters a type into a store.
    pub fn cyrs_enter_type(
        store: *mut u8,
        store_len: usize,
        line: *const u8,
        line_len: usize,
        first: *mut u64,
        second: *mut u64,
    ) -> u32;

    /// Releases a use of a type.
    pub fn cyrs_release_type(store: *mut u8, store_len: usize, number: u64, first: *mut u64)
        -> u32;

    /// Looks a number up.
    pub fn cyrs_look_up_type(
        store: *const u8,
        store_len: usize,
        number: u64,
        at: *mut u64,
        len: *mut u64,
        uses: *mut u64,
    ) -> u32;
}
