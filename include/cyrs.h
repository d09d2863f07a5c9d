/* The calls of libcyrs, for C99 and C++ (docs/RULES.md says what they mean).
 *
 * Slices. A slice is passed as its address and its length. An empty one (length 0) may have any address, NULL too: nothing is read or
 * written through it. No other address may be NULL, those of the returned numbers neither.
 *
 * Answers. Each call returns CYRS_ACCEPTED or the number of a refusal (enum cyrs_number), and always sets every returned number.
 * Every call ends, for all bytes and all lengths.
 *
 * Overlap. What a call writes (`work`, `out`, a store that is not const, the returned numbers) must overlap nothing else that it is
 * lent. What it only reads may overlap what else it only reads: cyrs_unify(a, a_len, a, a_len, ..) is fine. The library cannot check this.
 *
 * Threads. The library has no state, allocates nothing, and calls memmove and memset alone: calls may run at the same time. What a call
 * writes nobody else may read or write meanwhile; a store that threads share needs a lock.
 *
 * Stack. A call needs less than CYRS_STACK bytes of stack.
 *
 * Link libcyrs.a (tools/archive.sh makes it, for x86-64 Linux): cc program.c libcyrs.a.
 */
#ifndef CYRS_H
#define CYRS_H

#include <stddef.h>
#include <stdint.h>

#ifdef __cplusplus
extern "C" {
#endif

/* ---- Limits, in bytes unless it is said */

#define CYRS_SHEET_LIMIT 65535    /* of a sheet */
#define CYRS_WORK_SIZE 65536      /* of the work area: this length and no other */
#define CYRS_UNIFY_OUTPUT 2048    /* of the output of cyrs_unify, at least: two type lines */
#define CYRS_REGULAR_OUTPUT 1024  /* of the output of cyrs_regular_line, at least */
#define CYRS_STACK 65536          /* of stack, at most */

#define CYRS_NAME_LIMIT 255       /* of a name, which has two digits for each */
#define CYRS_COUNT_LIMIT 9999     /* a count */
#define CYRS_DEPTH_LIMIT 24       /* nesting of expressions */
#define CYRS_TYPE_LIMIT 1024      /* of a type line */
#define CYRS_NESTING_LIMIT 32     /* nesting of a type */
#define CYRS_OLD_LIMIT 4096       /* of an old type line */

#define CYRS_STORE_SIZE 65536     /* of a store: this length and no other */
#define CYRS_STORE_ROOM 65528     /* of a store, for its types: each takes its length and CYRS_STORE_HEAD */
#define CYRS_STORE_HEAD 8
#define CYRS_STORE_NUMBERS 65535  /* the last number that a store gives to a type */
#define CYRS_STORE_USES 4294967295U /* uses of one type */

/* ---- The numbers that the calls return
 *
 * The place is the first returned number. Behind each number stands what the lent buffers hold afterwards; a store is as it was lent with
 * every number but 0. */

enum cyrs_number {
    /* The answer at the front of `out`, the rest of `out` as lent, `work` zeros. */
    CYRS_ACCEPTED = 0,
    /* The sheet has more than CYRS_SHEET_LIMIT bytes. Place 0; `work` and `out` as lent. */
    CYRS_REFUSED_SHEET_LENGTH = 1,
    /* `work` has not CYRS_WORK_SIZE bytes. Place 0; `work` and `out` as lent. */
    CYRS_REFUSED_WORK = 2,
    /* The store has not CYRS_STORE_SIZE bytes, or not the form. Place 0. */
    CYRS_REFUSED_STORE = 2,
    /* A line is badly written, not allowed where it stands, or missing. The line, from 1; `work` and `out` zeros. */
    CYRS_REFUSED_LINE = 3,
    /* A field is outside its range. The line; zeros. */
    CYRS_REFUSED_RANGE = 4,
    /* An expression is deeper than CYRS_DEPTH_LIMIT. The line; zeros. */
    CYRS_REFUSED_DEPTH = 5,
    /* A type is longer than CYRS_TYPE_LIMIT or nested deeper than CYRS_NESTING_LIMIT. The line, 0 where there is no sheet; zeros. */
    CYRS_REFUSED_TYPE_SIZE = 6,
    /* `out` is too short: for the report, or of less than the bytes that the call asks for. Place 0; zeros. */
    CYRS_REFUSED_OUTPUT = 7,
    /* A text is no type line. 1 or 2, the first such text; zeros. */
    CYRS_REFUSED_TYPE_LINE = 8,
    /* The types do not unify. The expected and then the actual type line at the front of `out`, the rest as lent, `work` zeros; the
     * two returned numbers are their lengths. */
    CYRS_REFUSED_MISMATCH = 9,
    /* A text is no old type line. Place 0; zeros. */
    CYRS_REFUSED_OLD_LINE = 12,
    /* The live types and the new one would take more than CYRS_STORE_ROOM. Place 0. */
    CYRS_REFUSED_STORE_ROOM = 13,
    /* A new number would pass CYRS_STORE_NUMBERS, or a use CYRS_STORE_USES; tested before 13. Place 0. */
    CYRS_REFUSED_STORE_NUMBERS = 14,
    /* The released or looked-up number is not live. Place 0. */
    CYRS_REFUSED_NOT_LIVE = 15
};

/* ---- Sheets */

/* Types a sheet: its report to `out`. Tested in the order 1, 2, then 3, 4 or 5 by the first such line, 6, 7. 7 comes exactly if the
 * whole report is longer than `out`: lend a longer one and call again.
 * 0: *first is the report's length. 3 to 6: *first is the line, from 1. Otherwise it is 0. */
uint32_t cyrs_infer_types(const uint8_t *sheet, size_t sheet_len, uint8_t *work, size_t work_len, uint8_t *out, size_t out_len,
                          uint64_t *first);

/* Reads a sheet and types nothing: 0, or the refusal 1, 3, 4 or 5 that cyrs_infer_types would give. It is lent no buffer.
 * 3, 4 and 5: *place is the line, from 1. Otherwise it is 0. */
uint32_t cyrs_check_sheet(const uint8_t *sheet, size_t sheet_len, uint64_t *place);

/* ---- Type lines */

/* Unifies two type lines. `out` has CYRS_UNIFY_OUTPUT bytes or more. Tested in the order 2, 7, 8, then 6 or 9.
 * 0: *first is the length of the unified type line. 8: *first is 1 or 2, the first text that is no type line.
 * 9: *first and *second are the lengths of the two types. Otherwise both are 0, and *second is with 0 and 8 too. */
uint32_t cyrs_unify(const uint8_t *a, size_t a_len, const uint8_t *b, size_t b_len, uint8_t *work, size_t work_len, uint8_t *out,
                    size_t out_len, uint64_t *first, uint64_t *second);

/* Makes an old type line regular: members, labels and map entries in any order, members and labels repeated, unions of any members; up to
 * CYRS_OLD_LIMIT bytes, nesting at most CYRS_NESTING_LIMIT, the names of one map distinct. `out` has CYRS_REGULAR_OUTPUT bytes or more.
 * Tested in the order 2, 7, 12, 6.
 * 0: *first is the length of the regular type line. Otherwise it is 0. */
uint32_t cyrs_regular_line(const uint8_t *line, size_t line_len, uint8_t *work, size_t work_len, uint8_t *out, size_t out_len,
                           uint64_t *first);

/* ---- A store of types
 *
 * CYRS_STORE_SIZE bytes that start as zeros and that nothing else writes between calls. The calls are lent the store alone, and each
 * checks the whole of it. */

/* Enters a type: one use more, or the next number from 1, never one that was given before. Tested in the order 2, 8, 14, 13.
 * 0: *first is its number and *second its uses. 8: *first is 1. Otherwise both are 0, and *second is with 8 too.
 * A line that was looked up is part of the store: it is copied before it is entered. */
uint32_t cyrs_enter_type(uint8_t *store, size_t store_len, const uint8_t *line, size_t line_len, uint64_t *first, uint64_t *second);

/* Releases a use of a type: 0, 2 or 15.
 * 0: *first is the uses left; with none the type is gone, and its bytes serve later ones. Otherwise it is 0. */
uint32_t cyrs_release_type(uint8_t *store, size_t store_len, uint64_t number, uint64_t *first);

/* Looks a number up: 0, 2 or 15.
 * 0: its line is the *len bytes of the store from *at on, until the next call that writes the store, and *uses its uses. Otherwise all
 * three are 0. */
uint32_t cyrs_look_up_type(const uint8_t *store, size_t store_len, uint64_t number, uint64_t *at, uint64_t *len, uint64_t *uses);

#ifdef __cplusplus
}
#endif

#endif
