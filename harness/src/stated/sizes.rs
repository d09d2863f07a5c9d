//! The limits of RULES 4.6 and 7.2, second part: sizes of types, where a refusal with 6 falls, buffers (causes 1, 2, 6, 7, 9).
//! Too large is over 1,024 bytes or nesting over 32 (RULES 4.6).

use super::texts::{
    deep, deep_type, has_type, many, not_a_type_line, one, one_type, pair, pair_of, parts,
    reads_as_itself, refuses, returning, sheet, stops, text, three, three_type, too_large, two,
    two_type, unifies, with_buffers, with_output, wrote, Left, Text,
};
use super::Stated;

// 1,024 and 1,025 bytes in a sheet; the line is that of the innermost expression being typed.

fn byte_cases() -> Vec<Stated> {
    vec![
        // a map literal
        has_type(two(255, 252), two_type(255, 252)),
        stops(three(255, 250), 6, 4),
        // a list literal: its own type; its running type after `unify`
        has_type(
            text("lis,1\n") + two(255, 251),
            text("J,") + two_type(255, 251),
        ),
        stops(text("lis,1\n") + three(255, 249), 6, 4),
        has_type(
            text("lis,2\nnull\n") + two(255, 248),
            text("J,O,B,") + two_type(255, 248) + "!,",
        ),
        stops(text("lis,2\nnull\n") + three(255, 246), 6, 4),
        // the answer of `unify` in a list literal: 1,022 and 1,023
        has_type(
            text("lis,2\n") + three(255, 99) + one(148),
            text("J,K,")
                + many(255, "61")
                + ",D,"
                + many(99, "62")
                + ",D,63,D,"
                + many(148, "64")
                + ",D,!,",
        ),
        stops(text("lis,2\n") + two(255, 100) + one(150), 6, 4),
        // the running list type counts, though the list ends as one of Any: `[{..}, 1]`
        has_type(text("lis,2\n") + two(255, 251) + "int,1\n", "J,A,"),
        stops(text("lis,2\n") + three(255, 249) + "int,1\n", 6, 4),
        // it is tested after each item, the first included, before the next item is typed
        stops(text("lis,2\n") + three(255, 249) + three(255, 250), 6, 4),
        stops(text("lis,2\n") + two(255, 251) + three(255, 250), 6, 10),
        stops(
            text("lis,3\nint,1\n") + three(255, 250) + three(255, 250),
            6,
            6,
        ),
        // CASE: two arms; equal arms are one; nothing but the last
        has_type(
            text("case,0,2\nbool,1\n") + two(200, 50) + "bool,1\n" + two(199, 51),
            text("O,") + two_type(199, 51) + two_type(200, 50) + "!,",
        ),
        stops(
            text("case,0,2\nbool,1\n") + two(200, 50) + "bool,1\n" + three(199, 49),
            6,
            4,
        ),
        has_type(
            text("case,0,2\nbool,1\n") + two(255, 252) + "bool,1\n" + two(255, 252),
            two_type(255, 252),
        ),
        has_type(text("case,2,0\n") + two(255, 252), two_type(255, 252)),
        stops(text("case,2,0\n") + three(255, 250), 6, 5),
        // an arm that is too large itself comes before the union of the arms, wherever it stands; without it the union is refused
        stops(
            text("case,0,3\nbool,1\n")
                + two(255, 100)
                + "bool,1\n"
                + two(254, 101)
                + "bool,1\n"
                + three(255, 250),
            6,
            18,
        ),
        stops(
            text("case,0,3\nbool,1\n")
                + two(255, 100)
                + "bool,1\n"
                + two(254, 101)
                + "bool,1\nint,1\n",
            6,
            4,
        ),
        stops(
            text("case,2,2\nbool,1\n")
                + two(255, 100)
                + "bool,1\n"
                + two(254, 101)
                + three(255, 250),
            6,
            17,
        ),
        stops(
            text("case,0,3\nbool,1\n")
                + two(255, 100)
                + "bool,1\n"
                + two(254, 101)
                + three(255, 250)
                + "int,1\n",
            6,
            17,
        ),
        // first parts small enough, the whole too large: the third arm is one byte too much
        has_type(
            text("case,0,3\nbool,1\nnull\nbool,1\n") + two(200, 50) + "bool,1\n" + two(199, 50),
            text("O,B,") + two_type(199, 50) + two_type(200, 50) + "!,",
        ),
        stops(
            text("case,0,3\nbool,1\nnull\nbool,1\n") + two(200, 50) + "bool,1\n" + three(199, 48),
            6,
            4,
        ),
        // comprehensions
        has_type(
            text("lcp,1,0\nnull\n") + two(255, 251),
            text("J,") + two_type(255, 251),
        ),
        stops(text("lcp,1,0\nnull\n") + three(255, 249), 6, 4),
        stops(text("lcp,1,0\n") + three(255, 250) + "null\n", 6, 5),
        stops(text("lcp,1,1\nnull\n") + three(255, 250) + "null\n", 6, 6),
        has_type(
            text("pcp,0\nparts,0\n") + two(255, 251),
            text("J,") + two_type(255, 251),
        ),
        stops(text("pcp,0\nparts,0\n") + three(255, 249), 6, 4),
        // a comparison unifies, an equality does not: 1,024 and 1,025
        has_type(text("bin,8\n") + three(255, 99) + one(149), "C,"),
        stops(text("bin,8\n") + two(255, 100) + one(151), 6, 4),
        stops(text("bin,9\n") + two(255, 100) + one(151), 6, 4),
        stops(text("bin,10\n") + two(255, 100) + one(151), 6, 4),
        stops(text("bin,11\n") + two(255, 100) + one(151), 6, 4),
        has_type(text("bin,6\n") + two(255, 100) + one(151), "C,"),
        has_type(text("bin,7\n") + two(255, 100) + one(151), "C,"),
        has_type(text("bin,19\n") + two(255, 100) + one(151), "A,"),
        // so does IN
        has_type(text("in\n") + three(255, 99) + "lis,1\n" + one(149), "C,"),
        stops(text("in\n") + two(255, 100) + "lis,1\n" + one(151), 6, 4),
        // a map literal that was too large after an entry is refused, though a later one of the same name shrinks it
        stops(
            text("map,3\nkey,61\n") + two(200, 95) + "key,62\n" + two(200, 95) + "key,61\nint,1\n",
            6,
            4,
        ),
        has_type(
            text("map,3\nkey,61\n") + two(200, 95) + "key,61\nint,1\nkey,62\n" + two(200, 95),
            text("K,61,D,62,") + two_type(200, 95) + "!,",
        ),
        // the map literal after its second entry, before the third entry's expression
        stops(
            text("map,3\nkey,61\n")
                + two(200, 95)
                + "key,62\n"
                + two(200, 95)
                + "key,63\n"
                + three(255, 250),
            6,
            4,
        ),
        // inner expressions, in patterns too; the first of two top expressions; 3 on a later line comes first
        stops(text("prop,61\n") + three(255, 250), 6, 5),
        stops(text("bin,6\nint,1\n") + three(255, 250), 6, 6),
        stops(
            text("pat\nparts,1\npart,-,0,1\nnod,-,1,0\n") + three(255, 250),
            6,
            8,
        ),
        refuses(
            text("cyrs,1\nmat,0\nparts,1\npart,-,0,1\nnod,-,1,1\nlab,61\n")
                + three(255, 250)
                + "end\n",
            6,
            7,
        ),
        refuses(
            text("cyrs,1\ndel,0,2\n") + three(255, 250) + three(255, 250) + "end\n",
            6,
            3,
        ),
        refuses(text("cyrs,1\ndel,0,2\n") + three(255, 250) + "end\n", 3, 10),
    ]
}

// Nesting 32 and 33 in a sheet.

fn nesting_cases() -> Vec<Stated> {
    vec![
        has_type(
            text("lis,1\n") + deep(15, "int,1\n"),
            text("J,") + deep_type(15, "D,"),
        ),
        stops(deep(16, "int,1\n"), 6, 4),
        stops(text("lis,1\nlis,1\n") + deep(15, "int,1\n"), 6, 4),
        stops(text("prop,61\n") + deep(16, "int,1\n"), 6, 5),
        // `[null, x]`: the union that `unify` answers
        stops(text("lis,2\nnull\nlis,1\n") + deep(15, "int,1\n"), 6, 4),
        // an empty map has nesting 1
        has_type(
            text("lis,1\n") + deep(15, "map,0\n"),
            text("J,") + deep_type(15, "K,!,"),
        ),
        has_type(
            deep(15, "map,1\nkey,61\nint,1\n"),
            deep_type(15, "K,61,D,!,"),
        ),
        stops(text("lis,1\n") + deep(15, "map,1\nkey,61\nint,1\n"), 6, 4),
        // map literals, CASE, comprehensions
        has_type(
            text("map,1\nkey,61\n") + deep(15, "int,1\n"),
            text("K,61,") + deep_type(15, "D,") + "!,",
        ),
        stops(text("map,1\nkey,61\nlis,1\n") + deep(15, "int,1\n"), 6, 4),
        has_type(
            text("case,0,2\nbool,1\nnull\nbool,1\n") + deep(15, "int,1\n"),
            text("O,B,") + deep_type(15, "D,") + "!,",
        ),
        stops(
            text("case,0,2\nbool,1\nnull\nbool,1\nlis,1\n") + deep(15, "int,1\n"),
            6,
            4,
        ),
        has_type(
            text("lcp,1,0\nnull\n") + deep(15, "int,1\n"),
            text("J,") + deep_type(15, "D,"),
        ),
        stops(text("lcp,1,0\nnull\nlis,1\n") + deep(15, "int,1\n"), 6, 4),
        has_type(
            text("pcp,0\nparts,0\n") + deep(15, "int,1\n"),
            text("J,") + deep_type(15, "D,"),
        ),
        stops(text("pcp,0\nparts,0\nlis,1\n") + deep(15, "int,1\n"), 6, 4),
        // a comparison whose union would be too deep
        has_type(text("bin,8\nnull\n") + deep(15, "int,1\n"), "C,"),
        stops(text("bin,8\nnull\nlis,1\n") + deep(15, "int,1\n"), 6, 4),
        has_type(text("bin,6\nnull\nlis,1\n") + deep(15, "int,1\n"), "C,"),
    ]
}

// `unify`: texts that are too large are 8, results 6.

fn unify_cases() -> Vec<Stated> {
    vec![
        reads_as_itself(two_type(255, 252)),
        not_a_type_line(three_type(255, 250), "A,", 1),
        not_a_type_line("A,", three_type(255, 250), 2),
        not_a_type_line(three_type(255, 250), three_type(255, 250), 1),
        reads_as_itself(many(31, "J,") + "D,"),
        not_a_type_line(many(32, "J,") + "D,", "A,", 1),
        reads_as_itself(many(31, "K,61,") + "D," + many(31, "!,")),
        not_a_type_line(many(32, "K,61,") + "D," + many(32, "!,"), "A,", 1),
        reads_as_itself(text("J,") + deep_type(15, "D,")),
        not_a_type_line(deep_type(16, "D,"), "A,", 1),
        reads_as_itself(many(31, "J,") + "K,!,"),
        not_a_type_line(many(31, "J,") + "K,61,D,!,", "A,", 1),
        // Null with a type, with a union
        unifies(
            "B,",
            two_type(255, 249),
            text("O,B,") + two_type(255, 249) + "!,",
        ),
        too_large("B,", three_type(255, 247)),
        unifies(
            two_type(255, 249),
            "B,",
            text("O,B,") + two_type(255, 249) + "!,",
        ),
        too_large(three_type(255, 247), "B,"),
        unifies(
            "B,",
            text("O,C,") + two_type(255, 248) + "!,",
            text("O,B,C,") + two_type(255, 248) + "!,",
        ),
        too_large("B,", text("O,C,") + three_type(255, 246) + "!,"),
        unifies(
            "B,",
            many(30, "J,") + "D,",
            text("O,B,") + many(30, "J,") + "D,!,",
        ),
        too_large("B,", many(31, "J,") + "D,"),
        // labels
        unifies(
            text("L,+,") + many(255, "61") + ",!,",
            text("L,+,") + many(253, "62") + ",!,",
            text("L,+,") + many(255, "61") + "," + many(253, "62") + ",!,",
        ),
        too_large(
            text("L,+,") + many(255, "61") + ",!,",
            text("L,+,") + many(252, "62") + ",63,!,",
        ),
        // maps
        unifies(
            three_type(255, 99),
            one_type(149),
            text("K,")
                + many(255, "61")
                + ",D,"
                + many(99, "62")
                + ",D,63,D,"
                + many(149, "64")
                + ",D,!,",
        ),
        too_large(two_type(255, 100), one_type(151)),
        too_large(one_type(151), two_type(255, 100)),
        // lists: the inner answer fits, the outer does not
        unifies(
            text("J,") + three_type(255, 99),
            text("J,") + one_type(148),
            text("J,K,")
                + many(255, "61")
                + ",D,"
                + many(99, "62")
                + ",D,63,D,"
                + many(148, "64")
                + ",D,!,",
        ),
        too_large(text("J,") + two_type(255, 100), text("J,") + one_type(150)),
        unifies(
            many(30, "J,") + "B,",
            many(30, "J,") + "D,",
            many(30, "J,") + "O,B,D,!,",
        ),
        too_large(many(31, "J,") + "B,", many(31, "J,") + "D,"),
        // a union with a type that unifies with none of its variants: first parts small enough, the whole not
        unifies(
            "O,D,J,G,!,",
            two_type(255, 247),
            text("O,D,J,G,") + two_type(255, 247) + "!,",
        ),
        too_large("O,D,J,G,!,", three_type(255, 245)),
        too_large(three_type(255, 245), "O,D,J,G,!,"),
        // two unions: each answer fits, their union does not
        unifies(
            text("O,J,G,") + two_type(255, 247) + "!,",
            "O,B,D,!,",
            text("O,B,J,G,") + two_type(255, 247) + "!,",
        ),
        too_large(text("O,J,G,") + three_type(255, 245) + "!,", "O,B,D,!,"),
        // an inner answer that is too large stops the call: it is not dropped as a mismatch is
        too_large(text("O,D,") + two_type(255, 100) + "!,", one_type(151)),
        too_large(one_type(151), text("O,D,") + two_type(255, 100) + "!,"),
        // fields of maps in name order: a mismatch before one that is too large is 9, after it 6
        parts(
            text("K,61,D,62,") + pair_of("61", "62", 150, 50) + "!,",
            text("K,61,G,62,") + pair_of("63", "64", 255, 60) + "!,",
            "D,",
            "G,",
        ),
        too_large(
            text("K,61,") + pair_of("61", "62", 150, 50) + "62,D,!,",
            text("K,61,") + pair_of("63", "64", 255, 60) + "62,G,!,",
        ),
        // the map itself is tested last: a mismatch in a field comes before it, however large the fields before
        parts(
            text("K,61,") + two_type(200, 95) + "7a,D,!,",
            text("K,62,") + two_type(200, 95) + "7a,G,!,",
            "D,",
            "G,",
        ),
        too_large(
            text("K,61,") + two_type(200, 95) + "7a,D,!,",
            text("K,62,") + two_type(200, 95) + "7a,D,!,",
        ),
        // a mismatch of two texts of 1,024 bytes fills 2,048
        parts(
            two_type(255, 252),
            text("J,") + two_type(255, 251),
            two_type(255, 252),
            text("J,") + two_type(255, 251),
        ),
    ]
}

// Buffers, and which cause comes first.

/// The example of RULES 6.3, whose report has 25 bytes.
fn example() -> Text {
    text("cyrs,1\nb,1,N\nret,0,1\npro,-\nbin,0\nint,1\nbool,1\nend\n")
}

fn example_report() -> Text {
    text("F,2009,Bool\nT,P,\nend,1,1\n")
}

fn buffer_cases() -> Vec<Stated> {
    vec![
        // what is left by each: every byte of both buffers
        with_buffers(65_536, 2048, sheet(example()), 0, 25, 0, wrote(example_report())),
        with_buffers(65_536, 2048, sheet("cyrs,1\nEND\n"), 3, 2, 0, Left::Zeroed),
        with_buffers(65_536, 2048, sheet("cyrs,1\nwhe\nbool,2\nend\n"), 4, 3, 0, Left::Zeroed),
        with_buffers(65_536, 2048, sheet(returning(many(24, "una,1\n") + "bool,1\n")), 5, 28, 0, Left::Zeroed),
        with_buffers(65_536, 2048, sheet(returning(deep(16, "int,1\n"))), 6, 4, 0, Left::Zeroed),
        with_buffers(65_536, 24, sheet(example()), 7, 0, 0, Left::Zeroed),
        with_buffers(65_536, 2048, pair("J,D,", "J,E,"), 0, 4, 0, wrote("J,F,")),
        with_buffers(65_536, 2048, pair(many(31, "J,") + "B,", many(31, "J,") + "D,"), 6, 0, 0, Left::Zeroed),
        with_buffers(65_536, 2047, pair("D,", "D,"), 7, 0, 0, Left::Zeroed),
        with_buffers(65_536, 2048, pair("D,", "D"), 8, 2, 0, Left::Zeroed),
        with_buffers(65_536, 2049, pair("J,D,", "J,J,G,"), 9, 2, 4, wrote("D,J,G,")),
        // 7 exactly if the full report is longer than the output
        with_output(25, sheet(example()), 0, 25, 0, wrote(example_report())),
        with_output(26, sheet(example()), 0, 25, 0, wrote(example_report())),
        with_output(24, sheet(example()), 7, 0, 0, Left::Zeroed),
        with_output(12, sheet(example()), 7, 0, 0, Left::Zeroed),
        with_output(0, sheet(example()), 7, 0, 0, Left::Zeroed),
        with_output(8, sheet("cyrs,1\nend\n"), 0, 8, 0, wrote("end,0,0\n")),
        with_output(7, sheet("cyrs,1\nend\n"), 7, 0, 0, Left::Zeroed),
        // 3, 4, 5, 6 before 7
        with_output(0, sheet("cyrs,1\nEND\n"), 3, 2, 0, Left::Zeroed),
        with_output(0, sheet("cyrs,1\nwhe\nbool,2\nend\n"), 4, 3, 0, Left::Zeroed),
        with_output(0, sheet(returning(many(24, "una,1\n") + "bool,1\n")), 5, 28, 0, Left::Zeroed),
        with_output(0, sheet(returning(deep(16, "int,1\n"))), 6, 4, 0, Left::Zeroed),
        with_output(20, sheet(text("cyrs,1\ndel,0,2\nlis,1\nlis,1\nlis,1\nlis,1\nlis,1\nlis,1\nlis,1\nlis,1\nint,1\n") + deep(16, "int,1\n") + "end\n"), 6, 12, 0, Left::Zeroed),
        // 2: a work area that is not of 65,536 bytes, before all else but 1
        with_buffers(65_535, 2048, sheet(example()), 2, 0, 0, Left::AsLent),
        with_buffers(65_537, 2048, sheet(example()), 2, 0, 0, Left::AsLent),
        with_buffers(0, 2048, sheet(example()), 2, 0, 0, Left::AsLent),
        with_buffers(65_535, 0, sheet("cyrs,1\nEND\n"), 2, 0, 0, Left::AsLent),
        with_buffers(65_535, 2048, pair("D,", "D,"), 2, 0, 0, Left::AsLent),
        with_buffers(65_537, 2048, pair("D,", "D,"), 2, 0, 0, Left::AsLent),
        with_buffers(65_535, 2047, pair("x", "x"), 2, 0, 0, Left::AsLent),
        // `unify`: 7 before 8, 8 in the first place before the second, 8 before 9
        with_output(2048, pair("D,", "D,"), 0, 2, 0, wrote("D,")),
        with_output(2047, pair("D,", "D,"), 7, 0, 0, Left::Zeroed),
        with_output(0, pair("D,", "D,"), 7, 0, 0, Left::Zeroed),
        with_output(2047, pair("x", "x"), 7, 0, 0, Left::Zeroed),
        with_output(2047, pair("C,", "D,"), 7, 0, 0, Left::Zeroed),
        with_output(2048, pair("x", "x"), 8, 1, 0, Left::Zeroed),
        with_output(2048, pair("C,", "x"), 8, 2, 0, Left::Zeroed),
        with_output(2049, pair("D,", "J,D,"), 9, 2, 4, wrote("D,J,D,")),
    ]
}

pub fn cases() -> Vec<Stated> {
    [byte_cases(), nesting_cases(), unify_cases(), buffer_cases()].concat()
}
