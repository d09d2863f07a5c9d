//! The limits of RULES 2.2 and 7.2, last part: long sheets, with as many bytes, lines and children as there may be.

use super::texts::{
    has_type, many, refuses, repeated, reports, sheet, text, with_buffers, with_output, wrote,
    Left, Text,
};
use super::Stated;

// Cause 1: 65,535 and 65,536 bytes; before 2, and whatever the bytes are.

/// 128 labels and the end: 65,512 bytes.
fn labels() -> Text {
    repeated(127, text("lab,") + many(255, "61") + "\n") + "lab," + many(49, "61") + "\nend\n"
}

fn byte_cases() -> Vec<Stated> {
    vec![
        reports(text("cyrs,1\nset,1\nsl,12,128\n") + labels(), "end,0,0\n"),
        with_output(
            2048,
            sheet(text("cyrs,1\nset,1\nsl,123,128\n") + labels()),
            1,
            0,
            0,
            Left::AsLent,
        ),
        with_buffers(
            65_535,
            0,
            sheet(text("cyrs,1\nset,1\nsl,123,128\n") + labels()),
            1,
            0,
            0,
            Left::AsLent,
        ),
        refuses(many(65_535, "x"), 3, 1),
        with_output(2048, sheet(many(65_536, "x")), 1, 0, 0, Left::AsLent),
    ]
}

// 9,999 children of one line, 10,003 lines.

fn line_cases() -> Vec<Stated> {
    vec![reports(
        text("cyrs,1\nset,1\nsl,1,9999\n") + many(9999, "lab,\n") + "end\n",
        "end,0,0\n",
    )]
}

// 500 children.

fn tops() -> Text {
    text("cyrs,1\ndel,0,500\n") + many(500, "exi\n") + "end\n"
}

fn child_cases() -> Vec<Stated> {
    vec![
        // a list of one type, and of three that take turns
        has_type(text("lis,500\n") + many(500, "int,1\n"), "J,D,"),
        has_type(
            text("lis,501\n") + many(167, "null\nint,1\nstr,61\n"),
            "J,O,B,G,!,",
        ),
        // a CASE, a map whose entries have one name
        has_type(
            text("case,1,500\nnull\n") + many(250, "null\nint,1\nnull\nstr,61\n"),
            "O,D,G,!,",
        ),
        has_type(
            text("map,500\n") + many(500, "key,61\nint,1\n"),
            "K,61,D,!,",
        ),
        // top expressions, whose report fits exactly or lacks a byte
        with_output(
            2510,
            sheet(tops()),
            0,
            2510,
            0,
            wrote(many(500, "T,P,\n") + "end,500,0\n"),
        ),
        with_output(2509, sheet(tops()), 7, 0, 0, Left::Zeroed),
    ]
}

pub fn cases() -> Vec<Stated> {
    [byte_cases(), line_cases(), child_cases()].concat()
}
