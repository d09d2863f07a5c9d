//! Damaged copies of sheets.

use super::table::ROWS;
use crate::random::Random;

/// Texts that stand at the ends of some field's range, or are badly written.
const FIELDS: [&str; 44] = [
    "",
    "-",
    "0",
    "1",
    "2",
    "3",
    "4",
    "7",
    "19",
    "20",
    "9999",
    "10000",
    "4294967295",
    "4294967296",
    "18446744073709551615",
    "18446744073709551616",
    "9223372036854775807",
    "9223372036854775808",
    "-9223372036854775808",
    "-9223372036854775809",
    "-1",
    "-0",
    "--",
    "-01",
    "00",
    "01",
    "+1",
    " 1",
    "1 ",
    "0x1",
    "1e3",
    "a",
    "61",
    "6",
    "6A",
    "6g",
    "616",
    "N",
    "R",
    "n",
    "NN",
    "ffffffffffffffff",
    "fffffffffffffff",
    "340282366920938463463374607431768211456",
];

const BYTES: &[u8] = b",\n\n-+0123456789abfNRPVceilnrst !\r\0\x7f\xc3\xff";

/// The sheet with one to three things wrong with it.
pub fn damaged(rng: &mut Random, sheet: &[u8]) -> Vec<u8> {
    let mut text = sheet.to_vec();
    for _ in 0..rng.between(1, 3) {
        damage(rng, &mut text);
    }
    text
}

fn damage(rng: &mut Random, text: &mut Vec<u8>) {
    match rng.below(12) {
        0 => edit_byte(rng, text),
        1 => {
            let at = rng.below(text.len() + 1);
            text.truncate(at);
        }
        2 => {
            let extra: &[&[u8]] = &[b"\n", b"x", b"end\n", b"null\n", b"end", b"cyrs,1\n", b"\0"];
            let more = *rng.pick(extra);
            text.extend_from_slice(more);
        }
        3 => lines(rng, text, |rng, lines| {
            let at = rng.below(lines.len());
            lines.remove(at);
        }),
        4 => lines(rng, text, |rng, lines| {
            let at = rng.below(lines.len());
            let line = lines[at].clone();
            let to = rng.below(lines.len() + 1);
            lines.insert(to, line);
        }),
        5 => lines(rng, text, |rng, lines| {
            let (i, j) = (rng.below(lines.len()), rng.below(lines.len()));
            lines.swap(i, j);
        }),
        6 => fields(rng, text, |rng, fields| {
            fields[0] = rng.pick(&ROWS).word.as_bytes().to_vec();
        }),
        7 => fields(rng, text, |rng, fields| {
            let at = rng.below(fields.len() + 1);
            fields.insert(at, field(rng));
        }),
        8 => fields(rng, text, |rng, fields| {
            let at = rng.below(fields.len());
            fields.remove(at);
        }),
        _ => fields(rng, text, |rng, fields| {
            let at = rng.between(1, fields.len().max(2) - 1);
            if at < fields.len() {
                fields[at] = field(rng);
            }
        }),
    }
}

/// A field's text: of the list, a name at its limit, or a very long decimal.
pub(super) fn field(rng: &mut Random) -> Vec<u8> {
    match rng.below(12) {
        0 => b"61".repeat(255),
        1 => b"61".repeat(256),
        2 => [b"61".repeat(255), b"6".to_vec()].concat(),
        3 => [b"61".repeat(255), b"6g".to_vec()].concat(),
        4 => vec![b'1' + rng.below(9) as u8; rng.between(20, 60)],
        _ => rng.pick(&FIELDS).as_bytes().to_vec(),
    }
}

fn edit_byte(rng: &mut Random, text: &mut Vec<u8>) {
    let b = *rng.pick(BYTES);
    let at = rng.below(text.len() + 1);
    match rng.below(3) {
        0 if at < text.len() => text[at] = b,
        1 if at < text.len() => {
            text.remove(at);
        }
        _ => text.insert(at, b),
    }
}

/// Edits the list of lines.
fn lines(rng: &mut Random, text: &mut Vec<u8>, edit: impl FnOnce(&mut Random, &mut Vec<Vec<u8>>)) {
    let mut lines: Vec<Vec<u8>> = text
        .split_inclusive(|&b| b == b'\n')
        .map(<[u8]>::to_vec)
        .collect();
    if !lines.is_empty() {
        edit(rng, &mut lines);
    }
    *text = lines.concat();
}

/// Edits the fields of one line; the word is the first.
fn fields(rng: &mut Random, text: &mut Vec<u8>, edit: impl FnOnce(&mut Random, &mut Vec<Vec<u8>>)) {
    lines(rng, text, |rng, lines| {
        let at = rng.below(lines.len());
        let line = lines[at].strip_suffix(b"\n").unwrap_or(&lines[at]);
        let mut fields: Vec<Vec<u8>> = line.split(|&b| b == b',').map(<[u8]>::to_vec).collect();
        edit(rng, &mut fields);
        lines[at] = fields.join(&b',');
        lines[at].push(b'\n');
    });
}
