//! Hostile sheets, for the reader alone, which has an answer for any bytes.

use super::damage::{damaged, field};
use super::probes::texts;
use super::sheets::{deep_to, small_tree};
use super::table::{row_of, Field, ROWS};
use crate::limits::{DEPTH, SHEET_BYTES};
use crate::random::Random;

/// A sheet with something odd about it, which may be fine all the same.
pub fn hostile(rng: &mut Random) -> Vec<u8> {
    match rng.below(32) {
        0 | 1 => noise(rng),
        2..=4 => loose_lines(rng),
        5 | 6 => unordered_bindings(rng),
        7..=13 => deepest(rng),
        14..=16 => odd_end(rng),
        _ => {
            let sheet = small_tree(rng).text();
            odd_fields(rng, &sheet)
        }
    }
}

/// A part of a sheet and then bytes by chance or one byte over and over, sometimes about as many as a sheet may have.
fn noise(rng: &mut Random) -> Vec<u8> {
    let mut text = small_tree(rng).text();
    text.truncate(rng.below(text.len() + 1));
    let len = match rng.once_in(20) {
        true => SHEET_BYTES - 1 + rng.below(3),
        false => text.len() + rng.below(200),
    };
    let one = *rng.pick(b",\n\r0969aN-\0\xff");
    let any = rng.once_in(2);
    text.resize_with(len, || match any {
        true => rng.next_u64() as u8,
        false => one,
    });
    text
}

/// The first lines of a sheet, then lines of any words.
fn loose_lines(rng: &mut Random) -> Vec<u8> {
    let mut text = small_tree(rng).text();
    text.truncate(line_start(rng, &text));
    for _ in 0..rng.between(1, 6) {
        let row = rng.pick(&ROWS);
        text.extend_from_slice(row.word.as_bytes());
        for kind in row.fields {
            text.push(b',');
            text.extend(sided(rng, *kind));
        }
        text.push(b'\n');
    }
    text
}

/// Where a line of the text begins, or where the text ends.
fn line_start(rng: &mut Random, text: &[u8]) -> usize {
    let ends = (0..text.len()).filter(|&i| text[i] == b'\n');
    let starts: Vec<usize> = ends.map(|i| i + 1).collect();
    *rng.pick(&starts)
}

/// `b` lines in any order, in the order of their texts, or sorted; some of them equal.
fn unordered_bindings(rng: &mut Random) -> Vec<u8> {
    let mut tree = small_tree(rng);
    let end = *rng.pick(&[4, 30, 1 << 32]);
    let count = rng.between(2, 6);
    tree.bindings = (0..count)
        .map(|_| (rng.below(end) as u32, *rng.pick(&['N', 'R', 'P', 'V'])))
        .collect();
    match rng.below(3) {
        0 => tree.bindings.sort_by_key(|b| b.0.to_string()),
        1 => tree.bindings.sort_unstable(),
        _ => {}
    }
    tree.text()
}

/// 23 to 27 levels and more. Odd fields come before the depth on a line.
fn deepest(rng: &mut Random) -> Vec<u8> {
    let levels = rng.between(DEPTH - 1, DEPTH + 3);
    let mut tree = deep_to(rng, levels);
    let at = rng.below(2);
    tree.clauses.splice(at..at, small_tree(rng).clauses);
    match rng.once_in(3) {
        true => odd_fields(rng, &tree.text()),
        false => tree.text(),
    }
}

/// A sheet that ends early or late, or whose lines end in other ways.
fn odd_end(rng: &mut Random) -> Vec<u8> {
    let mut text = small_tree(rng).text();
    match rng.below(5) {
        0 => text.truncate(text.len() - 1),
        1 => text.truncate(line_start(rng, &text)),
        2 => text.extend_from_slice(rng.pick(&["\n", " ", "\0", "\r\n", "end\n"]).as_bytes()),
        3 => {
            text = String::from_utf8_lossy(&text)
                .replace('\n', "\r\n")
                .into_bytes()
        }
        _ => text = damaged(rng, &text),
    }
    text
}

/// The sheet with odd texts in one or two fields of a line.
fn odd_fields(rng: &mut Random, sheet: &[u8]) -> Vec<u8> {
    let mut lines: Vec<Vec<u8>> = sheet.split(|&b| b == b'\n').map(<[u8]>::to_vec).collect();
    let with_fields: Vec<usize> = (0..lines.len())
        .filter(|&i| lines[i].contains(&b','))
        .collect();
    let line = &mut lines[*rng.pick(&with_fields)];
    let mut fields: Vec<Vec<u8>> = line.split(|&b| b == b',').map(<[u8]>::to_vec).collect();
    let row = row_of(&String::from_utf8_lossy(&fields[0]));
    for _ in 0..rng.between(1, 2) {
        let at = rng.between(1, fields.len() - 1);
        let kind = row.and_then(|r| r.fields.get(at - 1));
        fields[at] = odd(rng, kind.copied().unwrap_or(Field::Count), &fields[at]);
    }
    *line = fields.join(&b',');
    lines.join(&b'\n')
}

/// A text in the place of a field.
fn odd(rng: &mut Random, kind: Field, old: &[u8]) -> Vec<u8> {
    match rng.below(12) {
        0 | 1 => field(rng),
        2 | 3 => near(rng, old),
        4 => {
            let len = match rng.once_in(40) {
                true => rng.between(5_000, 70_000),
                false => rng.between(20, 2_000),
            };
            vec![*rng.pick(b"0196af-"); len]
        }
        _ => sided(rng, kind),
    }
}

/// A number beside this one, or one too large that arithmetic modulo a power of two takes for it.
fn near(rng: &mut Random, old: &[u8]) -> Vec<u8> {
    let text = String::from_utf8_lossy(old);
    let Ok(n) = text.parse::<i128>() else {
        return [old, old].concat();
    };
    let zeros = rng.between(30, 300);
    match rng.below(5) {
        0 => (n + 1).to_string(),
        1 => (n - 1).to_string(),
        2 => (n + (1 << 32)).to_string(),
        3 => (n + (1 << 64)).to_string(),
        _ => format!("1{}{text}", "0".repeat(zeros)),
    }
    .into_bytes()
}

/// A text for a field of this kind: mostly fine, else outside its range or badly written.
fn sided(rng: &mut Random, kind: Field) -> Vec<u8> {
    let (fine, over, bad) = texts(kind);
    let texts = match rng.below(6) {
        0 | 1 if !over.is_empty() => over,
        2 => bad,
        _ => fine,
    };
    rng.pick(&texts).clone().into_bytes()
}

/// A sheet with every word.
pub const EVERY_WORD: &str = "\
cyrs,1
b,0,N
b,10,V
mat,1
parts,1
part,4294967295,2,2
nod,-,1,1
lab,61
null
rel,3,1,1,0,18446744073709551615,1,1
lab,
map,1
key,6b
exi
cre
parts,1
part,-,0,1
rel,-,2,0,-,-,0,0
mer
parts,0
whe
bool,1
wit,1,1
pro,-
int,-9223372036854775808
flt,3ff0000000000000
ret,0,1
pro,78
bin,19
idx
var,10
str,
prop,70
par,71
unw,7
lis,2
unr,
sli,3
una,1
null
null
null
set,3
sp,61
null
null
sl,0,1
lab,62
sm,0,1
null
rem,2
rp,
null
rl,0,0
del,1,1
case,3,1
null
null
null
null
cal,63,0,1
call,6964,1,1
isn,0
null
whe
in
pat
parts,0
lcp,5,1
null
null
null
whe
pcp,1
parts,0
null
lpr,3,6,1
null
mpr,4
null
cop,
com,61
null
sho,8,62
ali,63
null
end
";

/// [`EVERY_WORD`] with each of its bytes made each other one or taken out, and cut off at each.
pub fn everywhere() -> impl Iterator<Item = Vec<u8>> {
    let sheet = EVERY_WORD.as_bytes();
    let other = |(at, byte): (usize, u8)| {
        let mut text = sheet.to_vec();
        text[at] = byte;
        text
    };
    let bytes = (0..sheet.len()).flat_map(|at| (0..=255).map(move |b| (at, b)));
    let without = (0..sheet.len()).map(|at| [&sheet[..at], &sheet[at + 1..]].concat());
    let cut = (0..sheet.len()).map(|at| sheet[..at].to_vec());
    bytes.map(other).chain(without).chain(cut)
}
