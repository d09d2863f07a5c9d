//! All small old lines, and one line damaged everywhere.

/// The lines of one type.
const ONE: [&str; 8] = [
    "D,",
    "P,",
    "O,!,",
    "K,!,",
    "L,!,",
    "L,+,61,62,!,",
    "L,+,62,61,62,!,",
    "M,+,61,",
];

/// The names of a map of two entries; with the last ones it is no old line.
const NAMES: [[&str; 2]; 3] = [["61,", "62,"], ["62,", "61,"], ["61,", "61,"]];

/// All lines of at most so many types, over few leaves and names.
pub fn small_lines(parts: usize) -> Vec<Vec<u8>> {
    let mut by_parts: Vec<Vec<String>> = vec![Vec::new()];
    for n in 1..=parts {
        let lines = match n {
            1 => ONE.map(str::to_string).to_vec(),
            _ => around(&by_parts, n - 1),
        };
        by_parts.push(lines);
    }
    let lines = by_parts.into_iter().flatten();
    lines.map(String::into_bytes).collect()
}

/// The lines with so many types inside.
fn around(by_parts: &[Vec<String>], inside: usize) -> Vec<String> {
    let mut lines = Vec::new();
    for list in lists(by_parts, inside) {
        lines.push(format!("O,{}!,", list.concat()));
        match &list[..] {
            [one] => lines.extend([format!("J,{one}"), format!("K,61,{one}!,")]),
            [one, two] => lines.extend(NAMES.map(|[a, b]| format!("K,{a}{one}{b}{two}!,"))),
            _ => {}
        }
    }
    lines
}

/// All lists of lines with so many types together.
fn lists(by_parts: &[Vec<String>], total: usize) -> Vec<Vec<&str>> {
    if total == 0 {
        return vec![Vec::new()];
    }
    let mut all = Vec::new();
    for first in 1..=total {
        for rest in lists(by_parts, total - first) {
            let with = |line| [&[line], &rest[..]].concat();
            all.extend(by_parts[first].iter().map(String::as_str).map(with));
        }
    }
    all
}

/// A line with every letter and every freedom.
pub const EVERY_LETTER: &str =
    "O,K,62,J,D,61,L,+,62,61,62,!,!,L,!,M,+,61,M,!,O,!,P,O,A,B,C,!,E,F,G,H,I,N,!,";

/// The line in which each byte was made each other one, or taken away.
pub fn damaged_everywhere() -> impl Iterator<Item = Vec<u8>> {
    let line = EVERY_LETTER.as_bytes();
    let changed = (0..line.len()).flat_map(|at| (0..=255).map(move |b| (at, b)));
    let changed = changed.map(|(at, b)| {
        let mut text = line.to_vec();
        text[at] = b;
        text
    });
    let less = (0..line.len()).map(|at| [&line[..at], &line[at + 1..]].concat());
    changed.chain(less)
}
