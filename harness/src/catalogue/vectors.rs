//! Fixed answers of the store calls in a file, which a program with no Rust at hand can replay. The form is told in
//! vectors/README.md.

use super::cases::{settle, Answer, Call, StoreCase, EDGE, REFERENCE};
use super::damage::damaged;
use super::draw::{call, catalogue, manner};
use super::lines::{line_of, lines, short_lines, Pool};
use super::probes::{store_probes, taking};
use super::store::{front, stored};
use super::{Catalogue, LIVE_HEAD, NUMBER, ROOM};
use crate::library::StoreCalls;
use crate::random::Random;
use crate::vectors::take;
use std::fs;
use std::io;
use std::path::Path;

pub const STORES_FILE: &str = "stores.txt";

/// The seed of the random ones among the fixed answers.
const SEED: u64 = 1_200;

/// How many cases the file holds.
const CASES: usize = 500;

/// Longest front of a store and text together: of random cases and of fixed ones.
const SMALL_BYTES: usize = 150;
const MOST_BYTES: usize = 1_200;

fn write_case(calls: StoreCalls, case: &StoreCase, text: &mut Vec<u8>) {
    let (answer, bytes) = settle(calls, case);
    let (number, [first, second, third]) = (answer.number, answer.returned);
    let (store, before) = (case.store.len(), front(&case.store));
    let after = front(&bytes[EDGE..EDGE + store]);
    let (lent, left) = (before.len(), after.len());
    let (header, parts) = match &case.call {
        Call::Enter(entered) => {
            let entering = entered.len();
            (
                format!("E {number} {first} {second} {store} {lent} {entering} {left}"),
                vec![before, entered, after],
            )
        }
        Call::Release(released) => (
            format!("R {number} {first} {store} {released} {lent} {left}"),
            vec![before, after],
        ),
        Call::LookUp(asked) => (
            format!("L {number} {third} {store} {asked} {lent} {second}"),
            vec![before, line(case, &answer)],
        ),
    };
    for part in [header.as_bytes()].into_iter().chain(parts) {
        text.extend_from_slice(part);
        text.push(b'\n');
    }
}

/// The line that was looked up, as a part of the store; empty if the call was refused.
fn line<'a>(case: &'a StoreCase, answer: &Answer) -> &'a [u8] {
    let [at, length, _] = answer.returned;
    &case.store[at as usize..(at + length) as usize]
}

/// As many of the shortest lines as there are, and one longer line for the rest of the bytes.
fn shortest(bytes: usize) -> Catalogue {
    let mut list = Catalogue::default();
    let mut lines = short_lines();
    while let Some(line) = lines.next().filter(|_| list.bytes() + 100 < bytes) {
        let _ = list.enter(&line);
    }
    let rest = bytes - list.bytes() - LIVE_HEAD;
    let line = line_of(&mut Random::new(SEED), rest).unwrap_or_default();
    let _ = list.enter(&line);
    list
}

/// Full stores: 65,528 bytes together, one more, no number left, the last type looked up; and 300 types.
fn large_cases() -> Vec<StoreCase> {
    let enter = |line: &str| Call::Enter(line.as_bytes().to_vec());
    let case = |list: &Catalogue, call| {
        let store = stored(list);
        StoreCase { store, call }
    };
    let full = shortest(ROOM);
    let mut used_up = taking(ROOM - 9);
    used_up.last = NUMBER;
    let some = shortest(5_000);
    let mut twice = some.clone();
    twice.live[250].line = twice.live[10].line.clone();
    vec![
        case(&shortest(ROOM - 17), enter("M,+,ffff,")),
        case(&shortest(ROOM - 17), enter("L,+,,ff,!,")),
        case(&full, Call::LookUp(full.last)),
        case(&used_up, enter("D,")),
        case(&some, enter("M,+,40,")),
        case(&some, Call::Release(1)),
        case(&some, Call::Release(200)),
        case(&some, Call::LookUp(some.last)),
        case(&twice, Call::LookUp(1)),
    ]
}

/// One in how many of the fixed cases with such a name goes into the file.
fn share(name: &str) -> usize {
    match name {
        _ if name.contains("at a limit in ") => 1,
        _ if name.starts_with("text ") || name.starts_with("line ") => 4,
        _ if name.contains(" zeros") || name.contains("types in ") => 3,
        _ if name.contains(" at ") || name.starts_with("byte ") => 4,
        _ => 1,
    }
}

/// The cases of the file: large ones, a share of the fixed ones, then random ones.
fn cases() -> Vec<StoreCase> {
    let mut rng = Random::new(SEED);
    let mut cases = large_cases();
    for (name, case) in store_probes() {
        if rng.once_in(share(&name)) && size(&case) <= MOST_BYTES {
            cases.push(case);
        }
    }
    while cases.len() < CASES {
        let case = random_case(&mut rng);
        if size(&case) <= SMALL_BYTES {
            cases.push(case);
        }
    }
    cases
}

/// Bytes of front and text.
fn size(case: &StoreCase) -> usize {
    let text = match &case.call {
        Call::Enter(text) => text.len(),
        _ => 0,
    };
    front(&case.store).len() + text
}

fn random_case(rng: &mut Random) -> StoreCase {
    let lines = lines(rng, Pool::Few);
    let list = catalogue(rng, &lines);
    let store = match rng.once_in(4) {
        true => damaged(rng, &list),
        false => stored(&list),
    };
    let manner = manner(rng);
    let call = call(rng, &list, &lines, &manner);
    StoreCase { store, call }
}

/// The text of a file of cases, as some calls answer them.
pub fn file_text(calls: StoreCalls, cases: &[StoreCase]) -> Vec<u8> {
    let mut text = Vec::new();
    for case in cases {
        write_case(calls, case, &mut text);
    }
    text
}

/// Writes the file; gives how many cases it holds.
pub fn write(folder: &Path) -> io::Result<usize> {
    let cases = cases();
    fs::write(folder.join(STORES_FILE), file_text(REFERENCE, &cases))?;
    Ok(cases.len())
}

/// The cases of a file, without their answers.
pub fn read(text: &[u8]) -> Result<Vec<StoreCase>, String> {
    let mut rest = text;
    let mut cases = Vec::new();
    while !rest.is_empty() {
        let end = rest.iter().position(|&b| b == b'\n');
        let end = end.ok_or("a header without LF")?;
        let header = std::str::from_utf8(&rest[..end]).map_err(|e| e.to_string())?;
        rest = &rest[end + 1..];
        cases.push(read_case(header, &mut rest).ok_or(format!("header {header:?}"))?);
    }
    Ok(cases)
}

fn read_case(header: &str, rest: &mut &[u8]) -> Option<StoreCase> {
    let (kind, numbers) = header.split_once(' ')?;
    let numbers = numbers.split(' ').map(|t| t.parse().ok());
    let numbers: Vec<u64> = numbers.collect::<Option<_>>()?;
    let (store, front, call) = match (kind, numbers.as_slice()) {
        ("E", &[_, _, _, store, front, text, after]) => {
            let front = take(rest, front)?;
            let text = take(rest, text)?;
            take(rest, after)?;
            (store, front, Call::Enter(text))
        }
        ("R", &[_, _, store, number, front, after]) => {
            let front = take(rest, front)?;
            take(rest, after)?;
            (store, front, Call::Release(number))
        }
        ("L", &[_, _, store, number, front, line]) => {
            let front = take(rest, front)?;
            take(rest, line)?;
            (store, front, Call::LookUp(number))
        }
        _ => return None,
    };
    let mut store_bytes = front;
    store_bytes.resize(store as usize, 0);
    Some(StoreCase {
        store: store_bytes,
        call,
    })
}
