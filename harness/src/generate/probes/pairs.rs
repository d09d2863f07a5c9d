//! Probes of the unify call.

use super::PairProbe;
use crate::generate::types::{nested, sized_map, sized_node, Domain, IRREGULAR};
use crate::limits::{TYPE_BYTES, TYPE_NESTING, UNIFY_OUT_BYTES, WORK_BYTES};
use crate::random::Random;
use crate::reference::stand_ins::SmolStr;
use crate::reference::ty::Type;
use crate::type_line::type_line;
use std::collections::BTreeMap;

fn pair(name: &str, a: &Type, b: &Type, number: u32) -> PairProbe {
    texts_pair(name, type_line(a), type_line(b), number, 0)
}

fn texts_pair(name: &str, a: Vec<u8>, b: Vec<u8>, number: u32, place: u64) -> PairProbe {
    PairProbe {
        name: name.to_string(),
        a,
        b,
        work: WORK_BYTES,
        out: UNIFY_OUT_BYTES,
        number,
        place,
    }
}

/// All probes of the unify call.
pub fn pair_probes() -> Vec<PairProbe> {
    let mut probes = Vec::new();
    pair_buffers(&mut probes);
    pair_texts(&mut probes);
    pair_sizes(&mut probes);
    pair_orders(&mut probes);
    probes
}

fn pair_buffers(probes: &mut Vec<PairProbe>) {
    for (work, out, number) in [
        (WORK_BYTES, UNIFY_OUT_BYTES, 0),
        (WORK_BYTES, UNIFY_OUT_BYTES + 1, 0),
        (WORK_BYTES, UNIFY_OUT_BYTES - 1, 7),
        (WORK_BYTES, 0, 7),
        (WORK_BYTES - 1, UNIFY_OUT_BYTES, 2),
        (WORK_BYTES + 1, 0, 2),
        (0, 0, 2),
    ] {
        let mut p = pair("buffers", &Type::Int, &Type::Null, number);
        p.work = work;
        p.out = out;
        probes.push(p.clone());
        p.name = "buffers before texts".into();
        p.a = b"x".to_vec();
        if number == 0 {
            p.number = 8;
            p.place = 1;
        }
        probes.push(p);
    }
}

fn pair_texts(probes: &mut Vec<PairProbe>) {
    for text in IRREGULAR {
        let bad = text.as_bytes().to_vec();
        let good = b"D,".to_vec();
        probes.push(texts_pair("irregular", bad.clone(), good.clone(), 8, 1));
        probes.push(texts_pair("irregular", good, bad.clone(), 8, 2));
        probes.push(texts_pair("irregular", bad.clone(), bad, 8, 1));
    }
    let name = |bytes: usize| format!("M,+,{},", "61".repeat(bytes)).into_bytes();
    let label = |bytes: usize| format!("L,+,{},!,", "61".repeat(bytes)).into_bytes();
    let key = |bytes: usize| format!("K,{},A,!,", "61".repeat(bytes)).into_bytes();
    for text in [name(255), label(255), key(255), name(0), label(0), key(0)] {
        probes.push(texts_pair("name fits", text, b"A,".to_vec(), 0, 0));
    }
    for text in [name(256), label(256), key(256)] {
        probes.push(texts_pair("name too long", b"A,".to_vec(), text, 8, 2));
    }
    for text in [
        "L,+,!,",
        "L,!,",
        "K,!,",
        "K,,A,!,",
        "L,+,,!,",
        "M,+,,",
        "O,K,!,L,!,!,",
        "N,",
    ] {
        probes.push(texts_pair("regular", text.into(), text.into(), 0, 0));
    }
}

fn map_of(entries: &[(&str, Type)]) -> Type {
    let fields: BTreeMap<SmolStr, Type> = entries
        .iter()
        .map(|(k, t)| (SmolStr::new(k), t.clone()))
        .collect();
    Type::Map(fields)
}

/// A map of one entry whose line has so many bytes, an odd number up to 517.
fn entry_type(name: &str, bytes: usize) -> Type {
    let name = format!("{name}{}", "x".repeat((bytes - 7) / 2 - name.len()));
    map_of(&[(&name, Type::Int)])
}

fn list(ty: Type) -> Type {
    Type::List(Box::new(ty))
}

fn pair_sizes(probes: &mut Vec<PairProbe>) {
    let mut rng = Random::new(5);
    for over in [0, 1, 2] {
        let map = sized_map(&mut rng, Domain::All, TYPE_BYTES + over);
        let node = sized_node(&mut rng, TYPE_BYTES + over);
        let (number, place) = if over == 0 { (0, 0) } else { (8, 1) };
        for ty in [map, node] {
            let line = type_line(&ty);
            probes.push(texts_pair("bytes", line.clone(), line, number, place));
        }
    }
    for (nesting, number, place) in [(32, 0, 0), (33, 8, 1)] {
        for seed in 0..8 {
            let line = type_line(&nested(&mut Random::new(seed), Domain::All, nesting));
            probes.push(texts_pair("nesting", line, b"A,".to_vec(), number, place));
        }
    }
    for over in [0, 1] {
        let number = if over == 0 { 0 } else { 6 };
        let null = Type::Null;
        // O, B, .. !, take six bytes more.
        let map = sized_map(&mut rng, Domain::All, TYPE_BYTES - 6 + over);
        probes.push(pair("nullable", &null, &map, number));
        probes.push(pair("nullable", &map, &null, number));
        // Two maps without a common name add up, less four bytes.
        let a = entry_type("a", 509);
        let b = sized_map(&mut rng, Domain::All, TYPE_BYTES + 4 - 509 + over);
        probes.push(pair("maps", &a, &b, number));
        probes.push(pair("maps", &b, &a, number));
        let c = sized_map(&mut rng, Domain::All, TYPE_BYTES + 2 - 509 + over);
        probes.push(pair("lists of maps", &list(a.clone()), &list(c), number));
        // Labels add up, less six.
        let l = sized_node(&mut rng, 508);
        let m = type_line(&sized_node(&mut rng, TYPE_BYTES + 6 - 508 + over));
        // Other names than in the first: lower-case letters in front.
        let m: Vec<u8> = lowered(&m);
        probes.push(texts_pair("labels", type_line(&l), m, number, 0));
        let deep = nested(&mut Random::new(40), Domain::All, TYPE_NESTING - 1 + over);
        if !matches!(deep, Type::Union(_) | Type::Null) {
            probes.push(pair("nullable nesting", &null, &deep, number));
        }
    }
    let largest = sized_map(&mut rng, Domain::All, TYPE_BYTES);
    let other = sized_node(&mut rng, TYPE_BYTES);
    probes.push(pair("largest mismatch", &largest, &other, 9));
    probes.push(pair("largest mismatch", &other, &largest, 9));
}

/// The label set with the first letter of each name in lower case: names of [`sized_node`] begin with a capital.
fn lowered(line: &[u8]) -> Vec<u8> {
    let mut fields: Vec<Vec<u8>> = line.split(|&b| b == b',').map(<[u8]>::to_vec).collect();
    for field in &mut fields {
        if field.len() > 1 && field[0] == b'4' {
            field[0] = b'6';
        }
    }
    fields.join(&b',')
}

fn pair_orders(probes: &mut Vec<PairProbe>) {
    let a = entry_type("a", 515);
    let b = entry_type("b", 515);
    let first = map_of(&[("p", Type::Int), ("q", a.clone())]);
    let second = map_of(&[("p", Type::Bool), ("q", b.clone())]);
    probes.push(pair("9 before 6", &first, &second, 9));
    let first = map_of(&[("p", a.clone()), ("q", Type::Int)]);
    let second = map_of(&[("p", b.clone()), ("q", Type::Bool)]);
    probes.push(pair("6 before 9", &first, &second, 6));
    // The map is too large only as a whole: a mismatch in a later field comes first.
    let first = map_of(&[("p", a.clone()), ("r", Type::Int)]);
    let second = map_of(&[("q", b.clone()), ("r", Type::Bool)]);
    probes.push(pair(
        "mismatch in a map that would be too large",
        &first,
        &second,
        9,
    ));
    let second = map_of(&[("q", b.clone()), ("r", Type::Int)]);
    probes.push(pair("map too large as a whole", &first, &second, 6));
    // A variant that does not unify is dropped, one that is too large stops the call.
    let union = Type::union([Type::Int, a.clone()]);
    probes.push(pair("variant too large", &union, &b, 6));
    probes.push(pair("variant too large", &b, &union, 6));
    let union = Type::union([Type::Int, Type::Bool]);
    probes.push(pair("no variant unifies", &union, &a, 0));
    probes.push(pair("no variant unifies", &b, &union, 0));
    // Where none unifies the union is widened: 2 bytes for Int, 509 and 509 or 510, and four around them.
    let mut rng = Random::new(9);
    let node = sized_node(&mut rng, 509);
    let union = Type::union([Type::Int, node]);
    for (bytes, number) in [(509, 0), (510, 6)] {
        let map = sized_map(&mut rng, Domain::All, bytes);
        probes.push(pair("widened union", &union, &map, number));
        probes.push(pair("widened union", &map, &union, number));
    }
    for (x, y, number) in [
        ("O,D,G,!,", "O,C,E,!,", 0),
        ("O,C,E,!,", "O,D,G,!,", 0),
        ("D,", "G,", 9),
        ("J,D,", "J,G,", 9),
        ("K,61,D,!,", "K,61,G,!,", 9),
        ("L,!,", "M,!,", 9),
        ("L,+,!,", "L,!,", 0),
        ("L,+,61,!,", "L,+,62,!,", 0),
        ("M,+,61,", "M,+,62,", 0),
        ("M,+,61,", "M,+,61,", 0),
        ("H,", "I,", 9),
        ("A,", "P,", 0),
        ("P,", "A,", 0),
        ("B,", "O,B,D,!,", 0),
        ("O,B,D,!,", "G,", 0),
        ("B,", "O,A,D,!,", 0),
        ("O,A,D,!,", "B,", 0),
        ("O,B,D,!,", "O,A,G,!,", 0),
        ("O,A,G,!,", "O,B,D,!,", 0),
        ("O,B,P,!,", "O,A,C,!,", 0),
        ("O,A,P,!,", "O,A,B,!,", 0),
        ("O,J,D,K,!,!,", "J,G,", 0),
    ] {
        probes.push(texts_pair("small", x.into(), y.into(), number, 0));
    }
}
