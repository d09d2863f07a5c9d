//! The linked call against the reference on the same old lines: both read them, make them regular and write the line.

use super::call::{regular_call, regular_line};
use crate::bench::family::{turns, Family, Ready, Side, Turns};
use crate::library::RegularCall;
use crate::limits::{OLD_BYTES, REGULAR_OUT_BYTES, TYPE_NESTING, WORK_BYTES};
use crate::random::Random;
use std::hint::black_box;
use std::rc::Rc;

/// Fields in any order.
fn shuffled(fields: impl Iterator<Item = String>) -> String {
    let mut fields: Vec<String> = fields.collect();
    Random::new(1).shuffle(&mut fields);
    fields.concat()
}

/// The old lines, each with its name.
fn lines() -> Vec<(&'static str, String)> {
    let ascending: String = (0..255).map(|i| format!("{i:02x},")).collect();
    let labels = shuffled((0..1_363).map(|i| format!("{:02x},", i % 256)));
    let small_map = shuffled((0..200).map(|i| format!("{i:02x},D,")));
    let large_map = shuffled((0..583).map(|i| format!("{i:04x},D,")));
    let flat = |i: usize| format!("{},", b"ABCDEFGHINP"[i % 11] as char);
    let members = shuffled((0..2_046).map(flat));
    let types = shuffled((0..584).map(|i| format!("M,+,{:02x},", i % 145)));
    let unions = TYPE_NESTING - 1;
    vec![
        ("list-of-int", "J,D,".to_string()),
        ("255-labels-ascending", format!("L,+,{ascending}!,")),
        ("1363-labels-of-256", format!("L,+,{labels}!,")),
        ("200-entries", format!("K,{small_map}!,")),
        ("583-entries-refused", format!("K,{large_map}!,")),
        ("2046-flat-members", format!("O,{members}!,")),
        ("584-members-of-145", format!("O,{types}!,")),
        (
            "31-unions-of-one",
            "O,".repeat(unions) + "D," + &"!,".repeat(unions),
        ),
    ]
}

fn call_turns(call: RegularCall, lines: &Rc<Vec<Vec<u8>>>) -> Turns {
    let (mut work, mut out) = (vec![0; WORK_BYTES], vec![0; REGULAR_OUT_BYTES]);
    turns(lines, move |line| {
        black_box(call(line, &mut work, &mut out));
    })
}

fn ready(linked: RegularCall, line: &str) -> Ready {
    assert!(line.len() <= OLD_BYTES);
    let lines = Rc::new(vec![line.as_bytes().to_vec()]);
    let plain = turns(&lines, |line| {
        let _ = black_box(regular_line(line));
    });
    Ready {
        bytes: line.len(),
        calls: lines.len(),
        sides: vec![
            (Side::Library, call_turns(linked, &lines)),
            (Side::Reference, call_turns(regular_call, &lines)),
            (Side::Bare, plain),
        ],
    }
}

/// A family for each line.
pub fn families(linked: RegularCall) -> Vec<Family> {
    let family = |(name, line): (&str, String)| {
        Family::new(format!("old/{name}"), move || ready(linked, &line))
    };
    lines().into_iter().map(family).collect()
}
