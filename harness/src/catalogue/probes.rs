//! Stores written by hand: both sides of every limit and every rule of the form broken once, each with calls on it.

use super::cases::{Call, StoreCase};
use super::lines::line_of;
use super::store::{front, line_at, stored};
use super::{Catalogue, Live, LIVE_HEAD, NUMBER, ROOM, STORE_BYTES, USES};
use crate::generate::types::{nested, sized_map, sized_node, Domain, IRREGULAR};
use crate::limits::{TYPE_BYTES, TYPE_NESTING};
use crate::random::Random;
use crate::type_line::type_line;

/// The fixed cases with their names.
pub fn store_probes() -> Vec<(String, StoreCase)> {
    let mut probes = Probes::default();
    probes.lengths();
    probes.texts();
    probes.numbers();
    probes.uses();
    probes.form();
    probes.lines_in_store();
    probes.compaction();
    probes.room();
    probes.last_bytes();
    probes.cases
}

/// A small store in which each byte of the front, and some behind it, is made each other one, with every call.
pub fn every_byte() -> impl Iterator<Item = (String, StoreCase)> {
    let whole = stored(&three());
    let places = front(&whole).len() + LIVE_HEAD + 2;
    let changes = (0..places).flat_map(|at| (1..=255).map(move |other| (at, other)));
    changes.flat_map(move |(at, other)| {
        let mut store = whole.clone();
        store[at] ^= other;
        let calls = [
            enter("D,"),
            enter("E,"),
            Call::Release(2),
            Call::LookUp(3),
            Call::LookUp(256),
        ];
        calls.into_iter().map(move |call| {
            let store = store.clone();
            (format!("byte {at} changed"), StoreCase { store, call })
        })
    })
}

fn live(number: u64, line: &[u8], uses: u64) -> Live {
    let line = line.to_vec();
    Live { number, line, uses }
}

fn enter(line: &str) -> Call {
    Call::Enter(line.as_bytes().to_vec())
}

/// Three types with other numbers between.
fn three() -> Catalogue {
    Catalogue {
        last: 258,
        live: vec![
            live(2, b"D,", 1),
            live(3, b"J,D,", 259),
            live(256, b"M,+,6162,", 65_536),
        ],
    }
}

/// Lists of this nesting around Int.
fn lists(nesting: usize) -> Vec<u8> {
    [&b"J,".repeat(nesting - 1)[..], b"D,"].concat()
}

/// A list whose types take so many bytes: lines as long as they may be, and one for the rest.
pub fn taking(bytes: usize) -> Catalogue {
    let mut rng = Random::new(bytes as u64);
    let mut list = Catalogue::default();
    let long = LIVE_HEAD + TYPE_BYTES;
    let mut left = bytes;
    while left > 0 {
        let next = match left {
            _ if left <= long => left,
            // What is left behind it must be enough for a line.
            _ if left < long + 100 => left / 2,
            _ => long,
        };
        list.last += 1;
        let line = line_of(&mut rng, next - LIVE_HEAD).unwrap_or_default();
        list.live.push(live(list.last, &line, 1));
        left -= next;
    }
    list
}

/// A way to break the form at one of the three types, with its name.
type Break = (&'static str, fn(&mut Catalogue, usize));

#[derive(Default)]
struct Probes {
    cases: Vec<(String, StoreCase)>,
}

impl Probes {
    fn call(&mut self, name: &str, store: Vec<u8>, call: Call) {
        self.cases
            .push((name.to_string(), StoreCase { store, call }));
    }

    fn calls(&mut self, name: &str, list: &Catalogue, calls: impl IntoIterator<Item = Call>) {
        for call in calls {
            self.call(name, stored(list), call);
        }
    }

    /// Each kind of call, one of them with a text that is no type line.
    fn all_calls(&mut self, name: &str, store: &[u8]) {
        let calls = [
            enter("D,"),
            enter("x"),
            Call::Release(2),
            Call::LookUp(2),
            Call::LookUp(9),
        ];
        for call in calls {
            self.call(name, store.to_vec(), call);
        }
    }

    fn lengths(&mut self) {
        let whole = stored(&three());
        for len in [0, 1, 2, 7, 8, 9, 47, 65_528, 65_535, 65_536, 65_537] {
            self.all_calls(&format!("{len} zeros"), &vec![0; len]);
            let mut store = whole.clone();
            store.resize(len, 0);
            self.all_calls(&format!("three types in {len} bytes"), &store);
        }
    }

    /// Every kind of text is entered in an empty store and beside three types.
    fn texts(&mut self) {
        let mut rng = Random::new(1);
        let lines = ["A,", "P,", "K,!,", "L,+,!,", "M,+,,", "O,B,D,!,"];
        for text in IRREGULAR.iter().chain(&lines) {
            self.text("text", text.as_bytes());
        }
        for bytes in TYPE_BYTES - 1..TYPE_BYTES + 3 {
            let (node, map) = (
                sized_node(&mut rng, bytes),
                sized_map(&mut rng, Domain::All, bytes),
            );
            self.text("text at a limit", &type_line(&node));
            self.text("text at a limit", &type_line(&map));
        }
        for nesting in TYPE_NESTING - 1..TYPE_NESTING + 2 {
            self.text("text at a limit", &lists(nesting));
            let mixed = nested(&mut rng, Domain::Sheet, nesting);
            self.text("text at a limit", &type_line(&mixed));
        }
        self.text("long text", &b"D,".repeat(33_000));
    }

    fn text(&mut self, name: &str, text: &[u8]) {
        let call = || [Call::Enter(text.to_vec())];
        let none = Catalogue::default();
        self.calls(&format!("{name} in an empty store"), &none, call());
        self.calls(&format!("{name} beside three types"), &three(), call());
    }

    fn numbers(&mut self) {
        let asked = [
            0,
            1,
            2,
            3,
            4,
            255,
            256,
            257,
            258,
            259,
            NUMBER,
            NUMBER + 1,
            NUMBER + 3,
            (1 << 32) + 2,
            (1 << 48) + 3,
            (1 << 63) + 2,
            u64::MAX,
        ];
        for list in [Catalogue::default(), three()] {
            self.calls("number released", &list, asked.map(Call::Release));
            self.calls("number looked up", &list, asked.map(Call::LookUp));
        }
        for last in [1, 254, 255, 256, 65_279, NUMBER - 1, NUMBER] {
            let none = Catalogue {
                last,
                live: Vec::new(),
            };
            let one = Catalogue {
                last,
                live: vec![live(last, b"G,", 2)],
            };
            let calls = || {
                [
                    enter("G,"),
                    enter("H,"),
                    enter("H"),
                    Call::Release(last),
                    Call::LookUp(last),
                    Call::LookUp(last + 1),
                ]
            };
            self.calls(&format!("last {last}, no type"), &none, calls());
            self.calls(&format!("last {last}, one type"), &one, calls());
        }
    }

    fn uses(&mut self) {
        for uses in [1, 2, 255, 256, 257, 65_535, 65_536, 1 << 24, USES - 1, USES] {
            let mut list = three();
            list.live[1].uses = uses;
            let calls = [
                enter("J,D,"),
                enter("E,"),
                enter("J,D"),
                Call::Release(3),
                Call::LookUp(3),
            ];
            self.calls(&format!("{uses} uses"), &list, calls);
            // 14 for either reason comes before 13, and a type that is present needs no number.
            list.last = NUMBER;
            let calls = [enter("J,D,"), enter("D,"), enter("E,")];
            self.calls(&format!("{uses} uses, last {NUMBER}"), &list, calls);
        }
    }

    /// A rule of the form broken in each place where it holds.
    fn form(&mut self) {
        let whole = stored(&three());
        for at in 2..8 {
            let mut store = whole.clone();
            store[at] = 1;
            self.all_calls(&format!("byte {at} of the head"), &store);
        }
        let breaks: [Break; 9] = [
            ("number 0", |l, i| l.live[i].number = 0),
            ("number of the next", |l, i| {
                l.live[i].number = l.live[(i + 1) % 3].number;
            }),
            ("number above the next", |l, i| l.live[i].number = 257),
            ("the last number", |l, i| l.live[i].number = l.last),
            ("number above the last", |l, i| {
                l.live[i].number = l.last + 1;
            }),
            ("last below", |l, i| l.last = l.live[i].number - 1),
            ("no uses", |l, i| l.live[i].uses = 0),
            ("line of the next", |l, i| {
                l.live[i].line = l.live[(i + 1) % 3].line.clone();
            }),
            ("places exchanged", |l, i| l.live.swap(i, (i + 1) % 3)),
        ];
        for (name, change) in breaks {
            for place in 0..3 {
                let mut list = three();
                change(&mut list, place);
                self.all_calls(&format!("{name} at {place}"), &stored(&list));
            }
        }
        let end = front(&whole).len();
        for at in [end, end + 1, end + 2, end + 4, end + 8, 40_000, 65_535] {
            let mut store = whole.clone();
            store[at] = 1;
            self.all_calls(&format!("byte {at} behind"), &store);
        }
        for place in 0..3 {
            self.line_lengths(place);
        }
    }

    fn line_lengths(&mut self, place: usize) {
        let list = three();
        let line = line_at(&list, place);
        let length = list.live[place].line.len();
        let to_end = STORE_BYTES - line;
        for other in [
            0,
            1,
            length - 1,
            length + 1,
            length + 256,
            1_024,
            1_025,
            to_end - 1,
            to_end,
            to_end + 1,
            65_535,
        ] {
            let mut store = stored(&list);
            store[line - 6..line - 4].copy_from_slice(&(other as u16).to_le_bytes());
            self.all_calls(&format!("length {other} at {place}"), &store);
        }
    }

    /// Lines that are none, at the limits, or twice there.
    fn lines_in_store(&mut self) {
        let mut rng = Random::new(2);
        for (i, text) in IRREGULAR.iter().enumerate() {
            self.line_in("line in a store", i, text.as_bytes().to_vec());
        }
        for bytes in [256, 512, 768, 1_023, 1_024, 1_025, 1_026] {
            let line = type_line(&sized_node(&mut rng, bytes));
            self.line_in("line at a limit in a store", bytes, line);
        }
        for nesting in [TYPE_NESTING, TYPE_NESTING + 1] {
            self.line_in("line at a limit in a store", nesting, lists(nesting));
        }
        for (first, second) in [(0, 1), (0, 299), (298, 299), (7, 150)] {
            let names = (0..300).map(|i| format!("M,+,{:04x},", i * 37));
            let types = names
                .zip(1..)
                .map(|(line, n)| live(n, line.as_bytes(), n * 3));
            let mut list = Catalogue {
                last: 300,
                live: types.collect(),
            };
            let calls = || [enter("D,"), Call::Release(9), Call::LookUp(300)];
            self.calls("300 types", &list, calls());
            list.live[second].line = list.live[first].line.clone();
            self.calls("300 types, two equal", &list, calls());
        }
    }

    /// A line in the place of one of the three.
    fn line_in(&mut self, name: &str, place: usize, line: Vec<u8>) {
        let mut list = three();
        list.live[place % 3].line = line;
        let calls = [enter("J,D,"), Call::LookUp(256), Call::Release(2)];
        self.calls(name, &list, calls);
    }

    fn compaction(&mut self) {
        let mut list = three();
        list.live.iter_mut().for_each(|l| l.uses = 1);
        self.calls(
            "the last use released",
            &list,
            [2, 3, 256].map(Call::Release),
        );
        for gone in 0..3 {
            let mut list = list.clone();
            list.live.remove(gone);
            let calls = [
                enter("D,"),
                enter("J,D,"),
                enter("M,+,6162,"),
                Call::Release(3),
                Call::LookUp(256),
            ];
            self.calls("a type gone", &list, calls);
        }
    }

    /// 65,528 bytes together and one more; then with no number left, with uses at their limit, with a text that is none.
    fn room(&mut self) {
        let mut rng = Random::new(3);
        let line = |rng: &mut Random, bytes| line_of(rng, bytes).unwrap_or_default();
        for taken in [ROOM - 300, ROOM - 17, ROOM - 10, ROOM - 1, ROOM] {
            let list = taking(taken);
            let left = ROOM - taken;
            for bytes in [left + 1, left, left.saturating_sub(1)] {
                let text = line(&mut rng, bytes.saturating_sub(LIVE_HEAD));
                self.calls(&format!("{bytes} of {left}"), &list, [Call::Enter(text)]);
            }
            let present = list.live[5].line.clone();
            let calls = [
                Call::Enter(present.clone()),
                enter("A,"),
                enter("C,"),
                Call::LookUp(list.last),
                Call::Release(1),
                Call::Release(31),
                Call::Release(list.last),
            ];
            self.calls(&format!("{left} left"), &list, calls);
            let mut used_up = list.clone();
            used_up.last = NUMBER;
            used_up.live[5].uses = USES;
            let lines = [enter("C,"), enter("C"), Call::Enter(present)];
            let name = format!("{left} left, last {NUMBER}");
            self.calls(&name, &used_up, lines);
        }
    }

    /// Fewer than eight bytes behind the last type, zeros and not; a type that passes the end.
    fn last_bytes(&mut self) {
        for left in 0..=LIVE_HEAD + 2 {
            let whole = stored(&taking(ROOM - left));
            let call = || Call::LookUp(64);
            self.call(&format!("{left} bytes behind"), whole.clone(), call());
            for at in STORE_BYTES - left..STORE_BYTES {
                let mut store = whole.clone();
                store[at] = 1;
                self.call(&format!("{left} bytes behind, one not 0"), store, call());
            }
        }
        for over in 1..=LIVE_HEAD {
            let store = stored(&taking(ROOM + over));
            self.call(&format!("types pass the end by {over}"), store, enter("D,"));
        }
    }
}
