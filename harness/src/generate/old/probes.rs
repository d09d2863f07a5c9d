//! Fixed calls on both sides of every limit of ask 11, each with what RULES 10.3 says of it.

use super::loosened;
use crate::generate::types::{sized_map, sized_node, Domain, IRREGULAR};
use crate::limits::{OLD_BYTES, REGULAR_OUT_BYTES, TYPE_BYTES, TYPE_NESTING, WORK_BYTES};
use crate::old::tree::Old;
use crate::random::Random;
use crate::reference::stand_ins::SmolStr;
use crate::reference::ty::Type;

/// A call with its number.
#[derive(Debug, Clone)]
pub struct OldProbe {
    pub name: &'static str,
    pub line: Vec<u8>,
    pub work: usize,
    pub out: usize,
    pub number: u32,
}

/// All probes.
pub fn old_probes() -> Vec<OldProbe> {
    let mut probes = Probes(Vec::new());
    probes.buffers();
    probes.irregular();
    probes.lengths();
    probes.nestings();
    probes.names();
    probes.results();
    probes.running_results();
    probes.empty_unions();
    probes.names_twice();
    probes.behind_a_large_part();
    probes.0
}

/// A map of so many entries, names descending: seven bytes each, and four.
fn map_of(entries: usize) -> String {
    let entry = |i: usize| format!("{i:04x},D,");
    format!("K,{}!,", (0..entries).rev().map(entry).collect::<String>())
}

/// A map of 1,033 bytes.
fn too_large() -> String {
    map_of(147)
}

/// Members of so many bytes: `D,` again and again, and one `M,+,,` if the number is odd.
fn members(bytes: usize) -> String {
    let odd = if bytes % 2 == 1 { "M,+,," } else { "" };
    odd.to_string() + &"D,".repeat((bytes - odd.len()) / 2)
}

/// Labels of so many bytes: `61,` again and again, and empty ones.
fn labels(bytes: usize) -> String {
    "61,".repeat(bytes / 3) + &",".repeat(bytes % 3)
}

struct Probes(Vec<OldProbe>);

impl Probes {
    fn add(&mut self, name: &'static str, line: impl Into<Vec<u8>>, number: u32) {
        self.0.push(OldProbe {
            name,
            line: line.into(),
            work: WORK_BYTES,
            out: REGULAR_OUT_BYTES,
            number,
        });
    }

    /// 2, then 7, then 12, then 6.
    fn buffers(&mut self) {
        for (work, out, refused) in [
            (WORK_BYTES, REGULAR_OUT_BYTES, None),
            (WORK_BYTES, REGULAR_OUT_BYTES + 1, None),
            (WORK_BYTES, WORK_BYTES, None),
            (WORK_BYTES, REGULAR_OUT_BYTES - 1, Some(7)),
            (WORK_BYTES, 0, Some(7)),
            (WORK_BYTES - 1, REGULAR_OUT_BYTES, Some(2)),
            (WORK_BYTES + 1, REGULAR_OUT_BYTES, Some(2)),
            (WORK_BYTES + 1, 0, Some(2)),
            (0, 0, Some(2)),
        ] {
            let (good, bad) = ("O,G,D,!,".to_string(), "x".to_string());
            for (line, number) in [(good, 0), (bad, 12), (too_large(), 6)] {
                self.add("buffers", line, refused.unwrap_or(number));
                let probe = self.0.last_mut().expect("one was added");
                (probe.work, probe.out) = (work, out);
            }
        }
    }

    /// Texts that are no type line: some are old lines.
    fn irregular(&mut self) {
        const OLD: [&str; 8] = [
            "K,62,A,61,B,!,",
            "L,+,61,61,!,",
            "L,+,62,61,!,",
            "O,!,",
            "O,A,!,",
            "O,A,A,!,",
            "O,B,A,!,",
            "O,A,O,B,C,!,!,",
        ];
        for line in IRREGULAR {
            self.add("irregular", line, if OLD.contains(&line) { 0 } else { 12 });
        }
    }

    fn lengths(&mut self) {
        let large = too_large();
        for bytes in [OLD_BYTES - 1, OLD_BYTES, OLD_BYTES + 1, OLD_BYTES + 2] {
            let over = bytes > OLD_BYTES;
            let (fits, too_large) = if over { (12, 12) } else { (0, 6) };
            let all = |n| members(bytes - n);
            self.add("length", format!("O,{}!,", all(4)), fits);
            self.add("length", format!("O,J,O,{}!,!,", all(10)), fits);
            self.add("length", format!("K,6161,O,{}!,!,", all(13)), fits);
            self.add("length", format!("L,+,{}!,", ",".repeat(bytes - 6)), fits);
            self.add("length", format!("J,L,+,{}!,", labels(bytes - 8)), fits);
            let line = format!("O,{large}{}!,", all(4 + large.len()));
            self.add("length and result", line, too_large);
            let line = format!("O,{}{large}!,", all(4 + large.len()));
            self.add("length and result", line, too_large);
        }
        for bytes in [5_000, 65_536, 65_538, 1 << 20] {
            self.add("length far over", format!("O,{}!,", members(bytes - 4)), 12);
        }
    }

    /// Every union of the text counts, also one that vanishes.
    fn nestings(&mut self) {
        let ends = ["D,", "O,!,", "K,!,", "L,+,62,61,!,", "M,+,61,"];
        for (before, behind) in [
            ("O,", "!,"),
            ("J,", ""),
            ("K,61,", "!,"),
            ("O,P,", "!,"),
            ("O,", "P,!,"),
            ("K,62,D,61,", "!,"),
            ("K,61,", "60,D,!,"),
        ] {
            for end in ends {
                for (nesting, number) in [(TYPE_NESTING, 0), (TYPE_NESTING + 1, 12)] {
                    let around = nesting - 1;
                    let line = before.repeat(around) + end + &behind.repeat(around);
                    self.add("nesting", line.clone(), number);
                    let line = format!("O,J,J,D,D,{line}!,");
                    self.add("nesting inside", line, 12);
                }
            }
        }
        let mixed = "J,O,".repeat(15);
        for (end, number) in [
            ("J,D,", 0),
            ("J,J,D,", 12),
            ("O,!,", 0),
            ("O,D,!,", 0),
            ("O,O,!,!,", 0),
        ] {
            self.add(
                "nesting mixed",
                mixed.clone() + end + &"!,".repeat(15),
                number,
            );
        }
    }

    fn names(&mut self) {
        for (digits, number) in [
            (0, 0),
            (1, 12),
            (2, 0),
            (509, 12),
            (510, 0),
            (511, 12),
            (512, 12),
            (514, 12),
        ] {
            let name = "6".repeat(digits);
            self.add("name", format!("M,+,{name},"), number);
            self.add("name", format!("L,+,{name},!,"), number);
            self.add("name", format!("L,+,7a,{name},!,"), number);
            self.add("name", format!("K,{name},D,!,"), number);
            self.add("name", format!("K,7a,D,{name},D,!,"), number);
        }
        for name in ["6A", "6g", "g6", " 61", "61 ", "-", "+", "6"] {
            self.add("name badly written", format!("L,+,61,{name},!,"), 12);
            self.add("name badly written", format!("K,{name},D,!,"), 12);
            self.add("name badly written", format!("M,+,{name},"), 12);
        }
    }

    /// The result at 1,024 bytes and at 1,025, whatever the text has.
    fn results(&mut self) {
        let rng = &mut Random::new(11);
        for (over, number) in [(0, 0), (1, 6), (2, 6)] {
            let bytes = TYPE_BYTES + over;
            let map = sized_map(rng, Domain::All, bytes);
            let node = sized_node(rng, bytes);
            let list = Type::List(Box::new(sized_map(rng, Domain::All, bytes - 2)));
            let entry = Type::Map([(SmolStr::new("a"), sized_node(rng, bytes - 7))].into());
            let members = [
                sized_map(rng, Domain::All, 500),
                sized_node(rng, bytes - 508),
            ];
            let union = Type::union([Type::Null, Type::Unknown].into_iter().chain(members));
            for ty in [map, node, list, entry, union] {
                let old = Old::of(&ty);
                self.add("result", old.line(), number);
                for often in [3, 8, 40] {
                    let other = loosened(rng, &old, often, TYPE_NESTING);
                    if other.line().len() <= OLD_BYTES {
                        self.add("result in other words", other.line(), number);
                    }
                }
            }
            for unions in [1, 12, TYPE_NESTING - 1] {
                let node = Old::of(&sized_node(rng, bytes)).line();
                let line = [b"O,".repeat(unions), node, b"!,".repeat(unions)];
                self.add("result in unions of one", line.concat(), number);
            }
        }
    }

    /// Much that is met again takes no place; what is new does.
    fn running_results(&mut self) {
        let map = map_of(100);
        let other = map_of(101);
        self.add("repeats", format!("O,{map}{map}{map}!,"), 0);
        self.add("repeats", format!("O,O,{map}!,O,D,{map}!,{map}!,"), 0);
        self.add("two large members", format!("O,{map}{map}{other}!,"), 6);
        self.add("two large members", format!("O,{map}O,{other}!,!,"), 6);
        self.add("two large entries", format!("K,62,{map}61,{map}!,"), 6);
        self.add("large in a list", format!("J,{}", too_large()), 6);
        self.add(
            "large in a small union",
            format!("O,O,{}!,D,!,", too_large()),
            6,
        );
        self.add(
            "large in an entry",
            format!("K,61,D,62,{}63,D,!,", too_large()),
            6,
        );
        let relationships = |count: usize| {
            let one = |i: usize| format!("M,+,{:02x},", i % 256);
            format!("O,{}!,", (0..count).rev().map(one).collect::<String>())
        };
        // Seven bytes each, and four.
        self.add("members", relationships(145), 0);
        self.add("members", relationships(146), 6);
        let labels = |count: usize| {
            let one = |i: usize| format!("{:02x},", i * 7 % 256);
            format!("L,+,{}!,", (0..count).map(one).collect::<String>())
        };
        self.add("labels", labels(256), 0);
        self.add("labels", labels(1_363), 0);
        self.add("entries", map_of(145), 0);
        self.add("entries", map_of(146), 6);
        self.add("entries", map_of(583), 6);
    }

    fn empty_unions(&mut self) {
        for line in [
            "O,!,",
            "O,O,!,!,",
            "O,O,O,!,!,!,",
            "O,O,!,O,!,!,",
            "O,O,!,D,!,",
            "O,D,O,!,!,",
            "O,P,O,!,!,",
            "O,D,O,O,!,!,!,",
            "O,D,O,O,!,D,!,!,",
            "J,O,!,",
            "J,O,O,!,!,",
            "J,O,D,O,!,!,",
            "O,J,O,!,J,P,!,",
            "O,J,O,!,J,D,!,",
            "K,61,O,!,!,",
            "K,62,O,!,61,O,O,!,!,!,",
            "O,K,61,O,!,!,K,61,P,!,!,",
            "O,K,!,L,!,O,!,M,!,!,",
        ] {
            self.add("empty union", line, 0);
        }
    }

    /// RULES 10.3: map entries in any order, their names distinct.
    fn names_twice(&mut self) {
        let many = map_of(50);
        for (line, number) in [
            ("K,61,D,61,G,!,", 12),
            ("K,61,D,61,D,!,", 12),
            ("K,,D,,D,!,", 12),
            ("K,61,D,62,D,61,D,!,", 12),
            ("K,62,D,61,D,63,D,62,D,!,", 12),
            ("K,61,D,6161,D,!,", 0),
            ("K,6161,D,61,D,,D,!,", 0),
            ("K,61,K,61,D,!,!,", 0),
            ("K,61,K,61,D,61,D,!,!,", 12),
            ("K,61,K,61,D,!,61,D,!,", 12),
            ("K,61,K,62,D,!,62,K,61,D,!,!,", 0),
            ("J,K,61,D,61,D,!,", 12),
            ("O,K,61,D,!,K,61,D,!,!,", 0),
            ("O,K,61,D,!,K,61,G,!,!,", 0),
            ("O,D,K,61,D,61,D,!,!,", 12),
            ("O,O,D,O,K,61,D,61,D,!,!,!,!,", 12),
        ] {
            self.add("names", line, number);
        }
        self.add("names", many.replace("!,", "0000,D,!,"), 12);
        self.add("names", many.replace("!,", "0031,D,!,"), 12);
        self.add("names", many.replace("!,", "0032,D,!,"), 0);
        let entries = map_of(583);
        self.add(
            "names of a large map",
            entries.replace("0000,", "0001,"),
            12,
        );
    }

    /// The whole text is read before 6 is said.
    fn behind_a_large_part(&mut self) {
        let large = too_large();
        let deep = "J,".repeat(TYPE_NESTING) + "D,";
        let long_name = format!("M,+,{},", "61".repeat(256));
        for bad in [
            "Q,",
            "!,",
            "D",
            "L,+,6,!,",
            "K,61,D,61,D,!,",
            "J,!,",
            ",",
            &deep,
            &long_name,
        ] {
            self.add("12 behind a large part", format!("{large}{bad}"), 12);
            self.add("12 behind a large part", format!("J,{large}{bad}"), 12);
            self.add("12 behind a large part", format!("O,{large}{bad}!,"), 12);
            self.add(
                "12 behind a large part",
                format!("O,J,{large}O,{bad}!,!,"),
                12,
            );
            self.add(
                "12 behind a large part",
                format!("K,61,{large}60,{bad}!,"),
                12,
            );
        }
        self.add("12 behind a large part", format!("K,61,{large}61,D,!,"), 12);
        self.add("12 behind a large part", format!("O,{large}"), 12);
        self.add("6 in front of the rest", format!("O,{large}D,O,!,!,"), 6);
        self.add("6 in front of the rest", format!("K,61,{large}60,D,!,"), 6);
    }
}
