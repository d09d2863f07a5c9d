//! The type catalogue: worked stores byte by byte, both sides of every limit, and that the comparison sees faults.

use cyrs_harness::catalogue::calls::{enter_call, look_up_call, release_call};
use cyrs_harness::catalogue::cases::{answer, answer_in, REFERENCE};
use cyrs_harness::catalogue::compare::run;
use cyrs_harness::catalogue::in_place::IN_PLACE;
use cyrs_harness::catalogue::lines::{line_of, one_slot, short_lines};
use cyrs_harness::catalogue::probes::{every_byte, store_probes, taking};
use cyrs_harness::catalogue::sequence::{every_number, filled_and_released, many_short, Sequence};
use cyrs_harness::catalogue::store::{front, read_store, stored};
use cyrs_harness::catalogue::{Catalogue, Live, NUMBER, ROOM, STORE_BYTES, USES};
use cyrs_harness::library::{linked, StoreCalls, NOT_LINKED};
use cyrs_harness::random::Random;
use cyrs_harness::type_line::read_type_line;
use std::collections::BTreeSet;

fn empty() -> Vec<u8> {
    vec![0; STORE_BYTES]
}

#[test]
fn a_store_byte_by_byte() {
    let mut store = empty();
    assert_eq!(enter_call(&mut store, b"D,"), (0, 1, 1));
    assert_eq!(enter_call(&mut store, b"J,D,"), (0, 2, 1));
    assert_eq!(enter_call(&mut store, b"D,"), (0, 1, 2));
    let two = b"\x02\0\0\0\0\0\0\0\x01\0\x02\0\x02\0\0\0D,\x02\0\x04\0\x01\0\0\0J,D,";
    assert_eq!(front(&store), two);
    assert_eq!(look_up_call(&store, 1), (0, 16, 2, 2));
    assert_eq!(look_up_call(&store, 2), (0, 26, 4, 1));
    assert_eq!(look_up_call(&store, 3), (15, 0, 0, 0));
    assert_eq!(enter_call(&mut store, b"Q,"), (8, 1, 0));
    assert_eq!(release_call(&mut store, 1), (0, 1));
    assert_eq!(release_call(&mut store, 1), (0, 0));
    assert_eq!(release_call(&mut store, 1), (15, 0));
    // The text moved, its number did not.
    assert_eq!(
        front(&store),
        b"\x02\0\0\0\0\0\0\0\x02\0\x04\0\x01\0\0\0J,D,"
    );
    assert_eq!(look_up_call(&store, 2), (0, 16, 4, 1));
    // Entered again it gets a new number.
    assert_eq!(enter_call(&mut store, b"D,"), (0, 3, 1));
    assert_eq!(release_call(&mut store, 2), (0, 0));
    assert_eq!(release_call(&mut store, 3), (0, 0));
    assert_eq!(front(&store), b"\x03");
    assert_eq!(store.len(), STORE_BYTES);
}

#[test]
fn other_lengths() {
    for len in [0, 7, 8, 65_528, 65_535, 65_537] {
        let mut store = vec![0; len];
        assert_eq!(enter_call(&mut store, b"D,"), (2, 0, 0));
        assert_eq!(enter_call(&mut store, b"D"), (2, 0, 0));
        assert_eq!(release_call(&mut store, 1), (2, 0));
        assert_eq!(look_up_call(&store, 1), (2, 0, 0, 0));
        assert_eq!(store, vec![0; len]);
    }
}

fn one(last: u64, number: u64, uses: u64) -> Catalogue {
    let line = b"D,".to_vec();
    Catalogue {
        last,
        live: vec![Live { number, line, uses }],
    }
}

#[test]
fn numbers_and_uses_at_their_limits() {
    let mut store = stored(&one(NUMBER, 7, USES - 1));
    assert_eq!(enter_call(&mut store, b"E,"), (14, 0, 0));
    assert_eq!(enter_call(&mut store, b"E"), (8, 1, 0));
    assert_eq!(enter_call(&mut store, b"D,"), (0, 7, USES));
    assert_eq!(enter_call(&mut store, b"D,"), (14, 0, 0));
    assert_eq!(look_up_call(&store, 7), (0, 16, 2, USES));
    assert_eq!(look_up_call(&store, 7 + 65_536), (15, 0, 0, 0));
    assert_eq!(look_up_call(&store, u64::MAX), (15, 0, 0, 0));
    assert_eq!(release_call(&mut store, 0), (15, 0));
    assert_eq!(release_call(&mut store, 7), (0, USES - 1));
    let mut store = stored(&one(NUMBER - 1, 1, 1));
    assert_eq!(enter_call(&mut store, b"E,"), (0, NUMBER, 1));
    assert_eq!(enter_call(&mut store, b"F,"), (14, 0, 0));
}

#[test]
fn room() {
    let line = |bytes| line_of(&mut Random::new(9), bytes).unwrap();
    let mut store = stored(&taking(ROOM - 100));
    assert_eq!(enter_call(&mut store, &line(93)), (13, 0, 0));
    assert_eq!(enter_call(&mut store, &line(92)).0, 0);
    assert_eq!(front(&store).len(), STORE_BYTES);
    assert_eq!(enter_call(&mut store, b"D,"), (13, 0, 0));
    // Room comes back with a release; without numbers 14 comes first.
    assert_eq!(release_call(&mut store, 3), (0, 0));
    assert_eq!(enter_call(&mut store, b"D,").0, 0);
    let mut list = taking(ROOM);
    list.last = NUMBER;
    let mut store = stored(&list);
    assert_eq!(enter_call(&mut store, b"D,"), (14, 0, 0));
    assert_eq!(enter_call(&mut store, &list.live[4].line), (0, 5, 2));
}

#[test]
fn stores_that_are_none() {
    let good = one(3, 2, 1);
    assert_eq!(read_store(&stored(&good)), Some(good.clone()));
    let changed = |change: fn(&mut Catalogue)| {
        let mut list = good.clone();
        change(&mut list);
        read_store(&stored(&list))
    };
    assert_eq!(changed(|l| l.last = 1), None);
    assert_eq!(changed(|l| l.live[0].number = 0), None);
    assert_eq!(changed(|l| l.live[0].number = 4), None);
    assert_eq!(changed(|l| l.live[0].uses = 0), None);
    assert_eq!(changed(|l| l.live[0].line.clear()), None);
    assert_eq!(changed(|l| l.live[0].line = b"D".to_vec()), None);
    assert_eq!(changed(|l| l.live.push(l.live[0].clone())), None);
    for number in [1, 2] {
        let mut list = good.clone();
        list.live.push(Live {
            number,
            line: b"E,".to_vec(),
            uses: 1,
        });
        assert_eq!(read_store(&stored(&list)), None);
        list.live[1].number = 3;
        assert_eq!(read_store(&stored(&list)), Some(list.clone()));
        list.live[1].line = b"D,".to_vec();
        assert_eq!(read_store(&stored(&list)), None);
    }
    for at in (2..8).chain([18, 19, 26, 65_535]) {
        let mut store = stored(&good);
        store[at] = 1;
        assert_eq!(read_store(&store), None, "{at}");
    }
}

/// Every store of a sequence reads back as its list, and the calls on the store answer as on the list.
#[test]
fn stores_and_lists_agree() {
    for seed in 0..40 {
        let (mut sequence, mut list) = Sequence::new(seed);
        let mut store = stored(&list);
        for _ in 0..250 {
            let Some(call) = sequence.next(&list) else {
                break;
            };
            let expected = answer_in(&mut list, &call);
            assert_eq!(answer(REFERENCE, &mut store, &call), expected);
            assert!(store == stored(&list));
            assert_eq!(read_store(&store).as_ref(), Some(&list));
        }
    }
}

/// What the fixed cases reach: every number of every call, both for stores that have the form and others.
#[test]
fn every_number_of_every_call() {
    let mut seen = BTreeSet::new();
    for (_, case) in store_probes() {
        let answer = answer(REFERENCE, &mut case.store.clone(), &case.call);
        seen.insert((case.call.kind(), answer.number));
    }
    let enter = [0, 2, 8, 13, 14].map(|n| (0, n));
    let others = [1, 2].map(|kind| [0, 2, 15].map(|n| (kind, n)));
    let all = enter.into_iter().chain(others.into_iter().flatten());
    assert_eq!(seen, all.collect());
    let accepted = every_byte().filter(|(_, case)| read_store(&case.store).is_some());
    let accepted = accepted.count();
    assert!(accepted > 10_000 && accepted < every_byte().count() / 2);
    for (calls, last, types) in [
        (every_number(), NUMBER, 0),
        (filled_and_released(), 68, 1),
        // 3,893 fit; 699 are released; 78 of those and 3 others are entered.
        (many_short(), 3_893 + 81, 3_893 - 699 + 81),
    ] {
        let mut list = Catalogue::default();
        for call in &calls {
            answer_in(&mut list, call);
        }
        assert_eq!((list.last, list.live.len()), (last, types));
    }
}

#[test]
fn lines_to_enter() {
    let mut rng = Random::new(6);
    for bytes in 0..1_100 {
        let line = line_of(&mut rng, bytes);
        assert_eq!(
            line.is_some(),
            matches!(bytes, 5 | 7 | 9..=1_024),
            "{bytes}"
        );
        if let Some(line) = line {
            assert_eq!(line.len(), bytes);
            assert!(read_type_line(&line).is_some());
        }
    }
    let short: BTreeSet<Vec<u8>> = short_lines().take(4_000).collect();
    assert_eq!(short.len(), 4_000);
    assert!(short.iter().all(|l| read_type_line(l).is_some()));
    assert!(one_slot().take(3).all(|l| read_type_line(&l).is_some()));
}

#[test]
#[cfg_attr(not(cyrs_linked), ignore = "no library is linked (CYRS_LIB)")]
fn linked_store_calls() {
    let library = linked().expect(NOT_LINKED);
    assert!(run(library.store, 5_000, 3));
}

/// The two forms in Rust agree.
#[test]
fn in_place() {
    assert!(run(IN_PLACE, 10_000, 8));
}

/// A fault in one call shows.
#[test]
fn faulty_calls_show() {
    let faulty = [
        // The last number given lowered with the type.
        StoreCalls {
            release: |store, number| {
                let answer = release_call(store, number);
                if answer == (0, 0) && number == u64::from(store[0]) && store[1] == 0 {
                    store[0] -= 1;
                }
                answer
            },
            ..REFERENCE
        },
        // A byte behind the last type left.
        StoreCalls {
            release: |store, number| {
                let before = front(store).len();
                let answer = release_call(store, number);
                if answer == (0, 0) {
                    store[before - 1] = b',';
                }
                answer
            },
            ..REFERENCE
        },
        // 13 before 14.
        StoreCalls {
            enter: |store, text| match enter_call(store, text) {
                (14, ..) if front(store).len() + 8 + text.len() > STORE_BYTES => (13, 0, 0),
                answer => answer,
            },
            ..REFERENCE
        },
        // The number cut to 16 bits.
        StoreCalls {
            look_up: |store, number| look_up_call(store, number % 65_536),
            ..REFERENCE
        },
        // The place of the head for that of the line.
        StoreCalls {
            look_up: |store, number| match look_up_call(store, number) {
                (0, at, length, uses) => (0, at - 8, length, uses),
                answer => answer,
            },
            ..REFERENCE
        },
        // A refused text written over the store's last byte.
        StoreCalls {
            enter: |store, text| {
                let answer = enter_call(store, text);
                if answer.0 == 8 {
                    store[STORE_BYTES - 1] = 0xff;
                }
                answer
            },
            ..REFERENCE
        },
    ];
    for (i, calls) in faulty.into_iter().enumerate() {
        assert!(!run(calls, 100, 4), "{i}");
    }
}
