//! Type lines: every variant written and read back, the strict reader, and the order of lines.

use cyrs_harness::generate::types::{
    any_type, large, nested, sized_map, sized_node, wide_union, Domain, IRREGULAR,
};
use cyrs_harness::limited::size::{fits, list_fits};
use cyrs_harness::random::Random;
use cyrs_harness::reference::ty::Type;
use cyrs_harness::type_line::{read_type_line, type_line};

#[test]
fn regular_lines_read_back() {
    let lines = [
        "A,",
        "B,",
        "C,",
        "D,",
        "E,",
        "F,",
        "G,",
        "H,",
        "I,",
        "J,A,",
        "K,!,",
        "K,,A,!,",
        "K,61,J,D,6161,B,!,",
        "L,!,",
        "L,+,!,",
        "L,+,,61,!,",
        "M,!,",
        "M,+,,",
        "M,+,ff,",
        "N,",
        "O,A,B,!,",
        "O,K,!,L,!,L,+,!,!,",
        "P,",
        "J,O,B,J,O,B,D,!,!,",
    ];
    for line in lines {
        let ty = read_type_line(line.as_bytes()).unwrap_or_else(|| panic!("{line}"));
        assert_eq!(type_line(&ty), line.as_bytes());
    }
}

#[test]
fn irregular_lines_are_none() {
    for line in IRREGULAR {
        assert_eq!(read_type_line(line.as_bytes()), None, "{line}");
    }
}

#[test]
fn limits_of_a_line() {
    let mut rng = Random::new(3);
    for bytes in 1_000..1_050 {
        for ty in [
            sized_map(&mut rng, Domain::All, bytes),
            sized_node(&mut rng, bytes),
        ] {
            let line = type_line(&ty);
            assert_eq!(line.len(), bytes);
            assert_eq!(read_type_line(&line).is_some(), bytes <= 1_024);
            assert_eq!(fits(&ty), bytes <= 1_024);
            assert_eq!(list_fits(&ty), bytes <= 1_022);
        }
    }
    for nesting in 1..40 {
        let ty = nested(&mut rng, Domain::Sheet, nesting);
        let short = type_line(&ty).len() <= 1_000;
        assert_eq!(
            read_type_line(&type_line(&ty)).is_some(),
            short && nesting <= 32
        );
        assert_eq!(fits(&ty), short && nesting <= 32);
        assert_eq!(list_fits(&ty), short && nesting <= 31);
    }
}

#[test]
fn lines_are_ordered_as_types() {
    let mut rng = Random::new(4);
    let mut types: Vec<Type> = (0..400)
        .map(|i| match i % 4 {
            0 => large(&mut rng, Domain::All),
            _ => any_type(&mut rng, Domain::All, 4),
        })
        .collect();
    types.sort();
    let lines: Vec<Vec<u8>> = types.iter().map(type_line).collect();
    assert!(lines.windows(2).all(|w| w[0] <= w[1]));
    assert!(types
        .windows(2)
        .zip(lines.windows(2))
        .all(|(t, l)| (t[0] == t[1]) == (l[0] == l[1])));
}

/// The ground for one size test of a union: a first part of the arguments is too large only if the whole is.
#[test]
fn a_union_only_grows() {
    let mut rng = Random::new(5);
    for _ in 0..2_000 {
        let types: Vec<Type> = (0..rng.between(0, 7))
            .map(|_| match rng.once_in(3) {
                true => wide_union(&mut rng, Domain::All),
                false => any_type(&mut rng, Domain::All, 4),
            })
            .collect();
        let parts = (0..=types.len()).map(|n| fits(&Type::union(types[..n].to_vec())));
        let parts: Vec<bool> = parts.collect();
        assert!(parts.windows(2).all(|w| w[0] || !w[1]));
    }
}
