//! Unification from either side: what the pairs reach, and that a call whose orders do not agree shows.

use cyrs_harness::calls::unify_call;
use cyrs_harness::exchange::{agrees, exchange_case, run};
use cyrs_harness::generate::union_free::{holds_union, union_free_pair};
use cyrs_harness::library::UnifyCall;
use cyrs_harness::limited::size::fits;
use cyrs_harness::limits::{TYPE_BYTES, TYPE_NESTING};
use cyrs_harness::random::Random;
use cyrs_harness::reference::ty::Type;
use cyrs_harness::reference::unify::unify;
use cyrs_harness::type_line::type_line;
use std::collections::BTreeSet;

fn nesting(ty: &Type) -> usize {
    match ty {
        Type::List(element) => 1 + nesting(element),
        Type::Map(fields) => 1 + fields.values().map(nesting).max().unwrap_or(0),
        Type::Union(members) => 1 + members.iter().map(nesting).max().unwrap_or(0),
        _ => 1,
    }
}

#[test]
fn both_sides_of_the_limits() {
    let mut rng = Random::new(1);
    let (mut bytes, mut levels) = (BTreeSet::new(), BTreeSet::new());
    let mut deepest = 0;
    for _ in 0..20_000 {
        let (a, b) = union_free_pair(&mut rng);
        assert!(!holds_union(&a) && !holds_union(&b));
        deepest = deepest.max(nesting(&a));
        if let (true, true, Ok(ty)) = (fits(&a), fits(&b), unify(&a, &b)) {
            bytes.insert(type_line(&ty).len());
            levels.insert(nesting(&ty));
        }
    }
    for more in 0..2 {
        assert!(bytes.contains(&(TYPE_BYTES + more)), "{more} bytes more");
        assert!(levels.contains(&(TYPE_NESTING - 1 + more)));
    }
    assert!(levels.contains(&(TYPE_NESTING + 1)));
    assert!(deepest > TYPE_NESTING);
}

#[test]
fn every_number() {
    let number = |seed| agrees(unify_call, &exchange_case(&mut Random::new(seed)));
    let numbers: BTreeSet<Option<u32>> = (0..3_000).map(number).collect();
    assert_eq!(numbers, [0, 2, 6, 7, 8, 9].map(Some).into());
}

#[test]
fn orders_that_do_not_agree_show() {
    assert!(run(unify_call, 300, 4));
    let lengths_stay: UnifyCall = |a, b, work, out| {
        let (number, first, second) = unify_call(a, b, work, out);
        match number {
            9 => (9, first.min(second), first.max(second)),
            _ => (number, first, second),
        }
    };
    let place_one: UnifyCall = |a, b, work, out| {
        let (number, first, second) = unify_call(a, b, work, out);
        (number, if number == 8 { 1 } else { first }, second)
    };
    let one_byte: UnifyCall = |a, b, work, out| {
        let answer = unify_call(a, b, work, out);
        if answer.0 == 0 && a < b {
            work[65_535] = 1;
        }
        answer
    };
    for faulty in [lengths_stay, place_one, one_byte] {
        assert!(!run(faulty, 300, 4));
    }
}
