//! Unification from either side (RULES 10.2, ask 7): two texts in both orders, every byte of both buffers.

use crate::cases::{pair_call, Case};
use crate::differential::{settle_pair, show_buffers, show_case, show_settled, Settled, SHOWN};
use crate::generate::union_free::{holds_union, union_free_texts};
use crate::library::UnifyCall;
use crate::random::Random;
use crate::shrink::smallest;
use crate::type_line::read_type_line;
use std::time::Instant;

/// What the first order's answer says of the second's.
#[derive(Debug, Clone, Copy, PartialEq, Eq)]
enum Turn {
    /// Two type lines without unions: with 9 expected and actual change places, else the same.
    Exchanged,
    /// A type line and a text that is none: with 8 the other place, else the same.
    OtherPlace,
    /// Two texts that are no type lines: the same.
    Same,
}

/// What is to hold of two texts; nothing if both are type lines and one holds a union.
fn turn(a: &[u8], b: &[u8]) -> Option<Turn> {
    match (read_type_line(a), read_type_line(b)) {
        (Some(t), Some(u)) if holds_union(&t) || holds_union(&u) => None,
        (Some(_), Some(_)) => Some(Turn::Exchanged),
        (None, None) => Some(Turn::Same),
        _ => Some(Turn::OtherPlace),
    }
}

/// The second order's answer, by the first's.
fn turned(mut there: Settled, turn: Turn) -> Settled {
    match (turn, there.number) {
        (Turn::Exchanged, 9) => {
            let (expected, actual) = (there.first as usize, there.second as usize);
            there.out_mut()[..expected + actual].rotate_left(expected);
            (there.first, there.second) = (there.second, there.first);
        }
        (Turn::OtherPlace, 8) => there.first = 3 - there.first,
        _ => {}
    }
    there
}

/// A call's answer in the first order, and in the second as it is to be and as it is.
struct Orders {
    there: Settled,
    expected: Settled,
    back: Settled,
}

fn orders(call: UnifyCall, case: &Case) -> Option<Orders> {
    let Case::Pair { a, b, work, out } = case else {
        return None;
    };
    let turn = turn(a, b)?;
    let there = settle_pair(call, a, b, *work, *out);
    Some(Orders {
        expected: turned(there.clone(), turn),
        back: settle_pair(call, b, a, *work, *out),
        there,
    })
}

/// A random call on two texts of which something is to hold.
pub fn exchange_case(rng: &mut Random) -> Case {
    loop {
        let (a, b) = union_free_texts(rng);
        if turn(&a, &b).is_some() {
            return pair_call(rng, a, b);
        }
    }
}

/// The number of a case in the first order, if the second order's answer is as it is to be.
pub fn agrees(call: UnifyCall, case: &Case) -> Option<u32> {
    let both = orders(call, case)?;
    (both.expected == both.back).then_some(both.there.number)
}

/// Runs `count` random pairs in both orders; true if both orders always agree.
pub fn run(call: UnifyCall, count: u64, seed: u64) -> bool {
    println!("in both orders: cyrs_unify");
    let start = Instant::now();
    let mut numbers = [0u64; 10];
    let mut different = 0;
    for i in 0..count {
        let one = seed.wrapping_add(i);
        let case = exchange_case(&mut Random::new(one));
        match agrees(call, &case) {
            Some(number) => numbers[number as usize % 10] += 1,
            None => {
                different += 1;
                println!("DIFFERENCE {different} (seed {one})");
                show(call, case);
            }
        }
        if different >= SHOWN {
            println!("stopped after {SHOWN} differences");
            break;
        }
    }
    println!("pairs in both orders by number 0 to 9: {numbers:?}");
    println!(
        "{} agree in both orders, {different} do not, {:.1} s",
        numbers.iter().sum::<u64>(),
        start.elapsed().as_secs_f64()
    );
    different == 0
}

/// Prints a smallest case found in which the orders do not agree.
fn show(call: UnifyCall, case: Case) {
    let disagrees = |c: &Case| orders(call, c).is_some_and(|o| o.expected != o.back);
    let least = smallest(case, disagrees);
    show_case(&least);
    if let Some(both) = orders(call, &least) {
        show_settled("first order", &both.there);
        show_settled("second order, expected", &both.expected);
        show_settled("second order", &both.back);
        show_buffers(["expected", "second order"], &both.expected, &both.back);
    }
}
