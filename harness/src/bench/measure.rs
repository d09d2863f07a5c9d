//! What a call takes: the least of some short rounds. The rounds of a family's sides take turns, so that other load on the
//! machine meets all of them.

use super::counter::Counter;
use super::family::{Ready, Side, Turns};
use std::time::Instant;

pub const ROUNDS: usize = 25;
/// About what a round takes: short beside what else the machine does.
const ROUND_NANOSECONDS: f64 = 2e6;

/// What a call takes on one side.
#[derive(Debug, Clone, Copy)]
pub struct Taken {
    pub side: Side,
    pub nanoseconds: f64,
    pub instructions: Option<f64>,
}

fn nanoseconds(run: &mut Turns, turns: u64) -> f64 {
    let start = Instant::now();
    run(turns);
    start.elapsed().as_secs_f64() * 1e9
}

/// How many turns a round has.
fn turns_of_a_round(run: &mut Turns) -> u64 {
    run(1);
    let one = nanoseconds(run, 1).max(1.0);
    (ROUND_NANOSECONDS / one).ceil() as u64
}

/// Measures all sides of a family.
pub fn measured(ready: &mut Ready, mut counter: Option<&mut Counter>) -> Vec<Taken> {
    let calls = ready.calls as f64;
    let mut turns = Vec::new();
    let mut taken = Vec::new();
    for (side, run) in &mut ready.sides {
        turns.push(turns_of_a_round(run));
        taken.push(Taken {
            side: *side,
            nanoseconds: f64::MAX,
            instructions: None,
        });
    }
    for _ in 0..ROUNDS {
        for ((one, (_, run)), turns) in taken.iter_mut().zip(&mut ready.sides).zip(&turns) {
            let made = calls * *turns as f64;
            let before = counter.as_mut().and_then(|c| c.read());
            one.nanoseconds = one.nanoseconds.min(nanoseconds(run, *turns) / made);
            let after = counter.as_mut().and_then(|c| c.read());
            if let (Some(before), Some(after)) = (before, after) {
                let counted = (after - before) as f64 / made;
                one.instructions = Some(one.instructions.unwrap_or(f64::MAX).min(counted));
            }
        }
    }
    taken
}
