//! The library against the fast Rust on random cases, good and damaged: the same answer and the same lent bytes.

#[path = "../fast/tests/same/cases.rs"]
mod cases;

use crate::sides::{Calls, FAST, LIBRARY};
use second::cases::{Case, Reply};
use second::judge::worded;
use second::make::random::Random;

const SEED: u64 = 1;

/// Compares so many calls and says so, or tells the first that differs.
pub fn compare(count: usize) -> Result<(), String> {
    let mut random = Random::new(SEED);
    let (mut successes, mut bad_plans) = (0, 0);
    for _ in 0..count {
        let case = cases::next(&mut random);
        let (library, fast) = (reply(&LIBRARY, &case), reply(&FAST, &case));
        if library != fast {
            return Err(format!("{}\n  library   {}\n  fast Rust {}", worded(&case), library.line(), fast.line()));
        }
        successes += usize::from(fast.number() == 0);
        bad_plans += usize::from(fast.number() == 12);
    }
    println!(
        "RANDOM: {count} calls agree, library and fast Rust; {successes} of them succeed, {bad_plans} have a bad plan."
    );
    Ok(())
}

fn reply(calls: &Calls, case: &Case) -> Reply {
    let mut memory = case.lent().to_vec();
    let packed = match case {
        Case::Compile { layout, .. } => calls.compile(layout, &mut memory),
        Case::PlanRead { plan, record, .. } => calls.plan_read(plan, record, &mut memory),
        Case::PlanEdit { plan, row, .. } => calls.plan_edit(plan, row, &mut memory),
        _ => unreachable!("cases of the three calls"),
    };
    Reply { packed, memory }
}
