//! Random cases.

use crate::{cases, same};
use second::make::random::Random;

const CASES: usize = 40_000;

#[test]
fn calls() {
    let mut random = Random::new(20);
    let mut seen = [0; 13];
    for _ in 0..CASES {
        seen[same(&cases::next(&mut random)) as usize] += 1;
    }
    // each number that these calls give, and PLAN often
    assert!(seen.iter().all(|&times| times > CASES / 1_000), "{seen:?}");
    assert!(seen[12] > CASES / 5, "{seen:?}");
}
