//! Random cases of compile, plan read and plan edit: as the second program makes them, with a byte changed in more of the plans.

use second::cases::Case;
use second::make::{self, random::Random};

/// The next case. A plan is bad in about two of five.
pub fn next(random: &mut Random) -> Case {
    let mut case = make::case("layout", random).expect("a kind of cases");
    if let Case::PlanRead { plan, .. } | Case::PlanEdit { plan, .. } = &mut case {
        if random.percent(40) && !plan.is_empty() {
            change(random, plan);
        }
    }
    case
}

/// Changes one byte, at times a little, so that counts and lengths are off by one, at times to another role.
fn change(random: &mut Random, plan: &mut [u8]) {
    let at = random.below(plan.len());
    plan[at] = match random.below(4) {
        0 => random.byte(),
        1 => plan[at].wrapping_add(1),
        2 => plan[at].wrapping_sub(1),
        _ => random.below(19) as u8,
    };
}
