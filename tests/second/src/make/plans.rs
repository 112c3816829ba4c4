//! Plans for cases: those of good layouts, and those with one thing changed, which may be plans still.

use super::layouts;
use super::random::Random;
use crate::layouts_and_plans::{pictures_of_layout, plan_of};
use crate::rules_of_shape::Picture;

/// The plan of a good layout.
pub fn good(random: &mut Random) -> Vec<u8> {
    let layout = layouts::joined(&layouts::good(random));
    plan_of(&pictures_of_layout(&layout).expect("a good layout"))
}

/// The plan, damaged in so many of a hundred.
pub fn damaged_at_times(random: &mut Random, plan: Vec<u8>, percent: usize) -> Vec<u8> {
    if random.percent(percent) {
        damaged(random, plan)
    } else {
        plan
    }
}

fn damaged(random: &mut Random, mut plan: Vec<u8>) -> Vec<u8> {
    let count = usize::from(plan[0]);
    let heads = 3 * count + 1;
    let head = 1 + 3 * random.below(count);
    let at = random.between(heads + 2, plan.len() - 1);
    match random.below(17) {
        0 | 1 => plan[at] = random.below(19) as u8,
        2 => plan[head + 1] = random.below(usize::from(plan[head]) + 2) as u8,
        3 => plan[head + 2] = random.below(8) as u8,
        4 => plan[head] = plan[head].wrapping_add(random.pick(&[1, 255])),
        5 => plan.swap(heads, heads + 1),
        6 => plan.truncate(plan.len() - 1),
        7 => plan.push(random.below(19) as u8),
        8 => plan.swap(at, at - 1),
        9 => plan[0] = random.pick(&[0, 1, 2, 31, 32, 33, 255]),
        10 => {
            let anywhere = random.below(plan.len());
            plan[anywhere] = random.byte();
        }
        11 | 12 => return single(random),
        13 => plan.truncate(at),
        14 | 15 => other_nine(random, &mut plan[heads + 2..]),
        _ => return random.bytes(at.min(40)),
    }
    plan
}

/// A nine with another sign punched over it or none, or the R of a mark and the symbol R in each other's place.
fn other_nine(random: &mut Random, positions: &mut [u8]) {
    let has_mark = positions.contains(&12);
    let of: &[u8] = if has_mark && random.percent(60) { &[12, 17] } else { &[0, 15, 16, 17] };
    let found: Vec<usize> = (0..positions.len()).filter(|&at| of.contains(&positions[at])).collect();
    if !found.is_empty() {
        positions[random.pick(&found)] = random.pick(of);
    }
}

/// Plans of one field that look right in each part: a V among 64 positions, a V within a mark; as many digits as there may be, or one
/// more; marks, drifts and punched digits misplaced.
fn single(random: &mut Random) -> Vec<u8> {
    let full: Vec<u8> = [vec![0], vec![10; 63]].concat();
    let v_in_64 = random.pick(&[0, 1, 63, 64, 65]);
    let punched = random.pick(&[15, 16, 17]);
    let most = Picture::MOST_DIGITS;
    let digits = random.pick(&[most - 2, most - 1, most, most, most + 1, most + 1]);
    let (v, kind, positions): (u8, u8, Vec<u8>) = match random.below(30) {
        0..=2 => (v_in_64, 0, full),
        3 => (random.below(4) as u8, 0, vec![0, 11, 12]),
        4 => (random.below(4) as u8, 0, vec![0, 13, 14]),
        5 => (3, 0, vec![0, 13, 10]),
        6 => (3, 0, vec![0, 10, 14]),
        7 => (2, random.below(7) as u8, vec![2, 0]),
        8 => (2, random.below(7) as u8, vec![2, 1]),
        9 => (2, random.below(7) as u8, vec![1, 0]),
        10 => (3, 3, vec![3, 2, 1]),
        11 => (3, 0, vec![0, 5, 5]),
        12 => (random.below(4) as u8, 1, vec![1, 1, 0]),
        13 => (random.below(most + 2) as u8, 0, vec![0; digits]),
        14 => (random.below(most + 3) as u8, 6, [vec![2], vec![1; digits]].concat()),
        15 => (random.between(1, 3) as u8, 0, vec![0, 11, random.pick(&[12, 17, 17])]),
        16 => (2, 0, vec![0, random.pick(&[12, 17])]),
        17 => (3, 0, vec![punched, 11, 12]),
        18 => (3, 0, vec![0, punched, random.pick(&[0, 15, 16, 17])]),
        19 => (2, 0, vec![random.between(3, 6) as u8, punched]),
        20 => (2, 0, vec![punched, random.between(3, 6) as u8]),
        21 => (random.below(3) as u8, random.below(7) as u8, vec![1, punched]),
        22 => (random.below(3) as u8, random.below(7) as u8, vec![punched, 1]),
        23 => (random.below(4) as u8, random.below(7) as u8, vec![2, 1, punched]),
        24 => (random.below(3) as u8, random.below(7) as u8, vec![0, random.between(15, 18) as u8]),
        25 => (random.below(most + 2) as u8, 0, [vec![0; digits - 1], vec![punched]].concat()),
        26 => (v_in_64, 0, [vec![10; 63], vec![punched]].concat()),
        27 | 28 => (random.below(most + 2) as u8, random.between(1, 2) as u8, vec![1; digits]),
        _ => (2, 0, vec![11, 12]),
    };
    let n = positions.len() as u8;
    [vec![1, n, v, kind, 0, n], positions].concat()
}
