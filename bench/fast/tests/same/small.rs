//! All small texts, all small plans and all small fields.

use crate::{lent, same};
use second::cases::Case;
use second::is_plan;
use second::layouts_and_plans::plan_of;
use second::rules_of_shape::Picture;
use std::collections::HashSet;

/// Every picture of up to four of these pieces.
#[test]
fn texts() {
    let pieces = [
        "9", "Z", "*", "V", ",", "B", "S", "+", "-", "$", "CR", "DB", "(2)", "(18)", "D", "(63)", "T", "I", "R", "(1)",
    ];
    let mut accepted = 0;
    for pieces_there in 0..=4 {
        for picture in all(&pieces, pieces_there) {
            let number = same(&Case::Compile { layout: (picture.concat() + ";").into_bytes(), plan: lent(80) });
            accepted += usize::from(number == 0);
        }
    }
    assert!(accepted > 1_000, "{accepted}");
}

/// Every plan of one field of up to three positions, with one role and one kind past the last.
#[test]
fn plans() {
    let roles: Vec<u8> = (0..=18).collect();
    let mut accepted = 0;
    for n in 0..=3u8 {
        for roles in all(&roles, u32::from(n)) {
            for (v, kind) in (0..=4).flat_map(|v| (0..=7).map(move |kind| (v, kind))) {
                let plan = [&[1, n, v, kind, 0, n], &roles[..]].concat();
                let (good, answer) = (is_plan(&plan), fast::plan_edit(&plan, &[], &mut []));
                assert_eq!(answer, if good { 9 } else { 12 }, "{plan:?}");
                accepted += usize::from(good);
            }
        }
    }
    assert!(accepted > 1_000, "{accepted}");
}

/// Every field of these characters by every picture of up to three positions and symbols, and of every byte by those of one
/// position.
#[test]
fn fields() {
    let symbols = ["9", "Z", "*", "V", ",", "B", "S", "+", "-", "$", "CR", "DB", "T", "I", "R"];
    let texts = (1..=3).flat_map(|count| all(&symbols, count)).map(|symbols| symbols.concat());
    let pictures = texts.filter_map(|text| Picture::of(text.as_bytes()).ok()).filter(|picture| picture.n() <= 3);
    let plans: HashSet<Vec<u8>> = pictures.map(|picture| plan_of(&[picture])).collect();
    let bytes: Vec<u8> = (0..=255).collect();
    let mut accepted = 0;
    for plan in &plans {
        let n = u32::from(plan[1]);
        for record in all(if n == 1 { &bytes } else { b"01 *+-$,{}BCDRJ" }, n) {
            let number = same(&Case::PlanRead { plan: plan.clone(), record, row: lent(8) });
            accepted += usize::from(number == 0);
        }
    }
    assert!(accepted > 3_000, "{accepted}");
}

/// All runs of so many of some pieces.
fn all<T: Copy>(pieces: &[T], count: u32) -> impl Iterator<Item = Vec<T>> + '_ {
    let number = pieces.len();
    (0..number.pow(count)).map(move |code| (0..count).map(|k| pieces[code / number.pow(k) % number]).collect())
}
