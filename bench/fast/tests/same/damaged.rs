//! Good plans with one byte changed: counts, lengths, V, kinds and roles, in and out of range. Many are plans of other layouts.

use crate::{lent, same};
use second::cases::Case;
use second::is_plan;
use second::layouts_and_plans::plan_of;
use second::make::{pictures, random::Random};
use second::rules_of_shape::Picture;

const PLANS: usize = 200;
/// Every role, kind and V of a short field, and the edges of counts, lengths and bytes.
const BYTES: [u8; 29] =
    [0, 1, 2, 3, 4, 5, 6, 7, 8, 9, 10, 11, 12, 13, 14, 15, 16, 17, 18, 31, 32, 33, 62, 63, 64, 65, 127, 128, 255];
/// Marks, punched signs, and B where it can be hidden, which chance alone gives too seldom.
const OFTEN: [&str; 12] =
    ["ZZ9CR", "9V9DB", "$$9V.99CR", "**DB", "9,CR", "ZZT", "9V9I", "$$R.V9", "T9", "**B**", "B*BDB", "-B-BV9"];
/// The most digits, beside a position that can become one more.
const FULL: [&str; 4] = ["(9)9,(9)9", "(18)*B", "(10)$V.(9)$", "$(17)9T"];

#[test]
fn every_byte() {
    let mut random = Random::new(3);
    let (mut good, mut bad) = (0, 0);
    for _ in 0..PLANS {
        let plan = short_plan(&mut random);
        for at in 0..plan.len() {
            for byte in BYTES {
                let mut changed = plan.clone();
                changed[at] = byte;
                if is_plan(&changed) {
                    good += 1;
                    runs(&mut random, changed);
                } else {
                    bad += 1;
                    refused(&changed);
                }
            }
        }
    }
    assert!(good > 20 * PLANS && bad > 100 * PLANS, "{good} good, {bad} bad");
}

/// The plan of one to three pictures, those of OFTEN and FULL among them.
fn short_plan(random: &mut Random) -> Vec<u8> {
    loop {
        let mut texts: Vec<Vec<u8>> = (0..random.between(1, 3)).map(|_| pictures::accepted(random)).collect();
        if random.percent(30) {
            texts[0] = random.pick(&OFTEN).into();
        } else if random.percent(20) {
            texts[0] = random.pick(&FULL).into();
        }
        let pictures: Result<Vec<Picture>, _> = texts.iter().map(|text| Picture::of(text)).collect();
        let plan = plan_of(&pictures.expect("accepted pictures"));
        if plan.len() <= 45 {
            return plan;
        }
    }
}

/// What is no plan is refused by both calls, whatever comes with it, and nothing is written.
fn refused(bytes: &[u8]) {
    let roles = bytes.len().saturating_sub(3 + 3 * usize::from(bytes[0]));
    let (mut row, mut record) = (lent(256), lent(64));
    assert_eq!(fast::plan_read(bytes, &vec![b'0'; roles], &mut row), 12, "{bytes:?}");
    assert_eq!(fast::plan_edit(bytes, &vec![0; 8 * usize::from(bytes[0])], &mut record), 12, "{bytes:?}");
    assert!(row == lent(256) && record == lent(64), "{bytes:?}");
}

/// What is a plan reads and edits as the second program does.
fn runs(random: &mut Random, plan: Vec<u8>) {
    let fields = usize::from(plan[0]);
    let total = plan.len() - 3 - 3 * fields;
    for least in [0, -11] {
        let row: Vec<u8> = (0..fields).flat_map(|_| (least + random.below(12) as i64).to_le_bytes()).collect();
        let edit = Case::PlanEdit { plan: plan.clone(), row, record: lent(total) };
        same(&edit);
        same(&Case::PlanRead { plan: plan.clone(), record: edit.answer().memory, row: lent(8 * fields) });
    }
}
