//! Reading and editing by a plan judged beforehand: as the calls that judge it themselves.

use fast::inner::Judged;
use second::cases::Case;
use second::make::{self, random::Random};

const CASES: usize = 10_000;

#[test]
fn as_the_calls() {
    let mut random = Random::new(21);
    for _ in 0..CASES {
        let kind = random.pick(&["plan_read", "plan_edit"]);
        let case = make::case(kind, &mut random).expect("a kind of cases");
        let (mut own, mut other) = (case.lent().to_vec(), case.lent().to_vec());
        let (answer, expected) = match &case {
            Case::PlanRead { plan, record, .. } => {
                (Judged::of(plan).map(|plan| plan.read(record, &mut own)), fast::plan_read(plan, record, &mut other))
            }
            Case::PlanEdit { plan, row, .. } => {
                (Judged::of(plan).map(|plan| plan.edit(row, &mut own)), fast::plan_edit(plan, row, &mut other))
            }
            _ => unreachable!("the kinds above"),
        };
        assert_eq!((answer.unwrap_or(12), own), (expected, other), "{}", second::judge::worded(&case));
    }
}
