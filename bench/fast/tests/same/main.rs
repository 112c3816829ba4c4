//! The fast Rust held to the second program: the same answer and the same lent bytes on stated examples, on all small texts and
//! plans, on every number of digits, on damaged plans and on random cases.

mod cases;
mod damaged;
mod digits;
mod inner;
mod random;
mod small;
mod stated;

use second::cases::{Case, Reply};

/// The fast Rust's reply, with runs of exact size; None for a call that it doesn't have.
fn reply(case: &Case) -> Option<Reply> {
    let mut memory = case.lent().to_vec();
    let packed = match case {
        Case::Compile { layout, .. } => fast::compile(layout, &mut memory),
        Case::PlanRead { plan, record, .. } => fast::plan_read(plan, record, &mut memory),
        Case::PlanEdit { plan, row, .. } => fast::plan_edit(plan, row, &mut memory),
        _ => return None,
    };
    Some(Reply { packed, memory })
}

/// Stops unless both programs reply the same; the number of the answer.
fn same(case: &Case) -> u64 {
    let expected = case.answer();
    assert_eq!(reply(case).as_ref(), Some(&expected), "{}", second::judge::worded(case));
    expected.number()
}

/// Lent memory of so many bytes that nobody writes by chance.
fn lent(length: usize) -> Vec<u8> {
    vec![0xa5; length]
}
