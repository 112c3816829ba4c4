//! The calls as a C program sees them: byte runs in, one 64-bit number out, and in a row eight bytes a number, two's complement with
//! the lowest byte first. Reading a single field is offered in the same form, its value going into a row of one place. A totals sheet
//! is a run of such numbers too: the count, all sums, all least and all greatest.

use crate::layouts_and_plans;
use crate::numbers_that_come_back::{Answer, Refusal};
use crate::totals::{self, Sheet};

/// The bytes of a sheet.
pub const SHEET_BYTES: usize = 8 * (1 + 3 * Sheet::PLACES);

/// The whole eight-byte numbers of a run; odd bytes at its end are left out.
pub fn numbers(row: &[u8]) -> Vec<i64> {
    let number = |chunk: &[u8]| i64::from_le_bytes(chunk.try_into().expect("chunks of eight bytes"));
    row.chunks_exact(8).map(number).collect()
}

pub fn bytes(numbers: &[i64]) -> Vec<u8> {
    numbers.iter().flat_map(|number| number.to_le_bytes()).collect()
}

pub fn check(text: &[u8]) -> u64 {
    crate::check(text).packed()
}

pub fn edit(text: &[u8], m: i64, q: u64, out: &mut [u8]) -> u64 {
    crate::edit(text, m, q, out).packed()
}

pub fn edit_cut(text: &[u8], m: i64, q: u64, out: &mut [u8]) -> u64 {
    crate::edit_cut(text, m, q, out).packed()
}

/// Reads a field; the order is picture, LENGTH, ROOM, CONVERSION.
pub fn read(text: &[u8], field: &[u8], row: &mut [u8]) -> u64 {
    let answer = crate::read(text, field);
    let judged_after_room = answer.number == 0 || answer.number == Refusal::Conversion.number();
    if judged_after_room && row.len() < 8 {
        return Answer::refused(Refusal::Room).packed();
    }
    if answer.number == 0 {
        row[..8].copy_from_slice(&answer.value.to_le_bytes());
    }
    answer.packed()
}

pub fn compile(layout: &[u8], plan: &mut [u8]) -> u64 {
    crate::compile(layout, plan).packed()
}

pub fn plan_read(plan: &[u8], record: &[u8], row: &mut [u8]) -> u64 {
    let mut places = numbers(row);
    let answer = layouts_and_plans::plan_read(plan, record, &mut places);
    let whole = bytes(&places);
    row[..whole.len()].copy_from_slice(&whole);
    answer.packed()
}

pub fn plan_edit(plan: &[u8], row: &[u8], record: &mut [u8]) -> u64 {
    if row.len().is_multiple_of(8) {
        return layouts_and_plans::plan_edit(plan, &numbers(row), record).packed();
    }
    let why = if layouts_and_plans::is_plan(plan) { Refusal::Length } else { Refusal::Plan };
    Answer::refused(why).packed()
}

/// Adds to the sheet in the first bytes of a run; the order is PLAN, ROOM, and then that of an addition.
pub fn totals_add(plan: &[u8], batch: &[u8], place: u64, run: &mut [u8]) -> u64 {
    let Some(room) = run.get_mut(..SHEET_BYTES) else {
        let why = if layouts_and_plans::is_plan(plan) { Refusal::Room } else { Refusal::Plan };
        return Answer::refused(why).packed();
    };
    let (sheet, answer) = totals::add(plan, batch, place, Sheet::of(&numbers(room)));
    room.copy_from_slice(&bytes(&sheet.numbers()));
    answer.packed()
}
