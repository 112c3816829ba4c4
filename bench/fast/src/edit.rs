//! Editing a row by a plan: each field is judged and its digits counted in one pass, and its characters are put in a room, which
//! is copied to the record when nothing is refused.

use crate::field::{edit_field, POWER, POWERS};
use crate::judge::{judge, Counts};
use crate::plan::{Field, Plan};
use crate::{refusal, success, LENGTH, MOST_DIGITS, PLAN, RECORD, ROOM, SIZE, VALUE};
use std::mem::MaybeUninit;
use std::ptr;

/// The characters of a record, each written before it is read.
pub type Room = [MaybeUninit<u8>; RECORD];

const LIMIT: u64 = POWERS[MOST_DIGITS as usize];

/// Edits a row by a plan. Refusals in order: PLAN, LENGTH, the first VALUE or SIZE, ROOM; only then is the record written.
pub fn edit(plan: &[u8], row: &[u8], record: &mut [u8]) -> u64 {
    let Some(plan) = Plan::of(plan) else {
        return refusal(PLAN, 0);
    };
    let fits = row.len() == 8 * plan.fields;
    let mut room: Room = [MaybeUninit::uninit(); RECORD];
    let out = room.as_mut_ptr() as *mut u8;
    let mut refused = 0;
    let mut at = 0;
    for k in 0..plan.fields {
        // In bounds: k is below the fields, and each field ends at the total or before it.
        let Some(field) = (unsafe { plan.field(k, at) }) else {
            return refusal(PLAN, 0);
        };
        // In bounds: the field's roles are low and within the plan's.
        let (counts, good) = unsafe { judge(field) };
        if !good {
            return refusal(PLAN, 0);
        }
        if fits & (refused == 0) {
            // In bounds: the row fits, and a good plan's fields so far have 64 characters at most each.
            refused = unsafe { edit_one(field, &counts, number_at(row, k), k, out.add(at)) };
        }
        at += field.n;
    }
    if at != plan.total {
        return refusal(PLAN, 0);
    }
    if !fits {
        return refusal(LENGTH, 0);
    }
    if refused != 0 {
        return refused;
    }
    // In bounds: every field has put its characters.
    unsafe { write(&room, plan.total, record) }
}

/// Edits the value if it fits, or answers the refusal; 0 if there is none.
///
/// # Safety
/// The field is judged and has these counts, and there is room for its characters.
#[inline(always)]
pub unsafe fn edit_one(field: Field, counts: &Counts, m: i64, k: usize, out: *mut u8) -> u64 {
    let t = m.unsigned_abs();
    let fits = (t < *POWER.get_unchecked(counts.digits as usize)) & ((m >= 0) | counts.signed);
    if fits {
        edit_field(field, counts, m, out);
        0
    } else {
        refusal(if t >= LIMIT { VALUE } else { SIZE }, k + 1)
    }
}

/// # Safety
/// The row has more than k numbers.
#[inline(always)]
pub unsafe fn number_at(row: &[u8], k: usize) -> i64 {
    i64::from_le(ptr::read_unaligned(row.as_ptr().add(8 * k) as *const i64))
}

/// The room to the record, if that is long enough.
///
/// # Safety
/// So many characters of the room are written.
#[inline(always)]
pub unsafe fn write(room: &Room, total: usize, record: &mut [u8]) -> u64 {
    if record.len() < total {
        return refusal(ROOM, 0);
    }
    ptr::copy_nonoverlapping(room.as_ptr() as *const u8, record.as_mut_ptr(), total);
    success(total)
}
