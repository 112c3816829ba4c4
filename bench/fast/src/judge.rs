//! A field judged by the machine of `shape`, with its digits counted beside it.

use crate::plan::{Field, ROLES};
use crate::shape::{self, step};
use crate::MOST_DIGITS;

/// What editing asks of a field's digits.
#[derive(Clone, Copy)]
pub struct Counts {
    pub digits: u32,
    /// The most of them that take the fill where one prints: the suppressible ones before V.
    pub hidden: u32,
    /// Whether all of them are suppressible.
    pub suppressible: bool,
    pub signed: bool,
    /// Whether a digit is T, I or R, or an insertion is B.
    pub rare: bool,
}

/// The counts of a field, and whether it is good: its shape is right, and it has MOST_DIGITS at most.
///
/// # Safety
/// The field's roles are memory of its length, each role low, and V is not past them.
#[inline(always)]
pub unsafe fn judge(field: Field) -> (Counts, bool) {
    let (counts, right) = counted(field);
    (counts, right & (counts.digits <= MOST_DIGITS))
}

/// The counts of a field, and whether its shape is right, which no shape without a digit is.
///
/// # Safety
/// As `judge`.
#[inline(always)]
pub unsafe fn counted(field: Field) -> (Counts, bool) {
    let (mut state, mut count) = count_on(field.roles, field.v, shape::start(field.kind), 0);
    let whole = count & 0xff;
    if field.v != field.n {
        (state, count) = count_on(field.roles.add(field.v), field.n - field.v, shape::step_v(state), count);
    }
    let ended = shape::end(state);
    let (digits, suppressible) = (count & 0xff, count >> 16);
    let counts = Counts {
        digits,
        hidden: suppressible.min(whole),
        suppressible: suppressible == digits,
        signed: ended & 2 != 0,
        rare: count & 0xff00 != 0,
    };
    (counts, ended != 0)
}

/// The machine and the count over some roles, two at a time.
#[inline(always)]
unsafe fn count_on(mut roles: *const u8, n: usize, mut state: usize, mut count: u32) -> (usize, u32) {
    // by role: one digit in the lowest byte, one that is rare in the next, one suppressible in the high half
    static WEIGHT: [u32; ROLES] = {
        let mut table = [0; ROLES];
        (table[0], table[1], table[10]) = (1, 0x10001, 0x100);
        (table[15], table[16], table[17]) = (0x101, 0x101, 0x101);
        table
    };
    let end = roles.add(n);
    if n & 1 != 0 {
        let role = *roles as usize;
        state = step(state, role);
        count += *WEIGHT.get_unchecked(role);
        roles = roles.add(1);
    }
    while roles != end {
        let (role, next) = (*roles as usize, *roles.add(1) as usize);
        state = step(step(state, role), next);
        count += *WEIGHT.get_unchecked(role);
        count += *WEIGHT.get_unchecked(next);
        roles = roles.add(2);
    }
    (state, count)
}
