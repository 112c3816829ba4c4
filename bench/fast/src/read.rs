//! Reading a record by a plan, in one pass: two machines walk each field, one over its roles (`shape`), one over roles and
//! characters (`look`), and the value is added up beside them. None of the three waits for another, and nothing branches on a
//! value.

use crate::judge::judge;
use crate::look::{self, NEGATIVE, PRINTING};
use crate::plan::{Field, Plan, ROLES};
use crate::shape;
use crate::{refusal, success, CONVERSION, FIELDS, LENGTH, MOST_DIGITS, PLAN, ROOM};
use std::mem::MaybeUninit;
use std::ptr;

/// The numbers of a row, each written before it is read.
pub type Numbers = [MaybeUninit<i64>; FIELDS];

/// Reads a record by a plan. Refusals in order: PLAN, LENGTH, ROOM, CONVERSION; only then is the row written.
pub fn read(plan: &[u8], record: &[u8], row: &mut [u8]) -> u64 {
    let Some(plan) = Plan::of(plan) else {
        return refusal(PLAN, 0);
    };
    let fits = record.len() == plan.total;
    let mut numbers: Numbers = [MaybeUninit::uninit(); FIELDS];
    let mut refused = 0;
    let mut at = 0;
    for k in 0..plan.fields {
        // In bounds: k is below the fields, and each field ends at the total or before it.
        let Some(field) = (unsafe { plan.field(k, at) }) else {
            return refusal(PLAN, 0);
        };
        if fits {
            // In bounds: the record has the plan's length, and the field ends within it.
            let characters = unsafe { record.as_ptr().add(at) };
            // In bounds: the roles are low and within the plan's, and there are as many characters.
            let walk = unsafe { Walk::over::<true>(field, characters) };
            // In bounds: the walk was over this field.
            if !unsafe { walk.good(field.n) } {
                return refusal(PLAN, 0);
            }
            // In bounds: the walk was over this field and these characters.
            match unsafe { walk.number(field, characters) } {
                Some(m) => numbers[k] = MaybeUninit::new(m.to_le()),
                None => refused = if refused == 0 { k + 1 } else { refused },
            }
        // In bounds: the roles are low and within the plan's.
        } else if !unsafe { judge(field) }.1 {
            return refusal(PLAN, 0);
        }
        at += field.n;
    }
    if at != plan.total {
        return refusal(PLAN, 0);
    }
    if !fits {
        return refusal(LENGTH, 0);
    }
    // In bounds: every field has put its number or is refused.
    unsafe { written(&numbers, plan.fields, refused, row) }
}

/// The numbers to the row, unless that is too short or a field, counted from 1, is refused.
///
/// # Safety
/// If no field is refused, so many numbers are written.
#[inline(always)]
pub unsafe fn written(numbers: &Numbers, fields: usize, refused: usize, row: &mut [u8]) -> u64 {
    if row.len() < 8 * fields {
        return refusal(ROOM, 0);
    }
    if refused != 0 {
        return refusal(CONVERSION, refused);
    }
    ptr::copy_nonoverlapping(numbers.as_ptr() as *const u8, row.as_mut_ptr(), 8 * fields);
    success(fields)
}

/// By role: ten for a digit, one for another. A table, since comparing takes more instructions.
static TEN: [u64; ROLES] = {
    let mut table = [1; ROLES];
    (table[0], table[1]) = (10, 10);
    (table[15], table[16], table[17]) = (10, 10, 10);
    table
};

/// Both machines and the value, over some positions of a field.
#[derive(Clone, Copy)]
pub struct Walk {
    shape: usize,
    look: usize,
    /// It wraps only where the field isn't good or the look is wrong.
    value: u64,
    /// The sum of TEN.
    tens: u64,
}

impl Walk {
    /// The walk over a field; without `JUDGED` its shape is known to be right.
    ///
    /// # Safety
    /// The field's roles are low, and there are as many characters.
    #[inline(always)]
    pub unsafe fn over<const JUDGED: bool>(field: Field, characters: *const u8) -> Walk {
        let start = Walk { shape: shape::start(field.kind), look: look::start(field.kind), value: 0, tens: 0 };
        let mut walk = start.on::<JUDGED>(field.roles, characters, field.v);
        if field.v != field.n {
            walk.shape = shape::step_v(walk.shape);
            walk.look = look::step_v(walk.look);
            walk = walk.on::<JUDGED>(field.roles.add(field.v), characters.add(field.v), field.n - field.v);
        }
        walk
    }

    /// The walk over n positions more.
    ///
    /// # Safety
    /// As `over`, of these positions.
    #[inline(always)]
    unsafe fn on<const JUDGED: bool>(mut self, mut roles: *const u8, mut characters: *const u8, n: usize) -> Walk {
        let end = roles.add(n);
        while roles != end {
            let (role, byte) = (*roles as usize, *characters as usize);
            if JUDGED {
                self.shape = shape::step(self.shape, role);
            }
            let place = look::place(role, byte);
            self.look = look::step(self.look, place);
            let ten = *TEN.get_unchecked(role);
            self.value = self.value.wrapping_mul(ten).wrapping_add(look::digit(place));
            if JUDGED {
                self.tens += ten;
            }
            roles = roles.add(1);
            characters = characters.add(1);
        }
        self
    }

    /// Whether the shape of the field, of n positions, is right.
    ///
    /// # Safety
    /// The walk is over the field.
    #[inline(always)]
    unsafe fn good(&self, n: usize) -> bool {
        (shape::end(self.shape) != 0) & (self.tens - n as u64 <= 9 * MOST_DIGITS as u64)
    }

    /// The number of the field, if some value edits to it.
    ///
    /// # Safety
    /// The walk is over this field and these characters.
    #[inline(always)]
    pub unsafe fn number(&self, field: Field, characters: *const u8) -> Option<i64> {
        if self.value == 0 {
            let is_zero = if field.kind == 2 { is_zero::<true> } else { is_zero::<false> };
            return is_zero(self.look, field.roles, characters, field.n).then_some(0);
        }
        if self.look & !NEGATIVE != PRINTING {
            return None;
        }
        let m = self.value as i64;
        Some(if self.look & NEGATIVE != 0 { -m } else { m })
    }
}

/// Whether this is the field of zero, which prints with a nine and is hidden without. With `STARS` the fill is `*`. The parts of
/// the field come one by one, so that they stay in registers.
///
/// # Safety
/// There are n roles and as many characters.
#[inline(never)]
unsafe fn is_zero<const STARS: bool>(look: usize, roles: *const u8, characters: *const u8, n: usize) -> bool {
    let (mut nine, mut other) = (0, 0);
    for at in 0..n {
        let role = *roles.add(at);
        // the high bit, for 0 and for 15 and above, which are the nines
        nine |= role.wrapping_sub(1) | (role + 113);
        other |= *characters.add(at) ^ if STARS && role != 10 { b'*' } else { b' ' };
    }
    if nine & 128 != 0 {
        look == PRINTING
    } else {
        other == 0
    }
}
