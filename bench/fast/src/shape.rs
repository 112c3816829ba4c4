//! The rules of shape as one machine over the roles of a field, a step of its table a role.
//!
//! The machine ends well exactly when roles, V and kind are those of a picture with a digit. The most digits are asked apart.

use crate::plan::ROLES;

/// A state is the offset in bytes of its row in the table, so that a step is one addition and one load.
type Step = u16;
const ROW: Step = 2 * COLUMNS as Step;

// The columns: the roles, then V and the end.
const V: usize = ROLES;
const END: usize = ROLES + 1;
const COLUMNS: usize = ROLES + 2;

// The phases of a field: what has been seen of it.
const BROKEN: u8 = 0; //     a rule is broken
const NO_DIGIT: u8 = 1; //   no digit yet, and nothing suppressible to come
const ZED: u8 = 2; //        no digit yet; Z or * is to come
const DRIFT: u8 = 3; //      no digit yet; the first drifting symbol is to come
const DRIFTING: u8 = 4; //   the first drifting symbol, and no digit yet
const SUPPRESSED: u8 = 5; // suppressible digits
const NINES: u8 = 6; //      nines
const STATIC: u8 = 7; //     a static symbol behind the digits
const MARK_C: u8 = 8; //     C of the credit mark
const MARK_D: u8 = 9; //     D of the debit mark
const MARKED: u8 = 10; //    a whole mark
const ZED_V: u8 = 11; //     as ZED, behind V
const DRIFTING_V: u8 = 12; // as DRIFTING, behind V
const MIXED_V: u8 = 13; //   as SUPPRESSED, behind V: the next digit decides
const ALL_V: u8 = 14; //     suppressible digits behind V: no nine may come

// Added to a phase: the one sign there may be, and the one $.
const SIGN: u8 = 16;
const DOLLAR: u8 = 32;

/// The state behind a role.
const fn behind(state: u8, role: u8) -> u8 {
    let (phase, used) = (state & 15, state & 48);
    match role {
        0 => match phase {
            NO_DIGIT | NINES | SUPPRESSED | MIXED_V => NINES | used,
            _ => BROKEN,
        },
        1 => match phase {
            ZED | DRIFTING | SUPPRESSED => SUPPRESSED | used,
            ZED_V | DRIFTING_V | MIXED_V | ALL_V => ALL_V | used,
            _ => BROKEN,
        },
        2 if phase == DRIFT => DRIFTING | used,
        3..=5 => behind_static(phase, used, SIGN),
        6 => behind_static(phase, used, DOLLAR),
        7..=10 => match phase {
            BROKEN | MARK_C | MARK_D | MARKED => BROKEN,
            _ => state,
        },
        11 => behind_first_letter(phase, used, MARK_C),
        12 if phase == MARK_C => MARKED | used,
        13 => behind_first_letter(phase, used, MARK_D),
        14 if phase == MARK_D => MARKED | used,
        15..=17 if used & SIGN == 0 && behind(state, 0) != BROKEN => NINES | used | SIGN,
        _ => BROKEN,
    }
}

/// Behind a static symbol, which is a sign or a $.
const fn behind_static(phase: u8, used: u8, own: u8) -> u8 {
    if used & own != 0 {
        return BROKEN;
    }
    match phase {
        NO_DIGIT | ZED | DRIFT | ZED_V => phase | used | own,
        SUPPRESSED | NINES | STATIC | MIXED_V | ALL_V => STATIC | used | own,
        _ => BROKEN,
    }
}

/// Behind the first letter of a mark, which is a sign.
const fn behind_first_letter(phase: u8, used: u8, own: u8) -> u8 {
    match phase {
        SUPPRESSED | NINES | STATIC | MIXED_V | ALL_V if used & SIGN == 0 => own | used | SIGN,
        _ => BROKEN,
    }
}

/// The state behind V.
const fn behind_v(state: u8) -> u8 {
    let used = state & 48;
    match state & 15 {
        ZED => ZED_V | used,
        DRIFTING => DRIFTING_V | used,
        SUPPRESSED => MIXED_V | used,
        DRIFT | MARK_C | MARK_D => BROKEN,
        phase => phase | used,
    }
}

/// What `end` says.
const fn ending(state: u8) -> u8 {
    match state & 15 {
        SUPPRESSED | NINES | STATIC | MARKED | MIXED_V | ALL_V => 1 + 2 * (state & SIGN != 0) as u8,
        _ => BROKEN,
    }
}

static NEXT: [[Step; COLUMNS]; 64] = {
    let mut table = [[0; COLUMNS]; 64];
    let mut cell = 0;
    while cell < 64 * COLUMNS {
        let (state, column) = (cell / COLUMNS, cell % COLUMNS);
        table[state][column] = match column {
            V => behind_v(state as u8) as Step * ROW,
            END => ending(state as u8) as Step,
            role => behind(state as u8, role as u8) as Step * ROW,
        };
        cell += 1;
    }
    table
};

/// The first state by kind.
static START: [Step; 8] = {
    let first = [NO_DIGIT, ZED, ZED, DRIFT | SIGN, DRIFT | SIGN, DRIFT | SIGN, DRIFT | DOLLAR, BROKEN];
    let mut table = [0; 8];
    let mut kind = 0;
    while kind < 8 {
        table[kind] = first[kind] as Step * ROW;
        kind += 1;
    }
    table
};

#[inline(always)]
pub fn start(kind: usize) -> usize {
    START[kind & 7] as usize
}

/// The step of a role. The rest of the address is ready before the state is.
///
/// # Safety
/// The state is one of this machine, and the role is low: then its cell is in the table.
#[inline(always)]
pub unsafe fn step(state: usize, role: usize) -> usize {
    *NEXT.as_ptr().byte_add(2 * role).byte_add(state).cast::<Step>() as usize
}

/// The step of V, where a position stands behind it.
///
/// # Safety
/// The state is one of this machine.
#[inline(always)]
pub unsafe fn step_v(state: usize) -> usize {
    step(state, V)
}

/// 0 where a field may not end, else 1, or 3 if it has a sign.
///
/// # Safety
/// The state is one of this machine.
#[inline(always)]
pub unsafe fn end(state: usize) -> usize {
    step(state, END)
}
