//! The looks that a field of the right shape can have, as one machine over its positions. What moves it is the sort of a character
//! under its role.
//!
//! The machine ends in PRINTING, with NEGATIVE added if the value is negative, exactly when the characters are those of some value,
//! and not everything is suppressed; the value itself is added up apart.

use crate::plan::ROLES;

/// A state is the offset in bytes of its row in the table, so that a step is one addition and one load.
type Step = u16;
/// 32 sorts.
const ROW: Step = 64;

// The sorts of characters, each under its role.
const WRONG: u8 = 0; //        no value prints it there
const NINE: u8 = 1; //         a digit of a 9
const NINE_PLUS: u8 = 2; //    a digit of T, I or R where the value isn't negative
const NINE_MINUS: u8 = 3; //   and where it is
const ZERO: u8 = 4; //         0 of a suppressible digit
const DIGIT: u8 = 5; //        another digit of one
const PLUS: u8 = 6; //         a sign, or the first letter of a mark, where the value isn't negative
const MINUS: u8 = 7; //        and where it is
const STILL_PLUS: u8 = 8; //   the second letter of a mark, likewise
const STILL_MINUS: u8 = 9;
const ITSELF: u8 = 10; //      $, comma, period or slash
const BLANK: u8 = 11; //       that of B
const HIDDEN: u8 = 12; //      one of HIDING for a digit or the first drifting symbol: 12 to 16
const LAST_HIDDEN: u8 = 16;
const INSIDE: u8 = 17; //      one of them for a comma, period or slash: 17 to 21
const LAST_INSIDE: u8 = 21;
const V: u8 = 22; //           no character, but V

/// The fills and the drifting characters.
const HIDING: [u8; 5] = *b" *+-$";

// A state is kind * 8 + phase * 2 + 1 if negative. Kind 7 prints; state 0 is no look.
const PRINTS: u8 = 56;
const NONE: u8 = 0;
// The phases: outside the stretch, in it with fill alone, and in it with the drifting character seen. B leaves each as it is.
const OUTSIDE: u8 = 0;
const FILLED: u8 = 1;
const DRIFTED: u8 = 2;

/// The state that prints, and what is added to a state if the value is negative.
pub const PRINTING: usize = PRINTS as usize * ROW as usize;
pub const NEGATIVE: usize = ROW as usize;

/// What a role prints outside the stretch, where the value isn't negative and where it is.
pub static PRINTED: [[u8; 16]; 2] = [*b"00 ++ $,./     \0", *b"00 - -$,./ CRDB\0"];

/// What a role shows where it is hidden: the fill, which is a blank or `*`, and for B a blank.
pub static HIDDEN_AS: [[u8; 16]; 2] = [*b"                ", *b"********** *****"];

/// What T, I and R print for each digit, where the value isn't negative and where it is.
pub static PUNCHED: [[[u8; 10]; 3]; 2] =
    [[*b"{ABCDEFGHI", *b"{ABCDEFGHI", *b"0123456789"], [*b"}JKLMNOPQR", *b"0123456789", *b"}JKLMNOPQR"]];

/// By role and byte, as `place` has them: the sort of the byte, and the digit that it is, 0 if it is none.
static SORT: [u8; ROLES * 256] = {
    let mut table = [WRONG; ROLES * 256];
    let mut place = 0;
    while place < ROLES * 256 {
        table[place] = sort((place / 256) as u8, (place % 256) as u8);
        place += 1;
    }
    table
};

static VALUE: [u8; ROLES * 256] = {
    let mut table = [0; ROLES * 256];
    let mut place = 0;
    while place < ROLES * 256 {
        table[place] = value((place / 256) as u8, (place % 256) as u8);
        place += 1;
    }
    table
};

const fn value(role: u8, byte: u8) -> u8 {
    match role {
        15..=17 => match punched(role, byte) {
            Some((digit, _)) => digit,
            None => 0,
        },
        _ if byte.is_ascii_digit() => byte - b'0',
        _ => 0,
    }
}

const fn sort(role: u8, byte: u8) -> u8 {
    let digit = byte.is_ascii_digit();
    match role {
        0 if digit => NINE,
        1 if byte == b'0' => ZERO,
        1 if digit => DIGIT,
        1 | 2 => hiding(byte, HIDDEN),
        3..=5 | 11 | 13 => of_sign(role, byte, PLUS, MINUS),
        12 | 14 => of_sign(role, byte, STILL_PLUS, STILL_MINUS),
        10 if byte == b' ' => BLANK,
        6..=9 if byte == PRINTED[0][role as usize] => ITSELF,
        7..=9 => hiding(byte, INSIDE),
        15..=17 => match punched(role, byte) {
            Some((_, false)) => NINE_PLUS,
            Some((_, true)) => NINE_MINUS,
            None => WRONG,
        },
        _ => WRONG,
    }
}

/// The sort of one of HIDING, where that of the first is given.
const fn hiding(byte: u8, first: u8) -> u8 {
    let mut k = 0;
    while k < HIDING.len() {
        if HIDING[k] == byte {
            return first + k as u8;
        }
        k += 1;
    }
    WRONG
}

/// One of two sorts, by what the role prints.
const fn of_sign(role: u8, byte: u8, plus: u8, minus: u8) -> u8 {
    if byte == PRINTED[0][role as usize] {
        plus
    } else if byte == PRINTED[1][role as usize] {
        minus
    } else {
        WRONG
    }
}

/// The digit that a byte is under T, I or R, and whether it tells that the value is negative.
const fn punched(role: u8, byte: u8) -> Option<(u8, bool)> {
    let mut k = 0;
    while k < 20 {
        if PUNCHED[k / 10][role as usize - 15][k % 10] == byte {
            return Some(((k % 10) as u8, k >= 10));
        }
        k += 1;
    }
    None
}

/// The state behind a position.
const fn behind(state: u8, sort: u8) -> u8 {
    let (kind, phase) = (state / 8, state / 2 % 4);
    match (sort, phase) {
        _ if kind == 0 => NONE,
        (NINE | ZERO | DIGIT | V, _) if kind == 7 => state,
        (V, OUTSIDE) if kind >= 3 => NONE,
        (NINE | DIGIT | V, _) => behind_stretch(state),
        (NINE_PLUS, _) => signed(behind(state, NINE), 0),
        (NINE_MINUS, _) => signed(behind(state, NINE), 1),
        (PLUS, OUTSIDE) => signed(state, 0),
        (MINUS, OUTSIDE) => signed(state, 1),
        (STILL_PLUS, OUTSIDE) if state & 1 == 0 => state,
        (STILL_MINUS, OUTSIDE) if state & 1 == 1 => state,
        (ITSELF, OUTSIDE) | (BLANK, _) => state,
        (HIDDEN..=LAST_HIDDEN, OUTSIDE | FILLED) if kind != 7 => behind_hidden(state, HIDING[(sort - HIDDEN) as usize]),
        (INSIDE..=LAST_INSIDE, FILLED) => behind_hidden(state, HIDING[(sort - INSIDE) as usize]),
        _ => NONE,
    }
}

/// The state with the sign told.
const fn signed(state: u8, minus: u8) -> u8 {
    if state == NONE {
        NONE
    } else {
        state & !1 | minus
    }
}

/// Behind the stretch. Where fill alone was seen of a drifting kind, its character was a blank, which tells the sign.
const fn behind_stretch(state: u8) -> u8 {
    match (state / 8, state / 2 % 4) {
        (1 | 2, _) | (_, DRIFTED) => PRINTS | state & 1,
        (4, _) => PRINTS | 1,
        (5, _) => PRINTS,
        _ => NONE,
    }
}

/// Behind a position inside the stretch: fill, or the drifting character.
const fn behind_hidden(state: u8, byte: u8) -> u8 {
    let kind = state / 8;
    let fill = if kind == 2 { b'*' } else { b' ' };
    if byte == fill {
        return kind * 8 + FILLED * 2 + state % 2;
    }
    let (plus, minus) = (PRINTED[0][kind as usize], PRINTED[1][kind as usize]);
    let drifted = kind * 8 + DRIFTED * 2;
    match kind {
        3 | 4 if byte == plus => drifted,
        3 | 5 if byte == minus => drifted + 1,
        6 if byte == plus => drifted + state % 2,
        _ => NONE,
    }
}

static NEXT: [[Step; 32]; 64] = {
    let mut table = [[0; 32]; 64];
    let mut cell = 0;
    while cell < 64 * 32 {
        table[cell / 32][cell % 32] = behind((cell / 32) as u8, (cell % 32) as u8) as Step * ROW;
        cell += 1;
    }
    table
};

/// The first state by kind: a field with nothing suppressible prints from the start.
static START: [Step; 8] = [56 * ROW, 8 * ROW, 16 * ROW, 24 * ROW, 32 * ROW, 40 * ROW, 48 * ROW, 0];

#[inline(always)]
pub fn start(kind: usize) -> usize {
    START[kind & 7] as usize
}

/// Where a byte under a role stands in the tables. One for both, so that it is found once.
#[inline(always)]
pub fn place(role: usize, byte: usize) -> usize {
    role << 8 | byte
}

/// The step of a role and a character. The rest of the address is ready before the state is.
///
/// # Safety
/// The state is one of this machine, and the place that of a low role and a byte: then both are in the tables.
#[inline(always)]
pub unsafe fn step(state: usize, place: usize) -> usize {
    next(state, *SORT.get_unchecked(place) as usize)
}

/// The step of V, where a position stands behind it.
///
/// # Safety
/// The state is one of this machine.
#[inline(always)]
pub unsafe fn step_v(state: usize) -> usize {
    next(state, V as usize)
}

#[inline(always)]
unsafe fn next(state: usize, sort: usize) -> usize {
    *NEXT.as_ptr().byte_add(2 * sort).byte_add(state).cast::<Step>() as usize
}

/// The digit that a byte is under its role; of one that is none the machine knows.
///
/// # Safety
/// The place is that of a low role and a byte.
#[inline(always)]
pub unsafe fn digit(place: usize) -> u64 {
    *VALUE.get_unchecked(place) as u64
}
