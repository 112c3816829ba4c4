//! One picture's text to its roles, V and kind, or to the number of its refusal.

use crate::judge::counted;
use crate::plan::Field;
use crate::{DIGITS, LONG, MOST_DIGITS, SHAPE, SYMBOL, TEXT};

// The symbols of a text: 0 is none; static symbols, insertions, marks and punched digits are one more than their role.
const NINE: u8 = 1;
const ZED: u8 = 2;
const ASTERISK: u8 = 3;
const SIGN: u8 = 4; // S, +, - and $: 4 to 7
const INSERTION: u8 = 8; // comma, period, slash and B: 8 to 11
const CREDIT: u8 = 12;
const DEBIT: u8 = 14;
const PUNCHED: u8 = 16; // T, I and R: 16 to 18
const V: u8 = 19;
/// How many numbers there are, with 0.
const ALL: usize = 20;

static SYMBOLS: [u8; 256] = {
    let mut table = [0u8; 256];
    table[b'9' as usize] = NINE;
    table[b'Z' as usize] = ZED;
    table[b'*' as usize] = ASTERISK;
    table[b'S' as usize] = SIGN;
    table[b'+' as usize] = SIGN + 1;
    table[b'-' as usize] = SIGN + 2;
    table[b'$' as usize] = SIGN + 3;
    table[b',' as usize] = INSERTION;
    table[b'.' as usize] = INSERTION + 1;
    table[b'/' as usize] = INSERTION + 2;
    table[b'B' as usize] = INSERTION + 3;
    table[b'T' as usize] = PUNCHED;
    table[b'I' as usize] = PUNCHED + 1;
    table[b'R' as usize] = PUNCHED + 2;
    table[b'V' as usize] = V;
    table
};

/// What is known of a picture behind its symbols.
struct Symbols {
    /// How many there are of each.
    count: [usize; ALL],
    /// All but V, and those of them before the first V.
    n: usize,
    v: usize,
    /// CREDIT, DEBIT or 0.
    mark: u8,
}

/// A picture's n, v and kind, or the number of its refusal. Its roles go to the room.
///
/// # Safety
/// The room has 64 bytes.
pub unsafe fn picture(text: &[u8], room: *mut u8) -> Result<[usize; 3], u64> {
    if text.is_empty() || text.len() > 128 {
        return Err(TEXT);
    }
    let symbols = symbols(text, room)?;
    let Symbols { ref count, n, v, .. } = symbols;
    if n + count[V as usize] > 64 {
        return Err(LONG);
    }
    let drift = (4..8).find(|&symbol| count[symbol] >= 2).unwrap_or(0);
    let kind = kind(count, drift)?;
    if n == 0 {
        return Err(DIGITS); // V alone
    }
    roles(room, n, drift);
    let v = v.min(n);
    verdict(&symbols, Field { n, v, kind, roles: room })?;
    Ok([n, v, kind])
}

/// The symbols of a text, a mark at its end taken off first. The first 64 of them but V go to the room.
#[inline(always)]
unsafe fn symbols(text: &[u8], room: *mut u8) -> Result<Symbols, u64> {
    let (text, mark) = match text {
        [rest @ .., b'C', b'R'] => (rest, CREDIT),
        [rest @ .., b'D', b'B'] => (rest, DEBIT),
        _ => (text, 0),
    };
    let mut count = [0; ALL];
    let (mut n, mut v) = (0, usize::MAX);
    let mut at = 0;
    while at < text.len() {
        let mut times = 1;
        if text[at] == b'(' {
            (times, at) = factor(text, at + 1)?;
        }
        let symbol = SYMBOLS[text[at] as usize];
        at += 1;
        if symbol == 0 {
            return Err(SYMBOL);
        }
        count[symbol as usize] += times;
        if symbol == V {
            v = v.min(n);
        } else {
            if n < 64 {
                if times == 1 {
                    *room.add(n) = symbol;
                } else {
                    room.add(n).write_bytes(symbol, times.min(64 - n));
                }
            }
            n += times;
        }
    }
    if mark != 0 {
        if n + 1 < 64 {
            *room.add(n) = mark;
            *room.add(n + 1) = mark + 1;
        }
        n += 2;
    }
    Ok(Symbols { count, n, v, mark })
}

/// A factor behind its parenthesis: how many times, and where its symbol stands, which is no V and no R.
#[inline(always)]
fn factor(text: &[u8], at: usize) -> Result<(usize, usize), u64> {
    let digit = |at: usize| text.get(at).map_or(10, |byte| byte.wrapping_sub(b'0')) as usize;
    let mut times = digit(at);
    let mut at = at + 1;
    if times > 9 {
        return Err(SYMBOL);
    }
    if digit(at) <= 9 {
        times = times * 10 + digit(at);
        at += 1;
    }
    let closed = text.get(at) == Some(&b')');
    if times.wrapping_sub(1) >= 64 || !closed || matches!(text.get(at + 1), Some(b'V' | b'R') | None) {
        return Err(SYMBOL);
    }
    Ok((times, at + 1))
}

/// The kind, if all that is suppressible is of one, and there is one V at most.
#[inline(always)]
fn kind(count: &[usize; ALL], drift: usize) -> Result<usize, u64> {
    let (zeds, asterisks) = (count[ZED as usize] != 0, count[ASTERISK as usize] != 0);
    let drifting = (4..8).filter(|&symbol| count[symbol] >= 2).count();
    if count[V as usize] > 1 || zeds as usize + asterisks as usize + drifting > 1 {
        return Err(SHAPE);
    }
    Ok(match drift {
        0 if zeds => 1,
        0 if asterisks => 2,
        0 => 0,
        symbol => symbol - 1,
    })
}

/// Symbols to roles, in place: the first drifting symbol has a role of its own.
///
/// # Safety
/// The room has n symbols.
#[inline(always)]
unsafe fn roles(room: *mut u8, n: usize, drift: usize) {
    let mut role: [u8; ALL] = [0, 0, 1, 1, 3, 4, 5, 6, 7, 8, 9, 10, 11, 12, 13, 14, 15, 16, 17, 0];
    if drift != 0 {
        role[drift] = 2;
    }
    for at in 0..n {
        let symbol = *room.add(at) as usize;
        *room.add(at) = *role.get_unchecked(symbol);
        if symbol == drift {
            *role.get_unchecked_mut(symbol) = 1;
        }
    }
}

/// SHAPE before DIGITS. Without a digit only the signs are judged, not where they stand.
///
/// # Safety
/// As `counted`.
#[inline(always)]
unsafe fn verdict(symbols: &Symbols, field: Field) -> Result<(), u64> {
    let (counts, right) = counted(field);
    if counts.digits == 0 {
        let signs = symbols.count[4..7].iter().sum::<usize>() + (symbols.mark != 0) as usize;
        return Err(if signs > 1 { SHAPE } else { DIGITS });
    }
    if !right {
        Err(SHAPE)
    } else if counts.digits > MOST_DIGITS {
        Err(DIGITS)
    } else {
        Ok(())
    }
}
