//! The characters of one field: the value becomes digits, eight at a time in a word, and one pass picks each character by its
//! address.

use crate::judge::Counts;
use crate::look::{HIDDEN_AS, PRINTED, PUNCHED};
use crate::plan::Field;
use std::mem::MaybeUninit;
use std::ptr;

/// The powers of ten that 64 bits hold, to that of MOST_DIGITS and past it, for constants and in memory.
pub const POWERS: [u64; 20] = {
    let mut powers = [1; 20];
    let mut k = 1;
    while k < 20 {
        powers[k] = powers[k - 1] * 10;
        k += 1;
    }
    powers
};
pub static POWER: [u64; 20] = POWERS;

/// Edits a value that fits.
///
/// # Safety
/// The field is judged and has these counts, and there is room for its characters.
#[inline(always)]
pub unsafe fn edit_field(field: Field, counts: &Counts, m: i64, out: *mut u8) {
    if counts.rare {
        edit_any::<true>(field, counts, m, out);
    } else {
        edit_any::<false>(field, counts, m, out);
    }
}

/// Edits a value that fits. Only with `RARE` are there T, I, R or B.
///
/// # Safety
/// As `edit_field`.
#[inline(always)]
unsafe fn edit_any<const RARE: bool>(field: Field, counts: &Counts, m: i64, out: *mut u8) {
    let t = m.unsigned_abs();
    let hidden = HIDDEN_AS[(field.kind == 2) as usize].as_ptr();
    if t == 0 && counts.suppressible {
        if RARE {
            hide(field.roles, field.n, hidden, out);
        } else {
            ptr::write_bytes(out, *hidden, field.n);
        }
        return;
    }
    // the digits that take the fill: leading zeros that may, and stand before V
    let cut = (counts.digits - length_of(t)).min(counts.hidden) as usize;
    let mut text = MaybeUninit::uninit();
    let start = digits_of(t, counts.digits, cut, hidden, &mut text);
    let printed = PRINTED[(m < 0) as usize].as_ptr();
    Pick::<RARE> { next: start, start, cut, printed, hidden }.field(field, out);
    if RARE && counts.signed {
        punch(field, m, out);
    }
}

/// Hides each position of a field. Its loop stands apart, so that it takes no registers from fields without B.
///
/// # Safety
/// The n roles are those of a good field without a nine, and there is room for its characters.
#[inline(never)]
unsafe fn hide(roles: *const u8, n: usize, hidden: *const u8, out: *mut u8) {
    for at in 0..n {
        *out.add(at) = *hidden.add(*roles.add(at) as usize);
    }
}

/// Puts the punched digit, if there is one, where the plain one stands. It is looked for from the end, where most fields have it.
///
/// # Safety
/// The field is judged, and its characters are there.
#[inline(always)]
unsafe fn punch(field: Field, m: i64, out: *mut u8) {
    for at in (0..field.n).rev() {
        let role = *field.roles.add(at) as usize;
        if role >= 15 {
            let list = PUNCHED[(m < 0) as usize].get_unchecked(role - 15);
            *out.add(at) = *list.get_unchecked((*out.add(at) - b'0') as usize);
            return;
        }
    }
}

/// How many digits a number has; 1 for 0.
#[inline(always)]
fn length_of(t: u64) -> u32 {
    let bits = 64 - (t | 1).leading_zeros();
    let low = (bits * 1233) >> 12; // log2 to log10, from below: 19 at most
    low + (t >= POWER[low as usize]) as u32
}

/// Room for digits: 24 bytes to spare, then three words of eight digits.
type Text = [u8; 48];

/// The address of the first of so many digits of a number, with the fill for the first `cut` of them and for the place before.
///
/// # Safety
/// The number has no more digits, which are MOST_DIGITS at most, and they are not all cut; the first eight of `hidden` are fill.
#[inline(always)]
unsafe fn digits_of(t: u64, digits: u32, cut: usize, hidden: *const u8, text: &mut MaybeUninit<Text>) -> *const u8 {
    const ZEROS: u64 = u64::from_ne_bytes([b'0'; 8]);
    let text = text.as_mut_ptr() as *mut u8;
    let fills = ptr::read_unaligned(hidden as *const u64);
    let mut low = t;
    if digits > 8 {
        let mut high = t / POWERS[8];
        low = t % POWERS[8];
        if digits > 16 {
            let top = t / POWERS[16];
            high -= top * POWERS[8];
            store(text.add(24), two_digits(top) << 48 | ZEROS);
            // here up to 18 bytes take the fill, more than the 16 below; these come before them
            store(text.add(24 - digits as usize + cut), fills);
        }
        store(text.add(32), eight_digits(high) | ZEROS);
    }
    store(text.add(40), eight_digits(low) | ZEROS);
    let start = text.add(48 - digits as usize);
    store(start.add(cut).sub(8), fills);
    store(start.add(cut).sub(16), fills);
    start
}

/// Eight bytes to an address that has them.
#[inline(always)]
unsafe fn store(to: *mut u8, word: u64) {
    ptr::write_unaligned(to as *mut u64, word.to_le())
}

/// The two digits of a number below 100, a byte each, the first in the lowest.
#[inline(always)]
fn two_digits(t: u64) -> u64 {
    let tens = (t * 103) >> 10;
    tens | (t - 10 * tens) << 8
}

/// The eight digits of a number below 10^8, likewise.
#[inline(always)]
fn eight_digits(t: u64) -> u64 {
    let fours = (t / 10_000) | (t % 10_000) << 32;
    let hundreds = (fours * 10_486) >> 20 & 0x0000_007f_0000_007f;
    let twos = hundreds | (fours - 100 * hundreds) << 16;
    let tens = (twos * 103) >> 10 & 0x000f_000f_000f_000f;
    tens | (twos - 10 * tens) << 8
}

/// Picks the characters of a field: `next` is the digit to come, `cut` how many digits take the fill, the first at `start`. With
/// `RARE` T, I and R are digits too, and a drifting character passes over B.
struct Pick<const RARE: bool> {
    next: *const u8,
    start: *const u8,
    cut: usize,
    printed: *const u8,
    hidden: *const u8,
}

impl<const RARE: bool> Pick<RARE> {
    /// The characters of a field.
    ///
    /// # Safety
    /// The field is judged and has so many digits, and there is room for its characters.
    #[inline(always)]
    unsafe fn field(mut self, field: Field, out: *mut u8) {
        let (before, after) =
            ((field.roles, out, field.v), (field.roles.add(field.v), out.add(field.v), field.n - field.v));
        if field.kind == 0 {
            self.all::<false, false>((field.roles, out, field.n));
        } else if field.kind < 3 {
            self.all::<true, false>(before);
            self.all::<false, false>(after);
        } else {
            // the first drifting symbol counts as a digit that takes the fill
            self.start = self.start.sub(1);
            self.next = self.start;
            self.cut += 1;
            let reached = self.all::<true, true>(before);
            let inside = self.next as usize - self.start as usize > self.cut;
            self.all::<false, false>(after);
            let mut drift = if inside { reached - 1 } else { field.v };
            while RARE && *field.roles.add(drift - 1) == 10 {
                drift -= 1;
            }
            *out.add(drift - 1) = *self.printed.add(field.kind);
        }
    }

    /// The characters of some positions, two at a time: a digit, or the first drifting symbol, is the next one; another is what it
    /// prints or, in the stretch, what it is hidden as. With `DRIFTS` it answers how many positions there are up to the first digit
    /// that prints.
    ///
    /// # Safety
    /// There are so many low roles and as much room, and no more digits than stand from `next` on.
    #[inline(always)]
    unsafe fn all<const STRETCH: bool, const DRIFTS: bool>(&mut self, part: (*const u8, *mut u8, usize)) -> usize {
        let (mut roles, mut out, count) = part;
        let mut reached = 0;
        let end = roles.add(count);
        if count & 1 != 0 {
            reached += self.one::<STRETCH, DRIFTS>(*roles, out);
            roles = roles.add(1);
            out = out.add(1);
        }
        while roles != end {
            reached += self.one::<STRETCH, DRIFTS>(*roles, out);
            reached += self.one::<STRETCH, DRIFTS>(*roles.add(1), out.add(1));
            roles = roles.add(2);
            out = out.add(2);
        }
        reached
    }

    #[inline(always)]
    unsafe fn one<const STRETCH: bool, const DRIFTS: bool>(&mut self, role: u8, out: *mut u8) -> usize {
        let taken = self.next as usize - self.start as usize;
        let inside = STRETCH && taken.wrapping_sub(1) < self.cut;
        let other = if inside { self.hidden } else { self.printed };
        // with one added, digits and no others are 0 to 3 above a multiple of 16
        let digit = if RARE { (role + 1) & 15 <= 3 } else { role <= 2 };
        *out = *if digit { self.next } else { other.add(role as usize) };
        self.next = self.next.add(digit as usize);
        (DRIFTS && taken <= self.cut) as usize
    }
}
