//! From field to value, by search: every look that a field of the picture can have is written down as a template, with a free
//! place at each printed digit, and the field is held against all of them. No value is edited here, so that reading and editing
//! can be tested against each other. That no field has two values is checked on every read.

use crate::numbers_that_come_back::{Answer, Refusal};
use crate::rules_of_shape::Picture;
use crate::text_to_symbols::Symbol;

/// What a look has at one character position.
#[derive(Clone, Copy, PartialEq, Eq, Debug)]
enum Slot {
    Exactly(u8),
    /// A printed digit, by its number among the digits of the picture, and the characters that stand for 0 to 9.
    Digit(usize, &'static [u8; 10]),
}

/// One look of a field in which something is shown.
struct Look {
    minus: bool,
    /// The place among the symbols where printing starts: a digit before V, or V itself.
    start: usize,
    slots: Vec<Slot>,
}

/// Reads a field through a picture text.
pub fn read(text: &[u8], field: &[u8]) -> Answer {
    let picture = match Picture::of(text) {
        Ok(picture) => picture,
        Err(why) => return Answer::refused(why),
    };
    if field.len() != picture.n() {
        return Answer::refused(Refusal::Length);
    }
    match value_of(&picture, field) {
        Some(value) => Answer::value(value),
        None => Answer::refused(Refusal::Conversion),
    }
}

/// The value at scale f that the field shows, if it shows one.
///
/// # Panics
/// If the field shows two values; the rules then would not say which is meant.
pub fn value_of(picture: &Picture, field: &[u8]) -> Option<i64> {
    let mut values: Vec<i64> = looks(picture).iter().filter_map(|look| seen(picture, look, field)).collect();
    if picture.every_digit_suppressible() && field == cover(picture, &picture.symbols) {
        values.push(0);
    }
    values.dedup();
    assert!(values.len() <= 1, "a field with the values {values:?}");
    values.first().copied()
}

fn looks(picture: &Picture) -> Vec<Look> {
    let signs: &[bool] = if picture.signed() { &[false, true] } else { &[false] };
    let mut all = Vec::new();
    for start in starts(picture) {
        for &minus in signs {
            all.push(Look { minus, start, slots: slots(picture, start, minus) });
        }
    }
    all
}

/// Where printing can start: at a digit before V that only suppressible ones precede, or at V if only such precede it.
fn starts(picture: &Picture) -> Vec<usize> {
    let nine = picture.symbols.iter().position(|s| s.is_nine()).unwrap_or(picture.symbols.len());
    let may_precede = |start: &usize| *start <= nine;
    let before_v = picture.digits.iter().copied().filter(|&at| !picture.after_v(at));
    let at_v = picture.v.filter(|_| picture.f() > 0);
    before_v.chain(at_v).filter(may_precede).collect()
}

fn slots(picture: &Picture, start: usize, minus: bool) -> Vec<Slot> {
    let (front, printed) = picture.symbols.split_at(start);
    let quiet = picture.suppression_from().unwrap_or(start).min(start);
    let (lead, hidden) = front.split_at(quiet);
    let mut slots = Vec::new();
    for &symbol in lead {
        slots.extend(sight(symbol, minus).iter().map(|&c| Slot::Exactly(c)));
    }
    let mut cover = cover(picture, hidden);
    if let Some(drifting) = picture.drifting {
        let last = hidden.iter().rposition(|&symbol| symbol != Symbol::B).expect("the first drifting symbol is hidden");
        cover[last] = sight(drifting, minus)[0];
    }
    slots.extend(cover.into_iter().map(Slot::Exactly));
    let mut digit = picture.digits.iter().filter(|&&at| at < start).count();
    for (past, &symbol) in printed.iter().enumerate() {
        if picture.digits.contains(&(start + past)) {
            slots.push(Slot::Digit(digit, figures(symbol, minus)));
            digit += 1;
        } else {
            slots.extend(sight(symbol, minus).iter().map(|&c| Slot::Exactly(c)));
        }
    }
    slots
}

/// The characters that hide symbols: runs of the fill, parted by the blank of each B.
fn cover(picture: &Picture, hidden: &[Symbol]) -> Vec<u8> {
    let width = |run: &[Symbol]| run.iter().map(|symbol| symbol.width()).sum();
    let runs = hidden.split(|&symbol| symbol == Symbol::B).map(|run| vec![picture.fill(); width(run)]);
    runs.collect::<Vec<_>>().join(&b' ')
}

/// The characters under which a symbol other than a digit is seen outside the suppressed stretch.
fn sight(symbol: Symbol, minus: bool) -> &'static [u8] {
    let (plus_form, minus_form): (&[u8], &[u8]) = match symbol {
        Symbol::S => (b"+", b"-"),
        Symbol::Plus => (b"+", b" "),
        Symbol::Minus => (b" ", b"-"),
        Symbol::Credit => (b"  ", b"CR"),
        Symbol::Debit => (b"  ", b"DB"),
        Symbol::Dollar => (b"$", b"$"),
        Symbol::Comma => (b",", b","),
        Symbol::Period => (b".", b"."),
        Symbol::Slash => (b"/", b"/"),
        Symbol::B => (b" ", b" "),
        Symbol::V => (b"", b""),
        Symbol::Nine | Symbol::Z | Symbol::Star | Symbol::T | Symbol::I | Symbol::R => {
            unreachable!("a digit has no fixed character")
        }
    };
    if minus {
        minus_form
    } else {
        plus_form
    }
}

/// The characters under which a digit symbol is seen, from that of 0 to that of 9.
fn figures(symbol: Symbol, minus: bool) -> &'static [u8; 10] {
    let (plain, with_plus, with_minus) = (b"0123456789", b"{ABCDEFGHI", b"}JKLMNOPQR");
    let (plus_form, minus_form) = match symbol {
        Symbol::T => (with_plus, with_minus),
        Symbol::I => (with_plus, plain),
        Symbol::R => (plain, with_minus),
        _ => (plain, plain),
    };
    if minus {
        minus_form
    } else {
        plus_form
    }
}

/// The value of the field under one look, if the field has that look and the value has no other.
fn seen(picture: &Picture, look: &Look, field: &[u8]) -> Option<i64> {
    let mut digits = vec![0i64; picture.digits.len()];
    if field.len() != look.slots.len() {
        return None;
    }
    for (&slot, &byte) in look.slots.iter().zip(field) {
        match slot {
            Slot::Exactly(character) if byte == character => {}
            Slot::Exactly(_) => return None,
            Slot::Digit(k, figures) => digits[k] = figures.iter().position(|&figure| figure == byte)? as i64,
        }
    }
    let t = digits.iter().fold(0, |t, digit| t * 10 + digit);
    let first = picture.digits.iter().position(|&at| at == look.start);
    let starts_rightly = first.is_none_or(|k| digits[k] != 0 || !picture.suppressible(look.start));
    let zero_rightly = t != 0 || (!look.minus && !picture.every_digit_suppressible());
    (starts_rightly && zero_rightly).then_some(if look.minus { -t } else { t })
}
