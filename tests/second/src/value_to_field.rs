//! From value to field: alignment, done on the decimal text of M, in which only the point moves and digits are dropped, so that no
//! number has to be multiplied or divided; and the printing of the aligned digits through the picture.

use crate::numbers_that_come_back::{Answer, Refusal};
use crate::rules_of_shape::Picture;
use crate::text_to_symbols::Symbol;
use std::ops::Range;

/// What becomes of the digits that stand behind the last place of a picture.
#[derive(Clone, Copy, PartialEq, Eq, Debug)]
pub enum Mode {
    /// The first of them decides: from 5 on, the magnitude becomes one more in the last place.
    Rounding,
    /// They are dropped.
    Cut,
}

impl Mode {
    pub const BOTH: [Mode; 2] = [Mode::Rounding, Mode::Cut];
}

/// A value brought to the scale of a picture: the sign, and one decimal digit for each digit of the picture.
#[derive(Clone, PartialEq, Eq, Debug)]
pub struct Aligned {
    pub negative: bool,
    pub digits: Vec<u8>,
}

impl Aligned {
    fn is_zero(&self) -> bool {
        self.digits.iter().all(|&digit| digit == b'0')
    }
}

/// Aligns M at scale q, or VALUE or SIZE in this order.
pub fn align(picture: &Picture, m: i64, q: u64, mode: Mode) -> Result<Aligned, Refusal> {
    let magnitude = m.unsigned_abs().to_string();
    if magnitude.len() > Picture::MOST_DIGITS || q > Picture::MOST_DIGITS as u64 {
        return Err(Refusal::Value);
    }
    let moved = with_places(&magnitude, q as usize, picture.f(), mode);
    let significant = moved.trim_start_matches('0');
    let negative = m < 0 && !significant.is_empty();
    let width = picture.digits.len();
    if significant.len() > width || (negative && !picture.signed()) {
        return Err(Refusal::Size);
    }
    Ok(Aligned { negative, digits: format!("{significant:0>width$}").into_bytes() })
}

/// The digits of a number whose last q stand behind the point, when f of them are to stand there.
fn with_places(digits: &str, q: usize, f: usize, mode: Mode) -> String {
    let written = format!("{digits:0>q$}");
    let (whole, part) = written.split_at(written.len() - q);
    let (kept, dropped) = part.split_at(part.len().min(f));
    let kept = format!("{whole}{kept:0<f$}");
    match (mode, dropped.chars().next()) {
        (Mode::Rounding, Some('5'..='9')) => one_more(&kept),
        _ => kept,
    }
}

/// The digits of the next number: the nines at the end become zeros, and the digit before them the next one.
fn one_more(digits: &str) -> String {
    let before = digits.trim_end_matches('9');
    let zeros = "0".repeat(digits.len() - before.len());
    match before.char_indices().last() {
        Some((last, digit)) => format!("{}{}{zeros}", &before[..last], char::from(digit as u8 + 1)),
        None => format!("1{zeros}"),
    }
}

/// The field of M at scale q, or VALUE or SIZE.
pub fn field_of(picture: &Picture, m: i64, q: u64, mode: Mode) -> Result<Vec<u8>, Refusal> {
    align(picture, m, q, mode).map(|aligned| print(picture, &aligned))
}

/// The field of M at the scale of the picture, where no digit is dropped, or VALUE or SIZE.
pub fn field_at_own_scale(picture: &Picture, m: i64) -> Result<Vec<u8>, Refusal> {
    field_of(picture, m, picture.f() as u64, Mode::Rounding)
}

/// Edits M at scale q through a picture text into the first n bytes of `out`, rounding.
pub fn edit(text: &[u8], m: i64, q: u64, out: &mut [u8]) -> Answer {
    edit_in(Mode::Rounding, text, m, q, out)
}

/// Edits as `edit`, by the cut.
pub fn edit_cut(text: &[u8], m: i64, q: u64, out: &mut [u8]) -> Answer {
    edit_in(Mode::Cut, text, m, q, out)
}

fn edit_in(mode: Mode, text: &[u8], m: i64, q: u64, out: &mut [u8]) -> Answer {
    let field = match Picture::of(text).and_then(|picture| field_of(&picture, m, q, mode)) {
        Ok(field) => field,
        Err(why) => return Answer::refused(why),
    };
    match out.get_mut(..field.len()) {
        Some(room) => room.copy_from_slice(&field),
        None => return Answer::refused(Refusal::Room),
    }
    Answer::success(field.len())
}

fn print(picture: &Picture, value: &Aligned) -> Vec<u8> {
    if picture.every_digit_suppressible() && value.is_zero() {
        let cover = |&symbol: &Symbol| vec![hidden(picture, symbol); symbol.width()];
        return picture.symbols.iter().flat_map(cover).collect();
    }
    let shown = &value.digits;
    let stretch = suppressed_stretch(picture, shown);
    let mut field = Vec::new();
    for (at, &symbol) in picture.symbols.iter().enumerate() {
        let digit = picture.digits.iter().position(|&d| d == at).map(|k| shown[k]);
        match (stretch.contains(&at), picture.drifting, digit) {
            (true, Some(drifting), _) if is_last_but_for_bs(&picture.symbols[at..stretch.end]) => {
                field.extend_from_slice(character(drifting, value.negative));
            }
            (true, _, _) => field.push(hidden(picture, symbol)),
            (false, _, Some(digit)) => field.push(figure(symbol, digit, value.negative)),
            (false, _, None) => field.extend_from_slice(character(symbol, value.negative)),
        }
    }
    field
}

/// What a hidden symbol shows at each of its positions.
fn hidden(picture: &Picture, symbol: Symbol) -> u8 {
    match symbol {
        Symbol::B => b' ',
        _ => picture.fill(),
    }
}

/// Whether the first symbol is no B and all behind it are.
fn is_last_but_for_bs(symbols: &[Symbol]) -> bool {
    let is_b = |&symbol: &Symbol| symbol == Symbol::B;
    !is_b(&symbols[0]) && symbols[1..].iter().all(is_b)
}

/// The places of the suppressed symbols. V is never among them, so each is a character position.
fn suppressed_stretch(picture: &Picture, shown: &[u8]) -> Range<usize> {
    let from = picture.suppression_from().unwrap_or(picture.symbols.len());
    from..printing_starts(picture, shown).max(from)
}

fn printing_starts(picture: &Picture, shown: &[u8]) -> usize {
    let is_shown = |(&at, &digit): &(&usize, &u8)| digit != b'0' || !picture.suppressible(at) || picture.after_v(at);
    let first = picture.digits.iter().zip(shown).find(is_shown).map(|(&at, _)| at);
    let first = first.expect("a field that is not all suppressed shows a digit");
    match picture.v {
        Some(v) if v < first => v,
        _ => first,
    }
}

/// What a digit symbol prints for a digit.
fn figure(symbol: Symbol, digit: u8, negative: bool) -> u8 {
    match (symbol, negative) {
        (Symbol::T | Symbol::I, false) => punched(digit, b'{', b'A'),
        (Symbol::T | Symbol::R, true) => punched(digit, b'}', b'J'),
        _ => digit,
    }
}

/// The digit with a sign punched over it: the letters of 1 to 9 follow each other, 0 stands apart.
fn punched(digit: u8, of_zero: u8, of_one: u8) -> u8 {
    match digit {
        b'0' => of_zero,
        _ => of_one + (digit - b'1'),
    }
}

/// What a symbol that is no digit prints.
fn character(symbol: Symbol, negative: bool) -> &'static [u8] {
    match (symbol, negative) {
        (Symbol::Comma, _) => b",",
        (Symbol::Period, _) => b".",
        (Symbol::Slash, _) => b"/",
        (Symbol::Dollar, _) => b"$",
        (Symbol::S | Symbol::Plus, false) => b"+",
        (Symbol::S | Symbol::Minus, true) => b"-",
        (Symbol::Plus, true) | (Symbol::Minus, false) | (Symbol::B, _) => b" ",
        (Symbol::Credit, true) => b"CR",
        (Symbol::Debit, true) => b"DB",
        (Symbol::Credit | Symbol::Debit, false) => b"  ",
        (Symbol::V | Symbol::Nine | Symbol::Z | Symbol::Star | Symbol::T | Symbol::I | Symbol::R, _) => b"",
    }
}
