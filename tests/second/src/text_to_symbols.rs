//! From picture text to symbols. The text is taken apart from its right end: the mark first, since only the last two bytes decide
//! whether there is one, then symbol by symbol, each with the factor that stands before it.

use crate::numbers_that_come_back::Refusal;

/// A symbol of an expanded picture; a credit or debit mark is one symbol here although it counts as two.
#[derive(Clone, Copy, PartialEq, Eq, Debug)]
pub enum Symbol {
    Nine,
    Z,
    Star,
    V,
    Comma,
    Period,
    Slash,
    B,
    S,
    Plus,
    Minus,
    Dollar,
    T,
    I,
    R,
    Credit,
    Debit,
}

const LETTERS: [(u8, Symbol); 15] = [
    (b'9', Symbol::Nine),
    (b'Z', Symbol::Z),
    (b'*', Symbol::Star),
    (b'V', Symbol::V),
    (b',', Symbol::Comma),
    (b'.', Symbol::Period),
    (b'/', Symbol::Slash),
    (b'B', Symbol::B),
    (b'S', Symbol::S),
    (b'+', Symbol::Plus),
    (b'-', Symbol::Minus),
    (b'$', Symbol::Dollar),
    (b'T', Symbol::T),
    (b'I', Symbol::I),
    (b'R', Symbol::R),
];

impl Symbol {
    fn of(byte: u8) -> Option<Symbol> {
        LETTERS.iter().find(|(letter, _)| *letter == byte).map(|(_, symbol)| *symbol)
    }

    /// Whether it is a digit that carries the sign.
    pub fn is_punched(self) -> bool {
        matches!(self, Symbol::T | Symbol::I | Symbol::R)
    }

    /// Whether it is a digit that is always printed.
    pub fn is_nine(self) -> bool {
        self == Symbol::Nine || self.is_punched()
    }

    /// What it counts towards the 64 symbols of a picture.
    pub fn count(self) -> usize {
        match self {
            Symbol::Credit | Symbol::Debit => 2,
            _ => 1,
        }
    }

    /// The character positions it takes in a field.
    pub fn width(self) -> usize {
        match self {
            Symbol::V => 0,
            Symbol::Credit | Symbol::Debit => 2,
            _ => 1,
        }
    }
}

/// The expanded symbols of a text, or TEXT, SYMBOL or LONG in this order.
pub fn symbols_of(text: &[u8]) -> Result<Vec<Symbol>, Refusal> {
    if text.is_empty() || text.len() > 128 {
        return Err(Refusal::Text);
    }
    let symbols = from_the_right(text).ok_or(Refusal::Symbol)?;
    if symbols.iter().map(|s| s.count()).sum::<usize>() > 64 {
        return Err(Refusal::Long);
    }
    Ok(symbols)
}

fn from_the_right(text: &[u8]) -> Option<Vec<Symbol>> {
    let (mut rest, mark) = split_mark(text);
    if mark.is_some() && rest.ends_with(b")") {
        return None;
    }
    let mut found: Vec<Symbol> = mark.into_iter().collect();
    while let Some((&byte, before)) = rest.split_last() {
        let symbol = Symbol::of(byte)?;
        let (factor, before) = split_factor(before)?;
        if matches!(symbol, Symbol::V | Symbol::R) && factor.is_some() {
            return None;
        }
        found.extend(std::iter::repeat_n(symbol, factor.unwrap_or(1)));
        rest = before;
    }
    found.reverse();
    Some(found)
}

fn split_mark(text: &[u8]) -> (&[u8], Option<Symbol>) {
    if let Some(rest) = text.strip_suffix(b"CR") {
        (rest, Some(Symbol::Credit))
    } else if let Some(rest) = text.strip_suffix(b"DB") {
        (rest, Some(Symbol::Debit))
    } else {
        (text, None)
    }
}

/// Splits a factor off the end; None when a closing parenthesis stands there without a right factor before it.
fn split_factor(text: &[u8]) -> Option<(Option<usize>, &[u8])> {
    let Some(open_part) = text.strip_suffix(b")") else {
        return Some((None, text));
    };
    let open = open_part.iter().rposition(|&b| b == b'(')?;
    let digits = &open_part[open + 1..];
    if !(1..=2).contains(&digits.len()) || !digits.iter().all(u8::is_ascii_digit) {
        return None;
    }
    let worth = digits.iter().fold(0, |sum, d| sum * 10 + usize::from(d - b'0'));
    if !(1..=64).contains(&worth) {
        return None;
    }
    Some((Some(worth), &open_part[..open]))
}
