//! The rules of shape, each one a function over the symbols in the words of the rules, and the accepted picture with the facts
//! that editing, reading and compiling need.

use crate::numbers_that_come_back::{Answer, Refusal};
use crate::text_to_symbols::{symbols_of, Symbol};

const DRIFTERS: [Symbol; 4] = [Symbol::S, Symbol::Plus, Symbol::Minus, Symbol::Dollar];
const SIGNS: [Symbol; 8] =
    [Symbol::S, Symbol::Plus, Symbol::Minus, Symbol::Credit, Symbol::Debit, Symbol::T, Symbol::I, Symbol::R];

/// An accepted picture.
#[derive(Clone, Debug)]
pub struct Picture {
    pub symbols: Vec<Symbol>,
    /// The places of the digits among the symbols.
    pub digits: Vec<usize>,
    /// The place of V among the symbols.
    pub v: Option<usize>,
    /// The symbol that drifts, if one does.
    pub drifting: Option<Symbol>,
}

impl Picture {
    /// The most digits of a picture. A value has no more digits and no larger scale.
    pub const MOST_DIGITS: usize = 18;

    /// The picture of a text, or the first of TEXT, SYMBOL, LONG, SHAPE, DIGITS.
    pub fn of(text: &[u8]) -> Result<Picture, Refusal> {
        let symbols = symbols_of(text)?;
        if !well_shaped(&symbols) {
            return Err(Refusal::Shape);
        }
        let digits = digits(&symbols);
        if digits.is_empty() || digits.len() > Picture::MOST_DIGITS {
            return Err(Refusal::Digits);
        }
        let v = symbols.iter().position(|&s| s == Symbol::V);
        let drifting = drifting_kinds(&symbols).first().copied();
        Ok(Picture { symbols, digits, v, drifting })
    }

    /// The number of character positions.
    pub fn n(&self) -> usize {
        self.symbols.iter().map(|s| s.width()).sum()
    }

    /// The number of digits before V.
    pub fn i(&self) -> usize {
        self.digits.len() - self.f()
    }

    /// The number of digits after V.
    pub fn f(&self) -> usize {
        self.digits.iter().filter(|&&at| self.after_v(at)).count()
    }

    pub fn after_v(&self, at: usize) -> bool {
        self.v.is_some_and(|v| v < at)
    }

    pub fn signed(&self) -> bool {
        self.symbols.iter().any(|s| SIGNS.contains(s))
    }

    /// Whether the digit at this place is a Z, a * or a drifting one.
    pub fn suppressible(&self, at: usize) -> bool {
        !self.symbols[at].is_nine()
    }

    pub fn every_digit_suppressible(&self) -> bool {
        self.digits.iter().all(|&at| self.suppressible(at))
    }

    /// The place where hiding can begin: a suppressible digit or the first symbol that drifts.
    pub fn suppression_from(&self) -> Option<usize> {
        let may = |&s: &Symbol| s == Symbol::Z || s == Symbol::Star || self.drifting == Some(s);
        self.symbols.iter().position(may)
    }

    pub fn fill(&self) -> u8 {
        if self.symbols.contains(&Symbol::Star) {
            b'*'
        } else {
            b' '
        }
    }
}

/// Checks a picture text; the length is n.
pub fn check(text: &[u8]) -> Answer {
    match Picture::of(text) {
        Ok(picture) => Answer::success(picture.n()),
        Err(why) => Answer::refused(why),
    }
}

fn well_shaped(s: &[Symbol]) -> bool {
    at_most_one_v(s)
        && at_most_one_kind_drifts(s)
        && suppression_is_of_one_kind(s)
        && no_suppressible_digit_follows_a_nine(s)
        && behind_v_all_or_none(s)
        && at_most_one_kind_of_sign(s)
        && at_most_one_punched_digit(s)
        && static_symbols_outside(s)
        && v_not_before_drift(s)
}

fn times(s: &[Symbol], symbol: Symbol) -> usize {
    s.iter().filter(|&&x| x == symbol).count()
}

fn has_a_nine(s: &[Symbol]) -> bool {
    s.iter().any(|symbol| symbol.is_nine())
}

fn drifting_kinds(s: &[Symbol]) -> Vec<Symbol> {
    DRIFTERS.into_iter().filter(|&kind| times(s, kind) >= 2).collect()
}

fn first_drifting(s: &[Symbol]) -> Option<usize> {
    let kinds = drifting_kinds(s);
    s.iter().position(|symbol| kinds.contains(symbol))
}

/// The places of the drifting symbols after the first of their kind.
fn drifting_digits(s: &[Symbol]) -> Vec<usize> {
    let kinds = drifting_kinds(s);
    let again = |&at: &usize| kinds.contains(&s[at]) && s[..at].contains(&s[at]);
    (0..s.len()).filter(again).collect()
}

fn suppressible_digits(s: &[Symbol]) -> Vec<usize> {
    let drifting = drifting_digits(s);
    let may = |at: &usize| matches!(s[*at], Symbol::Z | Symbol::Star) || drifting.contains(at);
    (0..s.len()).filter(may).collect()
}

fn digits(s: &[Symbol]) -> Vec<usize> {
    let suppressible = suppressible_digits(s);
    (0..s.len()).filter(|at| s[*at].is_nine() || suppressible.contains(at)).collect()
}

fn at_most_one_v(s: &[Symbol]) -> bool {
    times(s, Symbol::V) <= 1
}

fn at_most_one_kind_drifts(s: &[Symbol]) -> bool {
    drifting_kinds(s).len() <= 1
}

fn suppression_is_of_one_kind(s: &[Symbol]) -> bool {
    let z = usize::from(s.contains(&Symbol::Z));
    let star = usize::from(s.contains(&Symbol::Star));
    z + star + drifting_kinds(s).len() <= 1
}

fn no_suppressible_digit_follows_a_nine(s: &[Symbol]) -> bool {
    let nine_before = |at: &usize| has_a_nine(&s[..*at]);
    !suppressible_digits(s).iter().any(nine_before)
}

fn behind_v_all_or_none(s: &[Symbol]) -> bool {
    let v_before = |at: &usize| s[..*at].contains(&Symbol::V);
    !suppressible_digits(s).iter().any(v_before) || !has_a_nine(s)
}

fn at_most_one_kind_of_sign(s: &[Symbol]) -> bool {
    SIGNS.iter().filter(|sign| s.contains(sign)).count() <= 1
}

fn at_most_one_punched_digit(s: &[Symbol]) -> bool {
    s.iter().filter(|symbol| symbol.is_punched()).count() <= 1
}

fn static_symbols_outside(s: &[Symbol]) -> bool {
    let digits = digits(s);
    let (Some(&first_digit), Some(&last_digit)) = (digits.first(), digits.last()) else {
        return true;
    };
    let first_drifting = first_drifting(s).unwrap_or(s.len());
    let is_static = |at: &usize| DRIFTERS.contains(&s[*at]) && times(s, s[*at]) == 1;
    let outside = |at: usize| (at < first_digit && at < first_drifting) || at > last_digit;
    (0..s.len()).filter(is_static).all(outside)
}

fn v_not_before_drift(s: &[Symbol]) -> bool {
    let v = s.iter().position(|&x| x == Symbol::V);
    !matches!((v, first_drifting(s)), (Some(v), Some(drift)) if v < drift)
}
