//! A picture of PL/I as one of COBOL, symbol by symbol: `V.` is COBOL's point, S is COBOL's +, and a factor stands behind its
//! symbol.

/// A COBOL picture and the digits of its number before and behind the point.
pub struct Picture {
    pub text: String,
    pub whole: usize,
    pub part: usize,
}

/// PL/I's +, which is a blank when negative, has no like in COBOL.
pub fn cobol(picture: &str) -> Picture {
    let symbols = expanded(picture);
    assert!(!symbols.contains('+'), "{picture} has no like in COBOL");
    let (before, behind) = symbols.split_once('V').unwrap_or((&symbols, ""));
    // the first of the drifting symbols is no digit
    let drifting = ["S", "-", "$"].into_iter().find(|symbol| symbols.matches(symbol).count() > 1);
    let digits =
        |text: &str| text.matches(['9', 'Z', '*']).count() + drifting.map_or(0, |symbol| text.matches(symbol).count());
    let (whole, part) = (digits(before) - usize::from(drifting.is_some()), digits(behind));
    Picture { text: factored(&symbols.replace("V.", ".").replace('S', "+")), whole, part }
}

/// The symbols with the factors written out.
fn expanded(picture: &str) -> String {
    let mut symbols = String::new();
    let mut rest = picture;
    while let Some(first) = rest.chars().next() {
        let (times, from) = match rest.strip_prefix('(').and_then(|rest| rest.split_once(')')) {
            Some((times, behind)) => (times.parse().expect("a factor"), behind),
            None => (1, rest),
        };
        let symbol = from.chars().next().unwrap_or(first);
        symbols.extend(std::iter::repeat_n(symbol, times));
        rest = &from[1..];
    }
    symbols
}

/// Four and more of a symbol with a factor.
fn factored(symbols: &str) -> String {
    let mut text = String::new();
    let mut rest = symbols;
    while let Some(symbol) = rest.chars().next() {
        let times = rest.len() - rest.trim_start_matches(symbol).len();
        text += &if times < 4 { rest[..times].to_string() } else { format!("{symbol}({times})") };
        rest = &rest[times..];
    }
    text
}
