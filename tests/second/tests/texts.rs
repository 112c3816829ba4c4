//! Picture texts taken apart from the left by a scanner of this test, against the program, which starts at the right.

use second::make::{pictures, random::Random};
use second::text_to_symbols::symbols_of;
use second::Refusal;

/// The text with its factors written out, if every byte and factor is allowed.
fn written_out(text: &[u8]) -> Option<Vec<u8>> {
    let mut out = Vec::new();
    let mut at = 0;
    while at < text.len() {
        let last_two = at + 2 == text.len();
        if last_two && (text.ends_with(b"CR") || text.ends_with(b"DB")) {
            out.extend(&text[at..]);
            return Some(out);
        }
        let mut times = 1;
        if text[at] == b'(' {
            let close = at + text[at..].iter().position(|&b| b == b')')?;
            let worth = std::str::from_utf8(&text[at + 1..close]).ok()?;
            let plain = worth.len() <= 2 && worth.bytes().all(|b| b.is_ascii_digit());
            times = worth.parse().ok().filter(|times| plain && (1..=64).contains(times))?;
            at = close + 1;
            let mark_follows = at + 2 == text.len() && text[at..] == *b"DB";
            if mark_follows || !b"9Z*,./BS+-$TI".contains(text.get(at)?) {
                return None;
            }
        }
        if !b"9Z*V,./BS+-$TIR".contains(&text[at]) {
            return None;
        }
        out.extend(vec![text[at]; times]);
        at += 1;
    }
    Some(out)
}

#[test]
fn from_the_left_as_from_the_right() {
    let mut random = Random::new(31);
    let (mut allowed, mut refused) = (0, 0);
    for _ in 0..100_000 {
        let text = pictures::text(&mut random, 20);
        let expected = match written_out(&text) {
            _ if text.is_empty() || text.len() > 128 => Err(Refusal::Text),
            None => Err(Refusal::Symbol),
            Some(out) if out.len() > 64 => Err(Refusal::Long),
            Some(out) => symbols_of(&out),
        };
        *(if expected.is_ok() { &mut allowed } else { &mut refused }) += 1;
        assert_eq!(symbols_of(&text), expected, "{}", text.escape_ascii());
    }
    assert!(allowed > 10_000 && refused > 10_000);
}
