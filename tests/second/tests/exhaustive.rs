//! All small pictures with all their values: no field has two values, and reading by search agrees with looking the field up
//! among the edited ones. The number of small pictures without T, I and R was counted by another program as well; those with one are
//! counted by the unsigned pictures that have a 9 in its place.

use second::field_to_value::value_of;
use second::rules_of_shape::Picture;
use second::text_to_symbols::Symbol;
use second::value_to_field::field_at_own_scale;
use std::collections::HashMap;

const PLAIN: &[u8] = b"9Z*,./BS+-$";
const WITH_PUNCHED: &[u8] = b"9Z*,./BS+-$TIR";
const CHARACTERS: &[u8] = b"019 *+-$,./CRDB";
const PUNCHED_CHARACTERS: &[u8] = b"019 *$,{}AIJR";

/// All texts of exactly so many bytes over the letters.
fn texts(letters: &[u8], length: usize) -> Vec<Vec<u8>> {
    let mut all = vec![Vec::new()];
    for _ in 0..length {
        all = all.iter().flat_map(|text| letters.iter().map(|&c| [&text[..], &[c]].concat())).collect();
    }
    all
}

/// All texts over the letters of so many positions without V, those with a mark among them.
fn texts_of_positions(letters: &[u8], positions: usize) -> Vec<Vec<u8>> {
    let mut all = texts(letters, positions);
    if positions >= 2 {
        for text in texts(letters, positions - 2) {
            all.push([&text[..], b"CR"].concat());
            all.push([&text[..], b"DB"].concat());
        }
    }
    all
}

/// The text as it is, and with a V at every place.
fn with_v(text: &[u8]) -> Vec<Vec<u8>> {
    let mut all = vec![text.to_vec()];
    for at in 0..=text.len() {
        all.push([&text[..at], b"V", &text[at..]].concat());
    }
    all
}

/// The accepted pictures over the letters of so many positions.
fn pictures(letters: &[u8], positions: usize) -> Vec<Picture> {
    let texts = texts_of_positions(letters, positions);
    texts.iter().flat_map(|text| with_v(text)).filter_map(|text| Picture::of(&text).ok()).collect()
}

/// Those of them that have a punched digit.
fn punched_pictures(positions: usize) -> Vec<Picture> {
    let has_one = |picture: &Picture| picture.symbols.iter().any(|symbol| symbol.is_punched());
    pictures(WITH_PUNCHED, positions).into_iter().filter(has_one).collect()
}

/// Every field that the picture can give, with its value.
fn fields(picture: &Picture) -> HashMap<Vec<u8>, i64> {
    let limit = 10i64.pow(picture.digits.len() as u32);
    let mut found = HashMap::new();
    for m in 1 - limit..limit {
        if let Ok(field) = field_at_own_scale(picture, m) {
            let other = found.insert(field, m);
            assert_eq!(other, None, "{picture:?}: {m} has the field of another value");
        }
    }
    found
}

#[test]
fn pictures_of_up_to_four_positions_are_as_many_as_counted_elsewhere() {
    assert_eq!((1..=4).map(|positions| pictures(PLAIN, positions).len()).sum::<usize>(), 37_678);
}

#[test]
fn punched_pictures_are_unsigned_ones_with_one_nine_punched() {
    for positions in 1..=4 {
        let unsigned = pictures(PLAIN, positions).into_iter().filter(|picture| !picture.signed());
        let nines = unsigned.flat_map(|picture| picture.symbols).filter(|&symbol| symbol == Symbol::Nine).count();
        assert_eq!(punched_pictures(positions).len(), 3 * nines, "{positions} positions");
    }
    for text in texts_of_positions(WITH_PUNCHED, 4).iter().flat_map(|text| with_v(text)) {
        let end = if text.ends_with(b"CR") { text.len() - 2 } else { text.len() };
        let punched: Vec<usize> = (0..end).filter(|&at| b"TIR".contains(&text[at])).collect();
        let Some(&at) = punched.first() else { continue };
        let nine = Picture::of(&[&text[..at], b"9", &text[at + 1..]].concat());
        let expected = punched.len() == 1 && nine.is_ok_and(|picture| !picture.signed());
        assert_eq!(Picture::of(&text).is_ok(), expected, "{}", text.escape_ascii());
    }
}

#[test]
fn search_agrees_with_enumeration_up_to_three_positions() {
    for positions in 1..=3 {
        let candidates = texts(CHARACTERS, positions);
        for picture in pictures(PLAIN, positions) {
            search_agrees(&picture, &candidates);
        }
    }
}

#[test]
fn search_agrees_with_enumeration_under_punched_digits() {
    for positions in 1..=3 {
        let candidates = texts(PUNCHED_CHARACTERS, positions);
        for picture in punched_pictures(positions) {
            search_agrees(&picture, &candidates);
        }
    }
}

/// Every candidate and every known field is read as it is known.
fn search_agrees(picture: &Picture, candidates: &[Vec<u8>]) {
    let known = fields(picture);
    for field in candidates {
        assert_eq!(value_of(picture, field), known.get(field).copied(), "{picture:?} {field:?}");
    }
    for (field, &value) in &known {
        assert_eq!(value_of(picture, field), Some(value), "{picture:?} {field:?}");
    }
}

#[test]
fn search_agrees_with_enumeration_for_every_byte_under_one_position() {
    for picture in pictures(WITH_PUNCHED, 1) {
        let known = fields(&picture);
        for byte in 0..=255 {
            assert_eq!(value_of(&picture, &[byte]), known.get(&[byte][..]).copied(), "{picture:?} {byte}");
        }
    }
}

#[test]
fn search_agrees_with_enumeration_under_marks() {
    for plain in (1..=3).flat_map(|positions| texts(b"9Z*VB,$", positions)) {
        for mark in [b"CR", b"DB"] {
            if let Ok(picture) = Picture::of(&[&plain[..], mark].concat()) {
                changed_fields_agree(&picture);
            }
        }
    }
}

#[test]
fn search_agrees_with_enumeration_under_bs() {
    for letters in [b"9*BV.", b"9$BV.", b"9SBV.", b"9+BV.", b"9-BV."] {
        for text in (4..=5).flat_map(|length| texts(letters, length)).filter(|text| text.contains(&b'B')) {
            if let Ok(picture) = Picture::of(&text) {
                changed_fields_agree(&picture);
            }
        }
    }
}

/// Every known field with one byte changed, or two neighbours exchanged, the last with the first, is read as it is known.
fn changed_fields_agree(picture: &Picture) {
    let known = fields(picture);
    let agrees =
        |field: &[u8]| assert_eq!(value_of(picture, field), known.get(field).copied(), "{picture:?} {field:?}");
    for field in known.keys().filter(|field| !field.iter().any(|byte| b"2345678".contains(byte))) {
        for at in 0..field.len() {
            let mut changed = field.clone();
            changed.swap(at, (at + 1) % field.len());
            agrees(&changed);
            for &byte in CHARACTERS {
                changed.clone_from(field);
                changed[at] = byte;
                agrees(&changed);
            }
        }
    }
}
