//! The two modes of editing: what they refuse, where they agree and differ, and how far a field is from its value, for every value of a
//! range. What a value comes to is found here by counting up and multiplying alone.

use second::field_to_value::value_of;
use second::rules_of_shape::Picture;
use second::value_to_field::{field_of, Mode};
use second::{edit, edit_cut, plan_edit, Answer, Refusal};
use std::collections::HashMap;

fn field(text: &str, m: i64, q: u64, mode: Mode) -> Result<String, Refusal> {
    let picture = Picture::of(text.as_bytes()).expect(text);
    field_of(&picture, m, q, mode).map(|field| String::from_utf8(field).expect("ASCII").replace(' ', "_"))
}

/// What the value comes to by rounding and by the cut; None is SIZE.
fn comes_to(text: &str, m: i64, q: u64, rounded: Option<&str>, cut: Option<&str>) {
    for (mode, expected) in [(Mode::Rounding, rounded), (Mode::Cut, cut)] {
        let expected = expected.map(str::to_string).ok_or(Refusal::Size);
        assert_eq!(field(text, m, q, mode), expected, "{mode:?} {text} {m}@{q}");
    }
}

#[test]
fn size_is_judged_behind_the_rounding() {
    comes_to("99V9", 9_995, 2, None, Some("999"));
    comes_to("99V9", 9_994, 2, Some("999"), Some("999"));
    comes_to("99V9", 99_949_999, 6, Some("999"), Some("999"));
    comes_to("99V9", 99_950_000, 6, None, Some("999"));
    comes_to("99V9", 1_000, 1, None, None);
    comes_to("999V9", 9_995, 2, Some("1000"), Some("0999"));
    comes_to("V9", 95, 2, None, Some("9"));
    comes_to("V9", 94, 2, Some("9"), Some("9"));
    comes_to("V99", 95, 2, Some("95"), Some("95"));
    comes_to("S9", -95, 1, None, Some("-9"));
    comes_to("T", -95, 1, None, Some("R"));
    comes_to("**", 995, 1, None, Some("99"));
}

#[test]
fn negatives_without_a_sign() {
    for text in ["99", "Z9", "ZZ", "**", "$$$", "V99", "$99", ",9.9"] {
        let zero = field(text, 0, 0, Mode::Cut).ok();
        let places = Picture::of(text.as_bytes()).expect(text).f() as u64;
        for (m, q) in [(-1, 1), (-4, 1), (-49, 2), (-1, 18 - places), (-4_999, 4)] {
            comes_to(text, m, q + places, zero.as_deref(), zero.as_deref());
        }
        for (m, q) in [(-5, 1), (-9, 1), (-50, 2), (-51, 2), (-99, 2), (-5_000, 4)] {
            comes_to(text, m, q + places, None, zero.as_deref());
        }
        for (m, q) in [(-1, 0), (-10, 1), (-14, 1), (-15, 1)] {
            comes_to(text, m, q + places, None, None);
        }
    }
}

#[test]
fn negatives_with_a_sign() {
    for (text, zero, one, two) in [
        ("S9", "+0", "-1", "-2"),
        ("+9", "+0", "_1", "_2"),
        ("-9", "_0", "-1", "-2"),
        ("9CR", "0__", "1CR", "2CR"),
        ("ZZDB", "____", "_1DB", "_2DB"),
        ("**-", "***", "*1-", "*2-"),
        ("SS", "__", "-1", "-2"),
        ("$$9S", "_$0+", "_$1-", "_$2-"),
        ("9T", "0{", "0J", "0K"),
        ("9I", "0{", "01", "02"),
        ("R", "0", "J", "K"),
    ] {
        comes_to(text, -4, 1, Some(zero), Some(zero));
        comes_to(text, -5, 1, Some(one), Some(zero));
        comes_to(text, -9, 1, Some(one), Some(zero));
        comes_to(text, -14, 1, Some(one), Some(one));
        comes_to(text, -15, 1, Some(two), Some(one));
        comes_to(text, -499_999_999_999_999_999, 18, Some(zero), Some(zero));
        comes_to(text, -500_000_000_000_000_000, 18, Some(one), Some(zero));
        comes_to(text, -999_999_999_999_999_999, 18, Some(one), Some(zero));
    }
}

#[test]
fn everything_suppressed_or_not() {
    comes_to("ZZ", 4, 1, Some("__"), Some("__"));
    comes_to("ZZ", 5, 1, Some("_1"), Some("__"));
    comes_to("ZV.Z", 4, 2, Some("___"), Some("___"));
    comes_to("ZV.Z", 5, 2, Some("_.1"), Some("___"));
    comes_to("ZV.Z", 95, 2, Some("1.0"), Some("_.9"));
    comes_to("Z.VZ", 95, 2, Some("1.0"), Some("__9"));
    comes_to("**B*", 5, 1, Some("**_1"), Some("**_*"));
    comes_to("$$,$$", 5, 1, Some("___$1"), Some("_____"));
    comes_to("$$,$$", 9_995, 1, None, Some("$9,99"));
    comes_to("$*,**CR", -4, 1, Some("*******"), Some("*******"));
    comes_to("$*,**CR", -5, 1, Some("$***1CR"), Some("*******"));
    comes_to("$*,**CR", -995, 1, Some("$1,00CR"), Some("$**99CR"));
}

#[test]
fn carries() {
    for nines in 1..=17 {
        let (text, kept) = (format!("({})9", nines + 1), 10i64.pow(nines) - 1);
        let width = nines as usize + 1;
        let (cut, rounded) = (format!("{kept:0width$}"), (kept + 1).to_string());
        comes_to(&text, 10 * kept + 4, 1, Some(&cut), Some(&cut));
        comes_to(&text, 10 * kept + 5, 1, Some(&rounded), Some(&cut));
        comes_to(&format!("({nines})9"), 10 * kept + 5, 1, None, Some(&cut[1..]));
        comes_to(&format!("V({nines})9"), 10 * kept + 5, u64::from(nines) + 1, None, Some(&cut[1..]));
        comes_to(&format!("9V({nines})9"), 10 * kept + 5, u64::from(nines) + 1, Some(&rounded), Some(&cut));
    }
}

#[test]
fn every_number_of_places_that_go() {
    for more in 1..=18u32 {
        let (half, power) = (10i64.pow(more) / 2, 10i64.pow(more));
        let q = u64::from(more);
        for sign in [1, -1] {
            let (zero, one) = ("+0", if sign > 0 { "+1" } else { "-1" });
            comes_to("S9", sign * (half - 1), q, Some(zero), Some(zero));
            comes_to("S9", sign * half, q, Some(one), Some(zero));
            comes_to("S9", sign * (half + 1), q, Some(one), Some(zero));
            comes_to("S9", sign * (power - 1), q, Some(one), Some(zero));
            if more < 18 {
                comes_to("S9", sign * (power + half - 1), q, Some(one), Some(one));
                comes_to("S9", sign * (9 * power + half), q, None, Some(if sign > 0 { "+9" } else { "-9" }));
            }
        }
    }
}

#[test]
fn the_refusals_and_their_order() {
    let limit = 1_000_000_000_000_000_000;
    for (why, text, m, q) in [
        (Refusal::Text, "", limit, 19),
        (Refusal::Symbol, "Q", limit, 19),
        (Refusal::Long, "(64)9V", limit, 19),
        (Refusal::Shape, "9Z", limit, 19),
        (Refusal::Digits, "(19)9", limit, 19),
        (Refusal::Value, "9", limit, 0),
        (Refusal::Value, "9", -limit, 18),
        (Refusal::Value, "9", 95, 19),
        (Refusal::Size, "9", 10, 0),
        (Refusal::Size, "9", -15, 1),
        (Refusal::Room, "9", 94, 1),
        (Refusal::Room, "9", -4, 1),
    ] {
        for edit in [edit, edit_cut] {
            assert_eq!(edit(text.as_bytes(), m, q, &mut []), Answer::refused(why), "{text} {m}@{q}");
        }
    }
}

#[test]
fn rounding_alone_refuses_before_the_room() {
    let mut out = *b"##";
    for (m, q) in [(95, 1), (-5, 1), (-9_999, 4)] {
        assert_eq!(edit(b"9", m, q, &mut []), Answer::refused(Refusal::Size), "{m}@{q}");
        assert_eq!(edit_cut(b"9", m, q, &mut []), Answer::refused(Refusal::Room), "{m}@{q}");
        assert_eq!((edit(b"9", m, q, &mut out), &out), (Answer::refused(Refusal::Size), b"##"), "{m}@{q}");
    }
    assert_eq!((edit_cut(b"9", 95, 1, &mut out), &out), (Answer::success(1), b"9#"));
    assert_eq!((edit(b"9", 45, 1, &mut out), &out), (Answer::success(1), b"5#"));
}

#[test]
fn plans_edit_at_the_scale_of_the_field() {
    let (plan, mut record) = ([1, 3, 2, 0, 0, 3, 0, 0, 0], *b"####");
    assert_eq!((plan_edit(&plan, &[999], &mut record), &record), (Answer::success(3), b"999#"));
    let refused = Answer::refused_at(Refusal::Size, 1);
    assert_eq!((plan_edit(&plan, &[9_994], &mut record), &record), (refused, b"999#"));
}

/// Pictures of up to three digits: each kind, with a sign and without, and each number of places.
const SMALL: [&str; 24] = [
    "9", "99", "999", "V9", "9V9", "9V99", "V999", "S9", "S9V9", "-V99", "9CR", "Z9V.9DB", "ZZ", "ZV.ZZ", "+Z.VZ",
    "**", "*V*-", "$$9", "$,$$V.$", "--V9", "SSS", "9T", "I9V9", "VR",
];

/// M goes this far to either side: past three digits and one more place.
const FAR: i64 = 10_010;

/// What M / 10^q comes to at the scale f, for each M from 0 on, by counting. The next number is reached with the whole of its last place,
/// in rounding with half of it; all is doubled, so that the half is whole.
fn counted(q: u32, f: u32, mode: Mode) -> Vec<i128> {
    let (place, step) = (2 * 10i128.pow(q), 2 * 10i128.pow(f));
    let first = if mode == Mode::Rounding { place / 2 } else { place };
    let mut t = 0;
    let of = |m: i64| {
        while first + t * place <= i128::from(m) * step {
            t += 1;
        }
        t
    };
    (0..=FAR).map(of).collect()
}

/// The values of fields, each read once.
struct Reader<'a> {
    picture: &'a Picture,
    known: HashMap<Vec<u8>, i128>,
}

impl Reader<'_> {
    fn value(&mut self, field: Vec<u8>) -> i128 {
        let read = |field: &Vec<u8>| i128::from(value_of(self.picture, field).expect("an edited field"));
        *self.known.entry(field).or_insert_with_key(read)
    }
}

/// The law for one value: it is refused exactly where the digits or the sign don't hold what it comes to; else it reads as that, no
/// further from M / 10^q than its mode allows, and by the cut no further from zero.
fn law(reader: &mut Reader, m: i64, q: u32, mode: Mode, t: i128) {
    let (picture, f) = (reader.picture, reader.picture.f() as u32);
    let fits = t < 10i128.pow(picture.digits.len() as u32) && (m >= 0 || t == 0 || picture.signed());
    let found = field_of(picture, m, u64::from(q), mode).map(|field| reader.value(field));
    let expected = if m < 0 { -t } else { t };
    assert_eq!(found, fits.then_some(expected).ok_or(Refusal::Size), "{mode:?} {:?} {m}@{q}", picture.symbols);
    let (n, exact) = (expected * 10i128.pow(q), i128::from(m) * 10i128.pow(f));
    let apart = (n - exact).abs();
    assert!(apart < 10i128.pow(q), "{m}@{q}");
    match mode {
        Mode::Rounding => assert!(2 * apart <= 10i128.pow(q), "{m}@{q}"),
        Mode::Cut => assert!(n.abs() <= exact.abs(), "{m}@{q}"),
    }
}

#[test]
fn the_law_for_every_value_of_a_range() {
    for text in SMALL {
        let picture = Picture::of(text.as_bytes()).expect(text);
        let f = picture.f() as u32;
        let mut reader = Reader { picture: &picture, known: HashMap::new() };
        for (q, mode) in (0..=18).flat_map(|q| Mode::BOTH.map(|mode| (q, mode))) {
            for (m, t) in (0..).zip(counted(q, f, mode)) {
                law(&mut reader, m, q, mode, t);
                law(&mut reader, -m, q, mode, t);
            }
        }
    }
}

#[test]
fn the_modes_agree_where_no_digit_goes() {
    for text in SMALL {
        let picture = Picture::of(text.as_bytes()).expect(text);
        for q in 0..=picture.f() as u64 {
            for m in -FAR..=FAR {
                let [rounded, cut] = Mode::BOTH.map(|mode| field_of(&picture, m, q, mode));
                assert_eq!(rounded, cut, "{text} {m}@{q}");
            }
        }
    }
}
