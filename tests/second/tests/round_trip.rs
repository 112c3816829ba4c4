//! Random accepted pictures of every kind: what editing gives, reading gives back, and whatever is read edits to the same field.

use second::make::pictures::accepted;
use second::make::random::Random;
use second::make::values::{fitting, for_picture};
use second::rules_of_shape::Picture;
use second::{edit, edit_cut, read, Answer};

type Edit = fn(&[u8], i64, u64, &mut [u8]) -> Answer;

fn field_by(edit: Edit, text: &[u8], m: i64, q: u64) -> Option<Vec<u8>> {
    let mut out = vec![0; 64];
    let answer = edit(text, m, q, &mut out);
    out.truncate(answer.length as usize);
    (answer.number == 0).then_some(out)
}

fn field(text: &[u8], m: i64, q: u64) -> Option<Vec<u8>> {
    field_by(edit, text, m, q)
}

/// Every value that fits if there are few, else a sample.
fn values(random: &mut Random, picture: &Picture) -> Vec<i64> {
    let digits = picture.digits.len() as u32;
    if digits > 2 {
        return (0..25).map(|_| fitting(random, picture)).collect();
    }
    let largest = 10i64.pow(digits) - 1;
    (if picture.signed() { -largest } else { 0 }..=largest).collect()
}

#[test]
fn editing_then_reading_gives_the_value_back() {
    let mut random = Random::new(1);
    for _ in 0..6_000 {
        let text = accepted(&mut random);
        let picture = Picture::of(&text).unwrap();
        for m in values(&mut random, &picture) {
            let shown = field(&text, m, picture.f() as u64).expect("the value fits");
            assert_eq!(field_by(edit_cut, &text, m, picture.f() as u64).as_ref(), Some(&shown));
            assert_eq!(shown.len(), picture.n());
            assert_eq!(read(&text, &shown), Answer::value(m), "{}", text.escape_ascii());
        }
    }
}

/// Values of any scale come back as this quotient of M * 10^f by 10^q, and have no field where the picture doesn't hold it.
fn come_back(edit: Edit, seed: u64, quotient: impl Fn(i128, i128) -> i128) {
    let mut random = Random::new(seed);
    for _ in 0..40_000 {
        let text = accepted(&mut random);
        let picture = Picture::of(&text).unwrap();
        let (m, q) = for_picture(&mut random, &picture);
        if m.unsigned_abs() >= 10u64.pow(18) || q > 18 {
            assert_eq!(field_by(edit, &text, m, q), None);
            continue;
        }
        let n = quotient(i128::from(m) * 10i128.pow(picture.f() as u32), 10i128.pow(q as u32));
        let fits = n.abs() < 10i128.pow(picture.digits.len() as u32) && (n >= 0 || picture.signed());
        let back = field_by(edit, &text, m, q).map(|shown| i128::from(read(&text, &shown).value));
        assert_eq!(back, fits.then_some(n), "{} {m}@{q}", text.escape_ascii());
    }
}

#[test]
fn values_of_any_scale_come_back_rounded() {
    come_back(edit, 2, |product, power| product.signum() * (2 * product.abs() + power).div_euclid(2 * power));
}

#[test]
fn values_of_any_scale_come_back_cut() {
    come_back(edit_cut, 6, |product, power| product / power);
}

#[test]
fn the_largest_values_come_back() {
    let mut random = Random::new(5);
    let pictures: Vec<_> =
        (0..10_000).map(|_| accepted(&mut random)).map(|text| (Picture::of(&text).unwrap(), text)).collect();
    let largest = 999_999_999_999_999_999;
    let of_most_digits = pictures.iter().filter(|(picture, _)| picture.digits.len() == 18);
    assert!(of_most_digits.clone().count() > 500);
    for (picture, text) in of_most_digits {
        let f = picture.f() as u64;
        for m in [largest, -largest, largest - 1, 100_000_000_000_000_000, 1_000_000_000_000_000] {
            match field(text, m, f) {
                Some(shown) => assert_eq!(read(text, &shown), Answer::value(m), "{}", text.escape_ascii()),
                None => assert!(m < 0 && !picture.signed(), "{} {m}", text.escape_ascii()),
            }
        }
        for (m, q) in [(largest + 1, f), (-largest - 1, f), (largest, 19), (0, 19)] {
            for edit in [edit, edit_cut] {
                assert_eq!(edit(text, m, q, &mut [0; 64]).number, 6, "{} {m}@{q}", text.escape_ascii());
            }
        }
    }
}

#[test]
fn a_changed_byte_is_refused_or_gives_another_field() {
    let mut random = Random::new(3);
    for _ in 0..2_500 {
        let text = accepted(&mut random);
        let picture = Picture::of(&text).unwrap();
        let m = fitting(&mut random, &picture);
        let shown = field(&text, m, picture.f() as u64).expect("the value fits");
        let at = random.below(shown.len());
        for byte in 0..=255 {
            let mut changed = shown.clone();
            changed[at] = byte;
            let answer = read(&text, &changed);
            match answer.number {
                0 => {
                    assert_eq!(field(&text, answer.value, picture.f() as u64), Some(changed), "{}", text.escape_ascii())
                }
                number => assert_eq!(number, 10),
            }
        }
    }
}

#[test]
fn one_byte_more_or_less_is_a_wrong_length() {
    let mut random = Random::new(4);
    for _ in 0..500 {
        let text = accepted(&mut random);
        let picture = Picture::of(&text).unwrap();
        let mut shown = field(&text, 0, 18).expect("every picture takes it");
        shown.push(b' ');
        assert_eq!(read(&text, &shown).number, 9);
        shown.truncate(picture.n() - 1);
        assert_eq!(read(&text, &shown).number, 9);
    }
}
