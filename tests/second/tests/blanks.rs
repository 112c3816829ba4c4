//! B, by a law of its own: struck out of picture and field it leaves the field of the picture without it, since it is always
//! a blank and nothing else heeds it.

use second::field_to_value::value_of;
use second::layouts_and_plans::{plan_of, rebuilt_layout};
use second::make::fields::for_picture;
use second::make::pictures::accepted;
use second::make::random::Random;
use second::make::values::fitting;
use second::rules_of_shape::Picture;
use second::text_to_symbols::Symbol;
use second::value_to_field::field_at_own_scale;

/// The picture without its Bs; that of the debit mark stays.
fn without_bs(picture: &Picture) -> Picture {
    let mut layout = rebuilt_layout(&plan_of(std::slice::from_ref(picture))).expect("the plan of a picture");
    layout.pop();
    let mark = if layout.ends_with(b"DB") { layout.split_off(layout.len() - 2) } else { Vec::new() };
    layout.retain(|&letter| letter != b'B');
    Picture::of(&[layout, mark].concat()).expect("Bs have no part in the shape")
}

/// The field in two parts: what the Bs show, and what is left.
fn parted(picture: &Picture, field: &[u8]) -> (Vec<u8>, Vec<u8>) {
    let of_b = picture.symbols.iter().flat_map(|&symbol| vec![symbol == Symbol::B; symbol.width()]);
    let (bs, others): (Vec<_>, Vec<_>) = of_b.zip(field).partition(|(of_b, _)| *of_b);
    let bytes = |part: Vec<(bool, &u8)>| part.into_iter().map(|(_, &byte)| byte).collect();
    (bytes(bs), bytes(others))
}

fn prints_by_the_law(picture: &Picture, m: i64) {
    let (bs, others) = parted(picture, &field_at_own_scale(picture, m).expect("the value fits"));
    assert!(bs.iter().all(|&byte| byte == b' '), "{picture:?} {m}");
    assert_eq!(field_at_own_scale(&without_bs(picture), m), Ok(others), "{picture:?} {m}");
}

fn reads_by_the_law(picture: &Picture, field: &[u8]) {
    let (bs, others) = parted(picture, field);
    let expected = value_of(&without_bs(picture), &others).filter(|_| bs.iter().all(|&byte| byte == b' '));
    assert_eq!(value_of(picture, field), expected, "{picture:?} {:?}", field.escape_ascii().to_string());
}

/// The accepted pictures of up to five symbols over the letters.
fn small_pictures(letters: &[u8]) -> Vec<Picture> {
    let mut texts: Vec<Vec<u8>> = vec![Vec::new()];
    let mut pictures = Vec::new();
    for _ in 0..5 {
        texts = texts.iter().flat_map(|text| letters.iter().map(|&c| [&text[..], &[c]].concat())).collect();
        pictures.extend(texts.iter().filter_map(|text| Picture::of(text).ok()));
    }
    pictures
}

#[test]
fn small_pictures_follow_the_law() {
    for letters in [b"*B9V,", b"$B9V,", b"SB9V.", b"+B9V.", b"-B9V/", b"ZBTV,"] {
        for picture in small_pictures(letters) {
            let largest = 10i64.pow(picture.digits.len() as u32) - 1;
            for m in (0..=largest).filter(|m| !m.to_string().contains(['2', '3', '4', '6', '7', '8'])) {
                prints_by_the_law(&picture, m);
                if picture.signed() {
                    prints_by_the_law(&picture, -m);
                }
            }
        }
    }
}

#[test]
fn random_pictures_and_fields_follow_the_law() {
    let mut random = Random::new(24);
    for _ in 0..30_000 {
        let picture = Picture::of(&accepted(&mut random)).expect("accepted");
        prints_by_the_law(&picture, fitting(&mut random, &picture));
        let field = for_picture(&mut random, &picture);
        if field.len() == picture.n() {
            reads_by_the_law(&picture, &field);
        }
    }
}
