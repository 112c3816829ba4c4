//! Fields and records for cases: what editing gives, and what comes close to it.

use super::random::Random;
use super::values;
use crate::rules_of_shape::Picture;
use crate::text_to_symbols::Symbol;
use crate::value_to_field::field_at_own_scale;

const CHARACTERS: &[u8] = b"0123456789 *+-$,./CRDB{}AIJN";

/// The characters of the digits: plain, with a plus punched over them, with a minus.
const FIGURES: [&[u8; 10]; 3] = [b"0123456789", b"{ABCDEFGHI", b"}JKLMNOPQR"];

/// A field for a picture: of a value, damaged in some way, or of a wrong length.
pub fn for_picture(random: &mut Random, picture: &Picture) -> Vec<u8> {
    let field = edited(random, picture);
    match random.below(20) {
        0..=8 => field,
        9..=17 => damaged(random, picture, field),
        18 => (0..field.len()).map(|_| random.pick(CHARACTERS)).collect(),
        _ => other_length(random, field),
    }
}

/// A record for pictures of the right length: all fields edited, and in so many of a hundred one or two of them damaged.
pub fn whole_record(random: &mut Random, pictures: &[Picture], damaged_percent: usize) -> Vec<u8> {
    let mut fields: Vec<Vec<u8>> = pictures.iter().map(|picture| edited(random, picture)).collect();
    if random.percent(damaged_percent) {
        for _ in 0..random.between(1, 2) {
            let k = random.below(fields.len());
            fields[k] = damaged(random, &pictures[k], fields[k].clone());
        }
    }
    fields.concat()
}

/// A record for pictures, at times damaged or of a wrong length.
pub fn record(random: &mut Random, pictures: &[Picture]) -> Vec<u8> {
    let record = whole_record(random, pictures, 35);
    if random.percent(8) {
        other_length(random, record)
    } else {
        record
    }
}

/// The field of a value that fits.
pub fn edited(random: &mut Random, picture: &Picture) -> Vec<u8> {
    let m = values::fitting(random, picture);
    field_at_own_scale(picture, m).expect("the value fits")
}

/// The field changed without a change of its length; at times it is a field again.
pub fn damaged(random: &mut Random, picture: &Picture, mut field: Vec<u8>) -> Vec<u8> {
    let at = random.below(field.len());
    let punched = punched_position(picture);
    if random.percent(if punched.is_some() { 50 } else { 5 }) {
        other_figure(random, &mut field, punched.unwrap_or(at));
        return field;
    }
    let bs = telling_bs(picture);
    if !bs.is_empty() && random.percent(60) {
        other_cover(random, picture, &mut field, &bs);
        return field;
    }
    match random.below(10) {
        0 | 1 => field[at] = random.pick(CHARACTERS),
        2 => field[at] = random.byte(),
        3 => zero_for_fill(random, &mut field),
        4 => exchange(&mut field, b'+', b'-'),
        5 => exchange(&mut field, random.pick(b"+-"), b' '),
        6 => exchange_marks(&mut field),
        7 => exchange(&mut field, b' ', b'*'),
        8 => field.iter_mut().filter(|byte| byte.is_ascii_digit()).for_each(|byte| *byte = b'0'),
        _ => {
            let other = (at + 1) % field.len();
            field.swap(at, other);
        }
    }
    field
}

/// The position that a punched digit has in the fields of a picture.
fn punched_position(picture: &Picture) -> Option<usize> {
    let at = picture.symbols.iter().position(|symbol| symbol.is_punched())?;
    Some(position(picture, at))
}

/// The position that the symbol at a place has in the fields of a picture.
fn position(picture: &Picture, at: usize) -> usize {
    picture.symbols[..at].iter().map(|symbol| symbol.width()).sum()
}

/// The positions of the Bs in fields that can hide with other characters than blanks.
fn telling_bs(picture: &Picture) -> Vec<usize> {
    let tells = picture.drifting.is_some() || picture.fill() == b'*';
    let is_b = |&at: &usize| tells && picture.symbols[at] == Symbol::B;
    (0..picture.symbols.len()).filter(is_b).map(|at| position(picture, at)).collect()
}

/// Hides otherwise, in a field with Bs at these positions.
fn other_cover(random: &mut Random, picture: &Picture, field: &mut [u8], bs: &[usize]) {
    let characters: &[u8] = match picture.drifting {
        Some(Symbol::Dollar) => b"$",
        Some(_) => b"+-",
        None => return other_fill(random, field, bs),
    };
    match field.iter().position(|byte| characters.contains(byte)) {
        Some(at) => other_drift(random, field, bs, at),
        None => field[random.pick(bs)] = random.pick(characters),
    }
}

/// Asterisks for the blanks of Bs, or the other way round.
fn other_fill(random: &mut Random, field: &mut [u8], bs: &[usize]) {
    let shown = field.iter().position(|byte| byte.is_ascii_alphanumeric()).unwrap_or(field.len());
    let stars: Vec<usize> = (0..field.len()).filter(|&at| field[at] == b'*').collect();
    let b = random.pick(bs);
    match random.below(6) {
        0..=2 => bs.iter().filter(|&&b| b < shown).for_each(|&b| field[b] = b'*'),
        3 => field[b] = b'*',
        4 => field.swap(b.saturating_sub(1), b),
        _ if stars.is_empty() => field[b] = b'*',
        _ => field[random.pick(&stars)] = b' ',
    }
}

/// The drifting character, which stands at a position, elsewhere: on the last of the Bs that follow, beside its place, on any B;
/// missing; or in two places.
fn other_drift(random: &mut Random, field: &mut [u8], bs: &[usize], at: usize) {
    let following = (at + 1..).take_while(|next| bs.contains(next)).last();
    let beside = if random.percent(50) { at.saturating_sub(1) } else { (at + 1).min(field.len() - 1) };
    let any = random.pick(bs);
    match (random.below(10), following) {
        (0..=4, Some(following)) => field.swap(at, following),
        (0..=5, _) => field.swap(at, beside),
        (6, _) => field.swap(at, any),
        (7, _) => field[at] = b' ',
        (8, _) => field[beside] = field[at],
        _ => field[any] = field[at],
    }
}

/// A digit with another sign punched over it or none, most times that at the position; at times all digits become zeros first.
fn other_figure(random: &mut Random, field: &mut [u8], at: usize) {
    let worth = |byte: u8| FIGURES.iter().find_map(|list| list.iter().position(|&figure| figure == byte));
    let mut at = at;
    match random.below(8) {
        0..=3 => {}
        4 | 5 => field.iter_mut().filter(|byte| worth(**byte).is_some()).for_each(|byte| *byte = b'0'),
        _ => at = random.below(field.len()),
    }
    let same = worth(field[at]).unwrap_or(0);
    let digit = if random.percent(70) { same } else { random.below(10) };
    field[at] = random.pick(&FIGURES)[digit];
}

/// A digit 0 in place of one of the blanks or asterisks.
fn zero_for_fill(random: &mut Random, field: &mut [u8]) {
    let fills: Vec<usize> = (0..field.len()).filter(|&at| b" *".contains(&field[at])).collect();
    if !fills.is_empty() {
        field[random.pick(&fills)] = b'0';
    }
}

fn exchange(field: &mut [u8], one: u8, other: u8) {
    for byte in field {
        if *byte == one {
            *byte = other;
        } else if *byte == other {
            *byte = one;
        }
    }
}

/// Two blanks, CR and DB at the end, each put in place of the one before.
fn exchange_marks(field: &mut [u8]) {
    let Some(at) = field.len().checked_sub(2) else {
        return;
    };
    let mark: &[u8] = match &field[at..] {
        b"  " => b"CR",
        b"CR" => b"DB",
        b"DB" => b"  ",
        _ => return,
    };
    field[at..].copy_from_slice(mark);
}

fn other_length(random: &mut Random, mut field: Vec<u8>) -> Vec<u8> {
    match random.below(5) {
        0 => field.clear(),
        1 | 2 => field.truncate(field.len() - 1),
        _ => field.push(random.pick(CHARACTERS)),
    }
    field
}
