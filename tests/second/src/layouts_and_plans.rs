//! Layouts and plans. A byte string is judged to be a plan by rebuilding a layout text from it, compiling that text and comparing
//! the bytes; a plan is run through the pictures of the rebuilt layout. So no rule on plans is written twice.

use crate::field_to_value::value_of;
use crate::numbers_that_come_back::{Answer, Refusal};
use crate::rules_of_shape::Picture;
use crate::text_to_symbols::Symbol;
use crate::value_to_field::field_at_own_scale;

/// Compiles a layout text into the first bytes of `plan`.
pub fn compile(layout: &[u8], plan: &mut [u8]) -> Answer {
    let bytes = match pictures_of_layout(layout) {
        Ok(pictures) => plan_of(&pictures),
        Err(answer) => return answer,
    };
    match plan.get_mut(..bytes.len()) {
        Some(room) => room.copy_from_slice(&bytes),
        None => return Answer::refused(Refusal::Room),
    }
    Answer::success(bytes.len())
}

/// The pictures of a layout, or the answer that refuses it.
pub fn pictures_of_layout(layout: &[u8]) -> Result<Vec<Picture>, Answer> {
    let texts: Vec<&[u8]> = match layout.strip_suffix(b";") {
        Some(inner) if layout.len() <= 4_128 => inner.split(|&b| b == b';').collect(),
        _ => return Err(Answer::refused(Refusal::Count)),
    };
    if texts.len() > 32 {
        return Err(Answer::refused(Refusal::Count));
    }
    let refused = |(k, text)| Picture::of(text).map_err(|why| Answer::refused_at(why, k));
    (1..).zip(texts).map(refused).collect()
}

/// The plan of accepted pictures.
pub fn plan_of(pictures: &[Picture]) -> Vec<u8> {
    let mut fields = vec![pictures.len() as u8];
    let mut positions = Vec::new();
    for picture in pictures {
        let before_v = &picture.symbols[..picture.v.unwrap_or(picture.symbols.len())];
        let v = before_v.iter().map(|s| s.width()).sum::<usize>();
        fields.extend([picture.n() as u8, v as u8, kind(picture)]);
        positions.extend(position_bytes(picture));
    }
    fields.extend((positions.len() as u16).to_be_bytes());
    fields.extend(positions);
    fields
}

fn kind(picture: &Picture) -> u8 {
    match picture.drifting {
        Some(Symbol::S) => 3,
        Some(Symbol::Plus) => 4,
        Some(Symbol::Minus) => 5,
        Some(_) => 6,
        None if picture.symbols.contains(&Symbol::Z) => 1,
        None if picture.symbols.contains(&Symbol::Star) => 2,
        None => 0,
    }
}

fn position_bytes(picture: &Picture) -> Vec<u8> {
    let mut bytes = Vec::new();
    for (at, &symbol) in picture.symbols.iter().enumerate() {
        let digit = picture.digits.contains(&at);
        let drifts = picture.drifting == Some(symbol);
        let position: &[u8] = match symbol {
            Symbol::V => &[],
            Symbol::Nine => &[0],
            Symbol::T => &[15],
            Symbol::I => &[16],
            Symbol::R => &[17],
            _ if digit => &[1],
            _ if drifts => &[2],
            Symbol::S => &[3],
            Symbol::Plus => &[4],
            Symbol::Minus => &[5],
            Symbol::Dollar => &[6],
            Symbol::Comma => &[7],
            Symbol::Period => &[8],
            Symbol::Slash => &[9],
            Symbol::B => &[10],
            Symbol::Credit => &[11, 12],
            Symbol::Debit => &[13, 14],
            Symbol::Z | Symbol::Star => unreachable!("Z and * are digits"),
        };
        bytes.extend_from_slice(position);
    }
    bytes
}

/// Whether the bytes are the plan of some accepted layout.
pub fn is_plan(bytes: &[u8]) -> bool {
    pictures_of_plan(bytes).is_some()
}

/// The pictures of a layout that compiles to these very bytes, if there is one.
pub fn pictures_of_plan(bytes: &[u8]) -> Option<Vec<Picture>> {
    let pictures = pictures_of_layout(&rebuilt_layout(bytes)?).ok()?;
    (plan_of(&pictures) == bytes).then_some(pictures)
}

/// The only layout without factors, and without a V at the end of a picture, that could have given the bytes.
/// It need not be accepted, nor compile to the bytes.
pub fn rebuilt_layout(bytes: &[u8]) -> Option<Vec<u8>> {
    let (&count, rest) = bytes.split_first()?;
    let (fields, rest) = rest.split_at_checked(3 * usize::from(count))?;
    let (_, mut positions) = rest.split_at_checked(2)?;
    let mut layout = Vec::new();
    for field in fields.chunks(3) {
        let (own, others) = positions.split_at_checked(usize::from(field[0]))?;
        for (at, &position) in own.iter().enumerate() {
            if at == usize::from(field[1]) {
                layout.push(b'V');
            }
            layout.push(letter(position, field[2])?);
        }
        layout.push(b';');
        positions = others;
    }
    Some(layout)
}

/// The letter that a position byte stands for in a field of this kind. R is that of two bytes; compiling tells which is right.
fn letter(position: u8, kind: u8) -> Option<u8> {
    let suppressible = *b" Z*S+-$".get(usize::from(kind))?;
    match position {
        1 | 2 if kind == 0 => None,
        1 | 2 => Some(suppressible),
        _ => b"9  S+-$,./BCRDBTIR".get(usize::from(position)).copied(),
    }
}

/// Reads a record through a plan into the first places of `row`.
pub fn plan_read(plan: &[u8], record: &[u8], row: &mut [i64]) -> Answer {
    let Some(pictures) = pictures_of_plan(plan) else {
        return Answer::refused(Refusal::Plan);
    };
    if record.len() != record_length(&pictures) {
        return Answer::refused(Refusal::Length);
    }
    if row.len() < pictures.len() {
        return Answer::refused(Refusal::Room);
    }
    match values_of(&pictures, record) {
        Ok(values) => row[..values.len()].copy_from_slice(&values),
        Err(refused) => return refused,
    }
    Answer::success(pictures.len())
}

/// The values of a record of the right length, or the answer that refuses its first field without one.
pub fn values_of(pictures: &[Picture], record: &[u8]) -> Result<Vec<i64>, Answer> {
    let mut values = Vec::new();
    let mut rest = record;
    for (k, picture) in (1..).zip(pictures) {
        let (field, others) = rest.split_at(picture.n());
        match value_of(picture, field) {
            Some(value) => values.push(value),
            None => return Err(Answer::refused_at(Refusal::Conversion, k)),
        }
        rest = others;
    }
    Ok(values)
}

/// Edits a row through a plan into the first bytes of `record`.
pub fn plan_edit(plan: &[u8], row: &[i64], record: &mut [u8]) -> Answer {
    let Some(pictures) = pictures_of_plan(plan) else {
        return Answer::refused(Refusal::Plan);
    };
    if row.len() != pictures.len() {
        return Answer::refused(Refusal::Length);
    }
    let mut bytes = Vec::new();
    for (k, (picture, &m)) in (1..).zip(pictures.iter().zip(row)) {
        match field_at_own_scale(picture, m) {
            Ok(field) => bytes.extend(field),
            Err(why) => return Answer::refused_at(why, k),
        }
    }
    match record.get_mut(..bytes.len()) {
        Some(room) => room.copy_from_slice(&bytes),
        None => return Answer::refused(Refusal::Room),
    }
    Answer::success(bytes.len())
}

pub fn record_length(pictures: &[Picture]) -> usize {
    pictures.iter().map(Picture::n).sum()
}
