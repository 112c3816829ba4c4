//! The totals program: from the whole input, which is the lister's, to the totals of the records accepted. They are kept, and added up
//! at the end.

use crate::layouts_and_plans::{record_length, values_of};
use crate::lister::{by_layout, heads, line};
use crate::numbers_that_come_back::{Answer, Refusal};
use crate::rules_of_shape::Picture;
use crate::totals::History;

/// The layout's line, a line for each record refused, and the totals of an input.
pub fn totalling(input: &[u8]) -> Vec<u8> {
    by_layout(input, totals)
}

fn totals(pictures: &[Picture], lines: &[&[u8]]) -> Vec<u8> {
    let mut history = History::default();
    let mut out = Vec::new();
    for (k, record) in (1..).zip(lines) {
        let Err(refused) = offer(&mut history, pictures, record) else {
            continue;
        };
        out.extend(line(&heads(k, refused)));
        if at_a_limit(refused) {
            break;
        }
    }
    let sheet = history.sheet();
    out.extend(line(&[sheet.count]));
    for (field, column) in (1..).zip(&sheet.columns[..pictures.len()]) {
        out.extend(line(&[field, column.sum, column.least, column.greatest]));
    }
    out
}

/// Keeps a record line, or refuses it with the first of FULL, LENGTH, CONVERSION, SIZE.
fn offer(history: &mut History, pictures: &[Picture], record: &[u8]) -> Result<(), Answer> {
    if history.full() {
        return Err(Answer::refused(Refusal::Full));
    }
    if record.len() != record_length(pictures) {
        return Err(Answer::refused(Refusal::Length));
    }
    history.keep(values_of(pictures, record)?)
}

/// Whether the sheet takes no more, so that nothing behind is looked at: other refusals are of their record alone.
fn at_a_limit(refused: Answer) -> bool {
    [Refusal::Full, Refusal::Size].iter().any(|why| why.number() == refused.number)
}
