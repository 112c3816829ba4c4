//! The lister: from the whole input to the whole listing.

use crate::layouts_and_plans::{pictures_of_layout, plan_of, plan_read, record_length};
use crate::numbers_that_come_back::{Answer, Refusal};
use crate::rules_of_shape::Picture;

/// The listing of an input.
pub fn listing(input: &[u8]) -> Vec<u8> {
    by_layout(input, records)
}

/// The layout's line, and behind that of an accepted layout what is made of its pictures and the record lines.
pub fn by_layout(input: &[u8], made: impl Fn(&[Picture], &[&[u8]]) -> Vec<u8>) -> Vec<u8> {
    if input.len() > 65_536 {
        return line(&[0, Refusal::Input.number() as i64, 0]);
    }
    let mut lines = lines_of(input);
    let layout = if lines.is_empty() { &[][..] } else { lines.remove(0) };
    match pictures_of_layout(layout) {
        Ok(pictures) => {
            let accepted = line(&[0, 0, 0, pictures.len() as i64, record_length(&pictures) as i64]);
            [accepted, made(&pictures, &lines)].concat()
        }
        Err(refused) => line(&heads(0, refused)),
    }
}

/// The lines without their LF; what follows the last LF is a line only if it isn't empty.
fn lines_of(input: &[u8]) -> Vec<&[u8]> {
    let mut lines: Vec<&[u8]> = input.split(|&b| b == b'\n').collect();
    if lines.last().is_some_and(|last| last.is_empty()) {
        lines.pop();
    }
    lines
}

fn records(pictures: &[Picture], lines: &[&[u8]]) -> Vec<u8> {
    let plan = plan_of(pictures);
    let mut out = Vec::new();
    for (k, record) in (1..).zip(lines) {
        let mut row = vec![0; pictures.len()];
        let answer = plan_read(&plan, record, &mut row);
        let mut numbers = heads(k, answer);
        if answer.number == 0 {
            numbers.extend(row);
        }
        out.extend(line(&numbers));
    }
    out
}

/// How the line of an answer begins.
pub fn heads(k: i64, answer: Answer) -> Vec<i64> {
    vec![k, answer.number as i64, answer.field as i64]
}

/// Numbers as a line of the listing.
pub fn line(numbers: &[i64]) -> Vec<u8> {
    let words: Vec<String> = numbers.iter().map(i64::to_string).collect();
    format!("{}\n", words.join(",")).into_bytes()
}
