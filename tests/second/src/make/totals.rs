//! Batches, places and totals sheets for cases: most lead to a record that is added, many with a number at its limit.

use super::fields::whole_record;
use super::layouts;
use super::random::Random;
use crate::collector::{bytes, SHEET_BYTES};
use crate::field_to_value::value_of;
use crate::layouts_and_plans::{pictures_of_layout, plan_of, record_length};
use crate::rules_of_shape::Picture;
use crate::totals::{Column, Sheet, MOST_BATCH};

/// Counts at the limit and beyond, some that are small if their upper half is lost, and some that are negative.
const COUNTS: &[i64] =
    &[0, 1, 8_998, 8_999, 8_999, 8_999, 9_000, 9_000, 9_001, 65_536, 1 << 32, -1, i64::MIN, i64::MAX];

/// How many of a hundred records are damaged.
const DAMAGED: usize = 15;

/// A batch of few records, mostly whole ones.
pub fn batch(random: &mut Random, pictures: &[Picture]) -> Vec<u8> {
    let count = match random.below(20) {
        0 => 0,
        1..=8 => 1,
        9..=16 => random.between(2, 4),
        _ => random.between(5, 12),
    };
    let mut batch: Vec<u8> = (0..count).flat_map(|_| whole_record(random, pictures, DAMAGED)).collect();
    match random.below(40) {
        0 => batch.push(b' '),
        1 => batch.truncate(batch.len().saturating_sub(1)),
        2 => batch.truncate(random.below(batch.len())),
        _ => {}
    }
    batch
}

/// A batch about as long as one may be: of whole records or not, or one record too long, or of about double the length.
pub fn long_batch(random: &mut Random, pictures: &[Picture]) -> Vec<u8> {
    let record = record_length(pictures);
    let most = MOST_BATCH / record * record;
    let length = match random.below(10) {
        0..=4 => most,
        5 | 6 => most + record,
        7 => MOST_BATCH,
        8 => MOST_BATCH + 1,
        _ => 2 * most,
    };
    let records: Vec<u8> = (0..3).flat_map(|_| whole_record(random, pictures, DAMAGED)).collect();
    records.into_iter().cycle().take(length).collect()
}

/// The plan of a layout whose records fill the longest batch to its last byte.
pub fn filling_plan(random: &mut Random) -> Vec<u8> {
    let picture: &[u8] = random.pick(&[b"9", b"-9", b"S(18)9(45)/"]);
    let layout = layouts::joined(&vec![picture.to_vec(); 1 << random.below(6)]);
    plan_of(&pictures_of_layout(&layout).expect("a good layout"))
}

/// A place in a batch of so many bytes: mostly the start of a record, else the end, beside one of them, or far behind.
pub fn place(random: &mut Random, batch: usize, record: usize) -> u64 {
    let start = (random.below(batch / record) * record) as u64;
    let (end, record) = (batch as u64, record as u64);
    match random.below(30) {
        0..=21 => start,
        22..=24 => end.saturating_sub(record),
        25 | 26 => end,
        27 => random.pick(&[start + 1, start.wrapping_sub(1), end + 1, end.wrapping_sub(1)]),
        28 => end + record,
        _ => random.pick(&[start + (1 << 32), start + (1 << 63), record.wrapping_neg(), u64::MAX]),
    }
}

/// The values of the record at a place: 0 for a field without one, and for all where no record is there.
pub fn values_at(pictures: &[Picture], batch: &[u8], place: u64) -> Vec<i64> {
    let behind = usize::try_from(place).ok().and_then(|place| batch.get(place..)).unwrap_or_default();
    let Some(mut rest) = behind.get(..record_length(pictures)) else {
        return vec![0; pictures.len()];
    };
    let mut values = Vec::new();
    for picture in pictures {
        let (field, others) = rest.split_at(picture.n());
        values.push(value_of(picture, field).unwrap_or(0));
        rest = others;
    }
    values
}

/// The run of a sheet for a record of these values: empty or in use, the count or a sum at times at its limit.
pub fn sheet(random: &mut Random, values: &[i64]) -> Vec<u8> {
    let mut sheet = if random.percent(25) { Sheet::default() } else { in_use(random, values) };
    if random.percent(15) {
        sheet.count = random.pick(COUNTS);
    }
    if random.percent(40) {
        for _ in 0..random.between(1, 2) {
            let k = random.below(values.len());
            sheet.columns[k].sum = sum_at_the_limit(random, values[k]);
        }
    }
    run(random, bytes(&sheet.numbers()))
}

/// A sheet that has taken records; the places without a field hold anything at times.
fn in_use(random: &mut Random, values: &[i64]) -> Sheet {
    let mut sheet = Sheet { count: random.between(1, Sheet::MOST_RECORDS - 1) as i64, ..Sheet::default() };
    let (columns, others) = sheet.columns.split_at_mut(values.len());
    for (column, &m) in columns.iter_mut().zip(values) {
        let sum = random.number() as i64 % 10i64.pow(random.between(1, 17) as u32);
        *column = Column { sum, least: near(random, m), greatest: near(random, m) };
    }
    if random.percent(20) {
        for column in others {
            let sum = sum_at_the_limit(random, 0);
            *column = Column { sum, least: near(random, sum), greatest: near(random, sum) };
        }
    }
    sheet
}

/// A least or greatest to be held against a value.
fn near(random: &mut Random, m: i64) -> i64 {
    let any = random.number() as i64;
    random.pick(&[m, m.saturating_sub(1), m.saturating_add(1), -1, 0, 1, any, any, i64::MIN, i64::MAX])
}

/// A sum that is at the limit of either side before a value is added or behind that, or at an end of 64 bits.
fn sum_at_the_limit(random: &mut Random, m: i64) -> i64 {
    let largest = Sheet::LIMIT - 1;
    let (inside, outside, end) =
        if random.percent(50) { (largest, Sheet::LIMIT, i64::MAX) } else { (-largest, -Sheet::LIMIT, i64::MIN) };
    random.pick(&[inside, inside, inside - m, inside - m, outside, outside - m, outside + outside.signum(), end])
}

/// The run of a sheet, mostly of its length, else shorter or longer.
fn run(random: &mut Random, mut sheet: Vec<u8>) -> Vec<u8> {
    let length = match random.below(40) {
        0 => 0,
        1 => SHEET_BYTES - 1,
        2 => random.below(SHEET_BYTES),
        3 | 4 => SHEET_BYTES + 1,
        5 | 6 => SHEET_BYTES + random.below(40),
        _ => SHEET_BYTES,
    };
    sheet.truncate(length);
    let behind = random.bytes(length - sheet.len());
    sheet.extend(behind);
    sheet
}
