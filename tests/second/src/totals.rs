//! Totals beside each batch: the sheet, the history of one, the walker over a batch, and one addition. Sums are taken in 128 bits, so that
//! nothing has to be ordered against overflow; what a sheet holds after many additions is taken from the list of the records
//! accepted; and the record at a place is found by walking to it.

use crate::layouts_and_plans::{pictures_of_plan, record_length, values_of};
use crate::numbers_that_come_back::{Answer, Refusal};

/// The most bytes of a batch.
pub const MOST_BATCH: usize = 65_536;

/// What a sheet has of one field.
#[derive(Clone, Copy, PartialEq, Eq, Debug, Default)]
pub struct Column {
    pub sum: i64,
    pub least: i64,
    pub greatest: i64,
}

/// A totals sheet; the default is the empty one.
#[derive(Clone, PartialEq, Eq, Debug, Default)]
pub struct Sheet {
    pub count: i64,
    pub columns: [Column; Sheet::PLACES],
}

impl Sheet {
    /// A place for each field that a layout can have.
    pub const PLACES: usize = 32;
    /// The most records of a sheet.
    pub const MOST_RECORDS: usize = 9_000;
    /// The first number either way that is too large for a sum.
    pub const LIMIT: i64 = 10i64.pow(18);

    /// The sheet of its numbers: the count, all sums, all least and all greatest.
    pub fn of(numbers: &[i64]) -> Sheet {
        let part = |which: usize| &numbers[1 + which * Sheet::PLACES..][..Sheet::PLACES];
        let (sums, least, greatest) = (part(0), part(1), part(2));
        let column = |k: usize| Column { sum: sums[k], least: least[k], greatest: greatest[k] };
        Sheet { count: numbers[0], columns: std::array::from_fn(column) }
    }

    pub fn numbers(&self) -> Vec<i64> {
        let parts: [fn(&Column) -> i64; 3] = [|column| column.sum, |column| column.least, |column| column.greatest];
        let columns = parts.iter().flat_map(|part| self.columns.iter().map(part));
        [self.count].into_iter().chain(columns).collect()
    }

    fn full(&self) -> bool {
        !(0..Sheet::MOST_RECORDS as i64).contains(&self.count)
    }

    /// The first field, from 1, whose sum is too large before its value is added or behind that.
    fn first_too_large(&self, values: &[i64]) -> Option<usize> {
        let too_large = |(column, &m): (&Column, &i64)| {
            let sum = i128::from(column.sum);
            beyond(sum) || beyond(sum + i128::from(m))
        };
        self.columns.iter().zip(values).position(too_large).map(|at| at + 1)
    }

    /// The sheet with one record more. Whether that is the first goes by the count alone.
    fn with(&self, values: &[i64]) -> Sheet {
        let mut sheet = self.clone();
        for (column, &m) in sheet.columns.iter_mut().zip(values) {
            let before = *column;
            let sum = narrow(i128::from(before.sum) + i128::from(m));
            *column = match self.count {
                0 => Column { sum, least: m, greatest: m },
                _ => Column { sum, least: before.least.min(m), greatest: before.greatest.max(m) },
            };
        }
        sheet.count += 1;
        sheet
    }
}

fn beyond(sum: i128) -> bool {
    sum.abs() >= i128::from(Sheet::LIMIT)
}

fn narrow(sum: i128) -> i64 {
    i64::try_from(sum).expect("a sum below the limit")
}

/// The records that were accepted since the sheet was empty, by their values.
#[derive(Clone, Debug, Default)]
pub struct History {
    rows: Vec<Vec<i64>>,
}

impl History {
    pub fn full(&self) -> bool {
        self.rows.len() >= Sheet::MOST_RECORDS
    }

    /// Keeps a record, unless the sum of a field becomes too large by it: SIZE at the first such field.
    pub fn keep(&mut self, values: Vec<i64>) -> Result<(), Answer> {
        let too_large = |k: &usize| beyond(self.of_field(*k).sum::<i128>() + i128::from(values[*k]));
        if let Some(k) = (0..values.len()).find(too_large) {
            return Err(Answer::refused_at(Refusal::Size, k + 1));
        }
        self.rows.push(values);
        Ok(())
    }

    /// What the sheet holds now.
    pub fn sheet(&self) -> Sheet {
        let mut sheet = Sheet { count: self.rows.len() as i64, ..Sheet::default() };
        for k in 0..self.rows.first().map_or(0, Vec::len) {
            let (least, greatest) = (self.of_field(k).min().unwrap_or(0), self.of_field(k).max().unwrap_or(0));
            let sum = self.of_field(k).sum();
            sheet.columns[k] = Column { sum: narrow(sum), least: narrow(least), greatest: narrow(greatest) };
        }
        sheet
    }

    fn of_field(&self, k: usize) -> impl Iterator<Item = i128> + '_ {
        self.rows.iter().map(move |values| i128::from(values[k]))
    }
}

/// A batch that is gone through record by record, and how far it has been.
#[derive(Clone, Debug)]
pub struct Walker<'a> {
    batch: &'a [u8],
    record_length: usize,
    place: usize,
}

impl<'a> Walker<'a> {
    /// The walker at the start of a batch, or LENGTH for one that is too long or not of whole records.
    pub fn over(batch: &'a [u8], record_length: usize) -> Result<Walker<'a>, Refusal> {
        if batch.len() > MOST_BATCH || !batch.chunks_exact(record_length).remainder().is_empty() {
            return Err(Refusal::Length);
        }
        Ok(Walker { batch, record_length, place: 0 })
    }

    /// The walker that has gone on to a place, or LENGTH where it never comes there.
    pub fn at(mut self, place: u64) -> Result<Walker<'a>, Refusal> {
        while (self.place as u64) < place && self.next().is_some() {}
        if self.place as u64 == place {
            Ok(self)
        } else {
            Err(Refusal::Length)
        }
    }
}

impl<'a> Iterator for Walker<'a> {
    type Item = &'a [u8];

    fn next(&mut self) -> Option<&'a [u8]> {
        let record = self.batch[self.place..].get(..self.record_length)?;
        self.place += self.record_length;
        Some(record)
    }
}

/// Adds the record at a place of a batch to a sheet. At the end of the batch there is none, and the length is 0.
pub fn add(plan: &[u8], batch: &[u8], place: u64, sheet: Sheet) -> (Sheet, Answer) {
    match values_to_add(plan, batch, place, &sheet) {
        Ok(Some(values)) => (sheet.with(&values), Answer::success(values.len())),
        Ok(None) => (sheet, Answer::success(0)),
        Err(refused) => (sheet, refused),
    }
}

/// The values that the sheet takes, or None at the end of the batch.
fn values_to_add(plan: &[u8], batch: &[u8], place: u64, sheet: &Sheet) -> Result<Option<Vec<i64>>, Answer> {
    let pictures = pictures_of_plan(plan).ok_or(Answer::refused(Refusal::Plan))?;
    if sheet.full() {
        return Err(Answer::refused(Refusal::Full));
    }
    let walker = Walker::over(batch, record_length(&pictures)).and_then(|walker| walker.at(place));
    let Some(record) = walker.map_err(Answer::refused)?.next() else {
        return Ok(None);
    };
    let values = values_of(&pictures, record)?;
    match sheet.first_too_large(&values) {
        Some(field) => Err(Answer::refused_at(Refusal::Size, field)),
        None => Ok(Some(values)),
    }
}
