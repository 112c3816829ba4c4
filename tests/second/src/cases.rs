//! Cases and answers as lines of text, the form in which this program and a library exchange them.
//!
//! A case line is a call with its arguments, one blank between words, byte runs in lower-case hexadecimal and an empty
//! run as `-`: `check TEXT`, `edit TEXT M Q OUT`, `edit_cut TEXT M Q OUT`, `read TEXT FIELD ROW`, `compile LAYOUT PLAN`,
//! `plan_read PLAN RECORD ROW`, `plan_edit PLAN ROW RECORD`, `totals_add PLAN BATCH PLACE SHEET`. The last word (but for
//! `check`) is the content of the lent memory before the call. M, Q and PLACE are decimal; rows and sheets are raw bytes.
//! An answer line is `A MEM`: the packed answer in decimal and the content of the lent memory after the call, `-` if
//! that is empty and for `check`.

use crate::collector;
use crate::value_to_field::Mode;

#[derive(Clone, PartialEq, Eq, Debug)]
pub enum Case {
    Check { text: Vec<u8> },
    Edit { mode: Mode, text: Vec<u8>, m: i64, q: u64, out: Vec<u8> },
    Read { text: Vec<u8>, field: Vec<u8>, row: Vec<u8> },
    Compile { layout: Vec<u8>, plan: Vec<u8> },
    PlanRead { plan: Vec<u8>, record: Vec<u8>, row: Vec<u8> },
    PlanEdit { plan: Vec<u8>, row: Vec<u8>, record: Vec<u8> },
    TotalsAdd { plan: Vec<u8>, batch: Vec<u8>, place: u64, sheet: Vec<u8> },
}

impl Case {
    /// The case of a line, if the line has the form.
    pub fn parse(line: &str) -> Option<Case> {
        let words: Vec<&str> = line.split(' ').collect();
        match words[..] {
            ["check", text] => Some(Case::Check { text: unhex(text)? }),
            ["edit" | "edit_cut", text, m, q, out] => {
                let mode = Mode::BOTH.into_iter().find(|&mode| edit_call(mode) == words[0])?;
                let (m, q) = (m.parse().ok()?, q.parse().ok()?);
                Some(Case::Edit { mode, text: unhex(text)?, m, q, out: unhex(out)? })
            }
            ["read", text, field, row] => {
                Some(Case::Read { text: unhex(text)?, field: unhex(field)?, row: unhex(row)? })
            }
            ["compile", layout, plan] => Some(Case::Compile { layout: unhex(layout)?, plan: unhex(plan)? }),
            ["plan_read", plan, record, row] => {
                Some(Case::PlanRead { plan: unhex(plan)?, record: unhex(record)?, row: unhex(row)? })
            }
            ["plan_edit", plan, row, record] => {
                Some(Case::PlanEdit { plan: unhex(plan)?, row: unhex(row)?, record: unhex(record)? })
            }
            ["totals_add", plan, batch, place, sheet] => {
                let place = place.parse().ok()?;
                Some(Case::TotalsAdd { plan: unhex(plan)?, batch: unhex(batch)?, place, sheet: unhex(sheet)? })
            }
            _ => None,
        }
    }

    pub fn line(&self) -> String {
        match self {
            Case::Check { text } => format!("check {}", hex(text)),
            Case::Edit { mode, text, m, q, out } => {
                format!("{} {} {m} {q} {}", edit_call(*mode), hex(text), hex(out))
            }
            Case::Read { text, field, row } => {
                format!("read {} {} {}", hex(text), hex(field), hex(row))
            }
            Case::Compile { layout, plan } => format!("compile {} {}", hex(layout), hex(plan)),
            Case::PlanRead { plan, record, row } => {
                format!("plan_read {} {} {}", hex(plan), hex(record), hex(row))
            }
            Case::PlanEdit { plan, row, record } => {
                format!("plan_edit {} {} {}", hex(plan), hex(row), hex(record))
            }
            Case::TotalsAdd { plan, batch, place, sheet } => {
                format!("totals_add {} {} {place} {}", hex(plan), hex(batch), hex(sheet))
            }
        }
    }

    /// This program's own answer to the case.
    pub fn answer(&self) -> Reply {
        match self.clone() {
            Case::Check { text } => Reply { packed: collector::check(&text), memory: Vec::new() },
            Case::Edit { mode: Mode::Rounding, text, m, q, out } => {
                Reply::of(out, |out| collector::edit(&text, m, q, out))
            }
            Case::Edit { mode: Mode::Cut, text, m, q, out } => {
                Reply::of(out, |out| collector::edit_cut(&text, m, q, out))
            }
            Case::Read { text, field, row } => Reply::of(row, |row| collector::read(&text, &field, row)),
            Case::Compile { layout, plan } => Reply::of(plan, |plan| collector::compile(&layout, plan)),
            Case::PlanRead { plan, record, row } => Reply::of(row, |row| collector::plan_read(&plan, &record, row)),
            Case::PlanEdit { plan, row, record } => {
                Reply::of(record, |record| collector::plan_edit(&plan, &row, record))
            }
            Case::TotalsAdd { plan, batch, place, sheet } => {
                Reply::of(sheet, |sheet| collector::totals_add(&plan, &batch, place, sheet))
            }
        }
    }

    /// The lent memory before the call.
    pub fn lent(&self) -> &[u8] {
        match self {
            Case::Check { .. } => &[],
            Case::Edit { out, .. } => out,
            Case::Read { row, .. } | Case::PlanRead { row, .. } => row,
            Case::Compile { plan, .. } => plan,
            Case::PlanEdit { record, .. } => record,
            Case::TotalsAdd { sheet, .. } => sheet,
        }
    }
}

/// The name of the call that edits a value in this mode.
pub fn edit_call(mode: Mode) -> &'static str {
    match mode {
        Mode::Rounding => "edit",
        Mode::Cut => "edit_cut",
    }
}

/// The packed answer and the lent memory after the call.
#[derive(Clone, PartialEq, Eq, Debug)]
pub struct Reply {
    pub packed: u64,
    pub memory: Vec<u8>,
}

impl Reply {
    fn of(mut memory: Vec<u8>, call: impl FnOnce(&mut [u8]) -> u64) -> Reply {
        let packed = call(&mut memory);
        Reply { packed, memory }
    }

    pub fn parse(line: &str) -> Option<Reply> {
        let (packed, memory) = line.split_once(' ')?;
        Some(Reply { packed: packed.parse().ok()?, memory: unhex(memory)? })
    }

    pub fn line(&self) -> String {
        format!("{} {}", self.packed, hex(&self.memory))
    }

    pub fn number(&self) -> u64 {
        self.packed % 256
    }
}

pub fn hex(bytes: &[u8]) -> String {
    if bytes.is_empty() {
        return "-".to_string();
    }
    let digit = |nibble: u8| char::from(b"0123456789abcdef"[usize::from(nibble)]);
    bytes.iter().flat_map(|&byte| [digit(byte >> 4), digit(byte & 15)]).collect()
}

pub fn unhex(word: &str) -> Option<Vec<u8>> {
    if word == "-" {
        return Some(Vec::new());
    }
    if word.is_empty() || !word.len().is_multiple_of(2) {
        return None;
    }
    let nibble = |c: u8| b"0123456789abcdef".iter().position(|&d| d == c);
    let byte = |pair: &[u8]| Some((nibble(pair[0])? * 16 + nibble(pair[1])?) as u8);
    word.as_bytes().chunks(2).map(byte).collect()
}
