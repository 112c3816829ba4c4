//! What is timed: the calls of each side on the data of one size.

use crate::cobol::{moves, Moves};
use crate::data::{Data, Dice, MOST_PLAN};
use crate::layouts::{RECORDS, SIZES};
use crate::sides::{Call, Calls, Side, CALLS, FAST, LIBRARY};
use fast::inner::Judged;
use std::hint::black_box;

/// The data and what is lent to the calls. A call finds there what the call before it left.
pub struct Work {
    pub data: Data,
    judged: Judged,
    moves: Option<Moves>,
    lent: Vec<u8>,
}

/// A call by a judged plan.
type ByJudged = fn(&Judged, &[u8], &mut [u8]) -> u64;

impl Work {
    /// The work of every size.
    pub fn all() -> [Work; 3] {
        let mut dice = Dice::new();
        SIZES.map(|fields| Work::new(Data::of_size(fields, &mut dice)))
    }

    /// The work of every size, if all sides agree on it.
    pub fn agreed() -> Result<[Work; 3], String> {
        let mut works = Work::all();
        works.iter_mut().try_for_each(Work::agree)?;
        Ok(works)
    }

    fn new(data: Data) -> Work {
        let judged = Judged::of(&data.plan).expect("a plan");
        let most = data.rows.len().max(data.records.len()).max(MOST_PLAN);
        Work { judged, moves: moves(data.fields), lent: vec![0; most], data }
    }

    /// Makes the call for the first records, one by one, and adds up the answers; COBOL gives none.
    pub fn pass(&mut self, side: Side, call: Call, records: usize) -> u64 {
        match side {
            Side::Library => self.by_calls(black_box(LIBRARY), call, records),
            Side::Fast => self.by_calls(black_box(FAST), call, records),
            Side::Inner => self.by_judged(call, records),
            Side::Binary | Side::Display => self.by_moves(side, call, records),
        }
    }

    fn by_calls(&mut self, calls: Calls, call: Call, records: usize) -> u64 {
        let Work { data, lent, .. } = self;
        let (row, record) = (data.row_length(), data.record_length());
        match call {
            Call::Compile => (0..records).map(|_| calls.compile(&data.layout, &mut lent[..MOST_PLAN])).sum(),
            Call::PlanRead => {
                let each = data.records.chunks_exact(record).zip(lent.chunks_exact_mut(row));
                each.take(records).map(|(record, row)| calls.plan_read(&data.plan, record, row)).sum()
            }
            Call::PlanEdit => {
                let each = data.rows.chunks_exact(row).zip(lent.chunks_exact_mut(record));
                each.take(records).map(|(row, record)| calls.plan_edit(&data.plan, row, record)).sum()
            }
        }
    }

    fn by_judged(&mut self, call: Call, records: usize) -> u64 {
        let Work { data, judged, lent, .. } = self;
        let (row, record) = (data.row_length(), data.record_length());
        let (run, from, from_length, length): (ByJudged, _, _, _) = match call {
            Call::PlanRead => (Judged::read, &data.records, record, row),
            _ => (Judged::edit, &data.rows, row, record),
        };
        let run = black_box(run);
        let each = from.chunks_exact(from_length).zip(lent.chunks_exact_mut(length));
        each.take(records).map(|(from, into)| run(judged, from, into)).sum()
    }

    fn by_moves(&mut self, side: Side, call: Call, records: usize) -> u64 {
        let Work { data, moves, lent, .. } = self;
        let moves = moves.expect("sides with COBOL");
        let lent = lent.as_mut_ptr();
        let (rows, displays, all) = (data.rows.as_ptr(), data.displays.as_ptr(), data.records.as_ptr());
        let (run, numbers, fields) = match (side, call) {
            (Side::Binary, Call::PlanRead) => (moves.read_binary, lent, all.cast_mut()),
            (_, Call::PlanRead) => (moves.read_display, lent, all.cast_mut()),
            (Side::Binary, _) => (moves.edit_binary, rows.cast_mut(), lent),
            _ => (moves.edit_display, displays.cast_mut(), lent),
        };
        let count = records as i32;
        // In bounds: both are as long as all records need, and a move writes only what it moves to, which is lent.
        unsafe { run(&count, numbers, fields) };
        0
    }

    /// Holds every side to what the second program answers and writes, on every record.
    fn agree(&mut self) -> Result<(), String> {
        for call in CALLS {
            for &side in call.sides() {
                self.lent.fill(0xa5);
                let answers = self.pass(side, call, RECORDS);
                if answers != self.answers(side, call) || !self.lent.starts_with(self.written(side, call)) {
                    return Err(format!("{side:?} differs: {} of {} fields", call.name(), self.data.fields));
                }
            }
        }
        Ok(())
    }

    /// What the call writes, over all records.
    fn written(&self, side: Side, call: Call) -> &[u8] {
        match call {
            Call::Compile => &self.data.plan,
            Call::PlanRead if side == Side::Display => &self.data.displays,
            Call::PlanRead => &self.data.rows,
            Call::PlanEdit => &self.data.records,
        }
    }

    /// What the calls answer, over all records: successes, with their lengths.
    fn answers(&self, side: Side, call: Call) -> u64 {
        let length = match (side, call) {
            (Side::Binary | Side::Display, _) => 0,
            (_, Call::Compile) => self.data.plan.len(),
            (_, Call::PlanRead) => self.data.fields,
            (_, Call::PlanEdit) => self.data.record_length(),
        };
        (RECORDS * length * 65_536) as u64
    }
}
