//! Reading and editing by a plan that was judged beforehand. These are no calls of the library: they show what judging the plan at
//! each call costs.

use crate::edit::{self, edit_one, number_at, Room};
use crate::judge::{judge, Counts};
use crate::plan::{Field, Plan};
use crate::read::{self, Numbers, Walk};
use crate::{refusal, FIELDS, LENGTH, RECORD};
use std::mem::MaybeUninit;

/// A judged plan. It has the plan's bytes, so that its fields stay where they are.
pub struct Judged {
    fields: Vec<JudgedField>,
    total: usize,
    _bytes: Box<[u8]>,
}

struct JudgedField {
    at: usize,
    field: Field,
    counts: Counts,
}

impl Judged {
    /// None if the bytes are no plan.
    pub fn of(bytes: &[u8]) -> Option<Judged> {
        let bytes: Box<[u8]> = bytes.into();
        let plan = Plan::of(&bytes)?;
        let mut fields = Vec::new();
        let mut at = 0;
        for k in 0..plan.fields {
            // In bounds: k is below the fields, and each field ends at the total or before it.
            let field = unsafe { plan.field(k, at) }?;
            // In bounds: the field's roles are low and within the plan's.
            let (counts, good) = unsafe { judge(field) };
            if !good {
                return None;
            }
            fields.push(JudgedField { at, field, counts });
            at += field.n;
        }
        (at == plan.total).then_some(Judged { fields, total: plan.total, _bytes: bytes })
    }

    /// Reads a record. Refusals in order: LENGTH, ROOM, CONVERSION.
    pub fn read(&self, record: &[u8], row: &mut [u8]) -> u64 {
        if record.len() != self.total {
            return refusal(LENGTH, 0);
        }
        let mut numbers: Numbers = [MaybeUninit::uninit(); FIELDS];
        let mut refused = 0;
        for (k, JudgedField { at, field, .. }) in self.fields.iter().enumerate() {
            // In bounds: the record has the plan's length, and the field ends within it.
            let number = unsafe {
                let characters = record.as_ptr().add(*at);
                Walk::over::<false>(*field, characters).number(*field, characters)
            };
            match number {
                Some(m) => numbers[k] = MaybeUninit::new(m.to_le()),
                None => refused = if refused == 0 { k + 1 } else { refused },
            }
        }
        // In bounds: every field has put its number or is refused.
        unsafe { read::written(&numbers, self.fields.len(), refused, row) }
    }

    /// Edits a row. Refusals in order: LENGTH, the first VALUE or SIZE, ROOM.
    pub fn edit(&self, row: &[u8], record: &mut [u8]) -> u64 {
        if row.len() != 8 * self.fields.len() {
            return refusal(LENGTH, 0);
        }
        let mut room: Room = [MaybeUninit::uninit(); RECORD];
        let out = room.as_mut_ptr() as *mut u8;
        for (k, JudgedField { at, field, counts }) in self.fields.iter().enumerate() {
            // In bounds: the row has eight bytes a field, and all characters fit a room for the longest record.
            let refused = unsafe { edit_one(*field, counts, number_at(row, k), k, out.add(*at)) };
            if refused != 0 {
                return refused;
            }
        }
        // In bounds: every field has put its characters.
        unsafe { edit::write(&room, self.total, record) }
    }
}
