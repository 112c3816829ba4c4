//! Numbers that come back: the refusals by their numbers, and the answer that every call gives.
//! They stand here once so that no other module writes a bare number.

/// The reasons for refusing; the discriminant is the number that comes back.
#[derive(Clone, Copy, PartialEq, Eq, Debug)]
pub enum Refusal {
    Text = 1,
    Symbol = 2,
    Long = 3,
    Shape = 4,
    Digits = 5,
    Value = 6,
    Room = 7,
    Size = 8,
    Length = 9,
    Conversion = 10,
    Count = 11,
    Plan = 12,
    Input = 13,
    Full = 14,
}

impl Refusal {
    pub fn number(self) -> u64 {
        self as u64
    }
}

/// What a call gives back besides the content of lent memory.
#[derive(Clone, Copy, PartialEq, Eq, Debug)]
pub struct Answer {
    pub number: u64,
    pub field: u64,
    pub length: u64,
    pub value: i64,
}

impl Answer {
    pub fn success(length: usize) -> Answer {
        Answer { number: 0, field: 0, length: length as u64, value: 0 }
    }

    /// A single field was read.
    pub fn value(value: i64) -> Answer {
        Answer { number: 0, field: 0, length: 1, value }
    }

    pub fn refused(why: Refusal) -> Answer {
        Answer::refused_at(why, 0)
    }

    /// A refusal that names the 1-based field it was found in.
    pub fn refused_at(why: Refusal, field: usize) -> Answer {
        Answer { number: why.number(), field: field as u64, length: 0, value: 0 }
    }

    /// The one 64-bit number that the C collector gets.
    pub fn packed(self) -> u64 {
        pack(self.number, self.field, self.length)
    }
}

pub fn pack(number: u64, field: u64, length: u64) -> u64 {
    number + 256 * field + 65_536 * length
}
