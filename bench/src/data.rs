//! The data of one size: a layout with its plan, and records with their rows, the same for all sides.

use crate::layouts::{pictures, RECORDS};
use second::collector;
use second::layouts_and_plans::pictures_of_layout;
use second::rules_of_shape::Picture;

/// What is lent for compiling: enough for any plan.
pub const MOST_PLAN: usize = 1 + 3 * 32 + 2 + 2048;

pub struct Data {
    pub fields: usize,
    pub layout: Vec<u8>,
    pub plan: Vec<u8>,
    /// All rows, eight bytes a number.
    pub rows: Vec<u8>,
    /// All rows once more as COBOL's numbers in decimal characters.
    pub displays: Vec<u8>,
    /// All records.
    pub records: Vec<u8>,
}

impl Data {
    /// The data of the size, by the next numbers of the dice. All bytes come from the second program.
    pub fn of_size(fields: usize, dice: &mut Dice) -> Data {
        let layout: Vec<u8> = pictures(fields).flat_map(|picture| [picture, ";"]).flat_map(str::bytes).collect();
        let pictures = pictures_of_layout(&layout).expect("an accepted layout");
        let plan = made(|room| collector::compile(&layout, room));
        let (mut rows, mut displays, mut records) = (Vec::new(), Vec::new(), Vec::new());
        for _ in 0..RECORDS {
            let numbers: Vec<i64> = pictures.iter().map(|picture| number(picture, dice)).collect();
            let row = collector::bytes(&numbers);
            records.extend(made(|room| collector::plan_edit(&plan, &row, room)));
            rows.extend(row);
            displays.extend(pictures.iter().zip(&numbers).flat_map(|(picture, &m)| display(picture, m)));
        }
        Data { fields, layout, plan, rows, displays, records }
    }

    pub fn row_length(&self) -> usize {
        8 * self.fields
    }

    pub fn record_length(&self) -> usize {
        self.records.len() / RECORDS
    }
}

/// A number that fits: magnitudes spread over all lengths, one in sixteen 0, half of the signed negative.
fn number(picture: &Picture, dice: &mut Dice) -> i64 {
    let digits = 1 + dice.below(picture.digits.len() as u64);
    let mut m = dice.below(10u64.pow(digits as u32)) as i64;
    if dice.below(16) == 0 {
        m = 0;
    }
    if picture.signed() && dice.below(2) == 1 {
        -m
    } else {
        m
    }
}

/// A number of COBOL's in as many decimal characters as the picture has digits; the last tells the sign.
fn display(picture: &Picture, m: i64) -> Vec<u8> {
    let mut characters = format!("{:0digits$}", m.abs(), digits = picture.digits.len()).into_bytes();
    if let (true, Some(last)) = (m < 0, characters.last_mut()) {
        *last += b'p' - b'0';
    }
    characters
}

/// The bytes that a successful call of the second program writes, whose length it answers.
fn made(call: impl Fn(&mut [u8]) -> u64) -> Vec<u8> {
    let mut room = vec![0; MOST_PLAN];
    let answer = call(&mut room);
    assert_eq!(answer % 65_536, 0, "the second program refuses the data");
    room.truncate((answer / 65_536) as usize);
    room
}

/// A random number generator (xorshift64*), begun alike in every run.
pub struct Dice(u64);

impl Dice {
    pub fn new() -> Dice {
        Dice(0x9e37_79b9_7f4a_7c15)
    }

    fn below(&mut self, bound: u64) -> u64 {
        self.0 ^= self.0 << 13;
        self.0 ^= self.0 >> 7;
        self.0 ^= self.0 << 17;
        (self.0.wrapping_mul(0x2545_f491_4f6c_dd1d) >> 11) % bound
    }
}
