//! The fast Rust: compile, plan read and plan edit written by hand for speed, with nothing proved. The library's speed is compared
//! with it.
//!
//! It keeps the contract of the library's calls: every call judges the whole plan, refuses in the order of the rules and writes no
//! lent byte before all refusals are settled. `inner` alone is none of these calls: it reads and edits by a plan that was judged
//! beforehand, and so shows what judging costs.

pub mod calls;
mod compile;
mod edit;
mod field;
pub mod inner;
mod judge;
mod look;
mod picture;
mod plan;
mod read;
mod shape;

pub use compile::compile;
pub use edit::edit as plan_edit;
pub use read::read as plan_read;

/// The most fields of a layout, and the most characters of its record.
const FIELDS: usize = 32;
const RECORD: usize = 2048;

/// The most digits of a picture. A value has no more.
const MOST_DIGITS: u32 = 18;

// The numbers that come back.
const TEXT: u64 = 1;
const SYMBOL: u64 = 2;
const LONG: u64 = 3;
const SHAPE: u64 = 4;
const DIGITS: u64 = 5;
const VALUE: u64 = 6;
const ROOM: u64 = 7;
const SIZE: u64 = 8;
const LENGTH: u64 = 9;
const CONVERSION: u64 = 10;
const COUNT: u64 = 11;
const PLAN: u64 = 12;

#[inline(always)]
fn success(length: usize) -> u64 {
    (length as u64) << 16
}

#[inline(always)]
fn refusal(number: u64, field: usize) -> u64 {
    number | (field as u64) << 8
}
