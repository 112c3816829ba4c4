//! The sheet of examples, the plan examples, the lister's listing and its totals as data in the words of the rules, and the case and
//! answer lines made of them and of the manuals' examples. The answers come from this data and not from the calls of this program.

use crate::cases::{Case, Reply};
use crate::collector;
use crate::manual::{self, Example};
use crate::numbers_that_come_back::pack;
use crate::value_to_field::Mode;

/// Picture, M, q and the field, `_` for a blank; in either mode.
pub const EDITED: &[(&str, i64, u64, &str)] = &[
    ("ZZ9V.99", 1234, 2, "_12.34"),
    ("ZZ9V.99", 0, 0, "__0.00"),
    ("ZZZV.ZZ", 0, 0, "______"),
    ("ZZZV.ZZ", 1, 2, "___.01"),
    ("ZZZ.VZZ", 1, 2, "____01"),
    ("$$,$$9", 123, 0, "__$123"),
    ("$$,$$9", 1234, 0, "$1,234"),
    ("$$,$$9", 0, 0, "____$0"),
    ("***9CR", -5, 0, "***5CR"),
    ("***9CR", 5, 0, "***5__"),
    ("---9", -7, 0, "__-7"),
    ("+++9", -7, 0, "___7"),
    ("S999", -1, 1, "+000"),
    ("99", 99, 0, "99"),
    ("**B**", 5, 0, "**_*5"),
    ("99T", 123, 0, "12C"),
    ("99T", -123, 0, "12L"),
    ("99I", 123, 0, "12C"),
    ("99I", -123, 0, "123"),
    ("99R", 123, 0, "123"),
    ("99R", -123, 0, "12L"),
    ("9T", -1, 0, "0J"),
    ("9I", -1, 0, "01"),
    ("9R", -1, 0, "0J"),
    ("ZZT", 0, 0, "__{"),
    ("**B**", 0, 0, "**_**"),
    ("**DB", 0, 0, "****"),
    ("$$B$$9", 123, 0, "_$_123"),
    ("S(18)9", 999_999_999_999_999_999, 0, "+999999999999999999"),
    ("S(18)9", -999_999_999_999_999_999, 0, "-999999999999999999"),
    ("-V(18)9", -999_999_999_999_999_999, 18, "-999999999999999999"),
    ("9V(17)9", 9, 0, "900000000000000000"),
];

/// A field, or the number of the refusal.
pub type Outcome = Result<&'static str, u64>;

/// Picture, M, q, and what comes of a value with more places than the picture: by rounding and by the cut.
pub const FRACTIONS: &[(&str, i64, u64, Outcome, Outcome)] = &[
    ("(3)9V9", 12345, 2, Ok("1235"), Ok("1234")),
    ("99", -9, 1, Err(8), Ok("00")),
    ("S999", -5, 1, Ok("-001"), Ok("+000")),
    ("99V9", 9995, 2, Err(8), Ok("999")),
    ("99V9", 9994, 2, Ok("999"), Ok("999")),
    ("99V9", 99949, 3, Ok("999"), Ok("999")),
    ("9", 4, 1, Ok("0"), Ok("0")),
    ("9", 5, 1, Ok("1"), Ok("0")),
    ("9", 6, 1, Ok("1"), Ok("0")),
    ("9", 49, 2, Ok("0"), Ok("0")),
    ("9", 50, 2, Ok("1"), Ok("0")),
    ("9", 51, 2, Ok("1"), Ok("0")),
    ("9", 25, 1, Ok("3"), Ok("2")),
    ("9V9", 1449, 3, Ok("14"), Ok("14")),
    ("9V9", 1450, 3, Ok("15"), Ok("14")),
    ("9V9", 1451, 3, Ok("15"), Ok("14")),
    ("99", -4, 1, Ok("00"), Ok("00")),
    ("99", -5, 1, Err(8), Ok("00")),
    ("-9", -4, 1, Ok("_0"), Ok("_0")),
    ("-9", -5, 1, Ok("-1"), Ok("_0")),
    ("-9", -25, 1, Ok("-3"), Ok("-2")),
    ("99", 994, 1, Ok("99"), Ok("99")),
    ("99", 995, 1, Err(8), Ok("99")),
    ("99", 999, 1, Err(8), Ok("99")),
    ("S99", -995, 1, Err(8), Ok("-99")),
    ("999", 1995, 1, Ok("200"), Ok("199")),
    ("999V99", 99999, 3, Ok("10000"), Ok("09999")),
    ("$$,$$9", 9995, 1, Ok("$1,000"), Ok("__$999")),
    ("---9", -995, 1, Ok("-100"), Ok("_-99")),
    ("ZZZV.ZZ", 4, 3, Ok("______"), Ok("______")),
    ("ZZZV.ZZ", 5, 3, Ok("___.01"), Ok("______")),
    ("ZZZV.ZZ", 995, 3, Ok("__1.00"), Ok("___.99")),
    ("**CR", -4, 1, Ok("****"), Ok("****")),
    ("**CR", -5, 1, Ok("*1CR"), Ok("****")),
    ("**B**", 995, 1, Ok("*1_00"), Ok("**_99")),
    ("99T", -1235, 1, Ok("12M"), Ok("12L")),
    ("T", -4, 1, Ok("{"), Ok("{")),
    ("T", -5, 1, Ok("J"), Ok("{")),
    ("9", 499_999_999_999_999_999, 18, Ok("0"), Ok("0")),
    ("9", 500_000_000_000_000_000, 18, Ok("1"), Ok("0")),
    ("-9", -499_999_999_999_999_999, 18, Ok("_0"), Ok("_0")),
    ("-9", -500_000_000_000_000_000, 18, Ok("-1"), Ok("_0")),
    ("9", -999_999_999_999_999_999, 18, Err(8), Ok("0")),
    ("9V(17)9", 999_999_999_999_999_994, 18, Ok("099999999999999999"), Ok("099999999999999999")),
    ("9V(17)9", 999_999_999_999_999_995, 18, Ok("100000000000000000"), Ok("099999999999999999")),
    ("V(17)9", 999_999_999_999_999_995, 18, Err(8), Ok("99999999999999999")),
    ("S(17)9", -999_999_999_999_999_994, 1, Ok("-99999999999999999"), Ok("-99999999999999999")),
    ("S(17)9", -999_999_999_999_999_995, 1, Err(8), Ok("-99999999999999999")),
    ("S(18)9", -999_999_999_999_999_995, 1, Ok("-100000000000000000"), Ok("-099999999999999999")),
    ("9", 0, 18, Ok("0"), Ok("0")),
];

/// Picture, M, q and the number of the refusal, in either mode.
pub const EDITING_REFUSED: &[(&str, i64, u64, u64)] = &[
    ("99", 100, 0, 8),
    ("99", -1, 0, 8),
    ("S(18)9", 1_000_000_000_000_000_000, 0, 6),
    ("S(18)9", -1_000_000_000_000_000_000, 0, 6),
    ("9", 0, 19, 6),
    ("9V(17)9", 10, 0, 8),
    ("9V(17)9", 999_999_999_999_999_999, 0, 8),
    ("99", -15, 1, 8),
    ("99", 1000, 1, 8),
];

/// Picture, field and value.
pub const READ: &[(&str, &str, i64)] = &[
    ("ZZ9", "__7", 7),
    ("ZZZ", "___", 0),
    ("I", "{", 0),
    ("9T", "1}", -10),
    ("**B**", "**_*5", 5),
    ("**B**", "**_**", 0),
    ("$$B$$9", "_$_123", 123),
    ("S(18)9", "+999999999999999999", 999_999_999_999_999_999),
    ("S(18)9", "-999999999999999999", -999_999_999_999_999_999),
];

/// Picture, field and the number of the refusal.
pub const READING_REFUSED: &[(&str, &str, u64)] = &[
    ("ZZ9", "___", 10),
    ("ZZ9", "007", 10),
    ("I", "0", 10),
    ("T", "}", 10),
    ("9T", "0}", 10),
    ("**B**", "****5", 10),
    ("**B**", "*****", 10),
    ("$$B$$9", "__$123", 10),
];

/// Picture, number and length; an accepted picture's length is its n.
pub const CHECKED: &[(&str, u64, u64)] = &[
    ("(64)9", 5, 0),
    ("(64)9V", 3, 0),
    ("(18)9", 0, 18),
    ("(19)9", 5, 0),
    ("(19)$", 0, 19),
    ("(20)$", 5, 0),
    ("9Z", 4, 0),
    ("CR", 5, 0),
    ("(0)9", 2, 0),
    ("9R", 0, 2),
    ("9CR", 0, 3),
    ("RCR", 4, 0),
    ("CRR", 2, 0),
    ("(1)T", 0, 1),
    ("(1)R", 2, 0),
    ("(2)I", 4, 0),
    ("TT", 4, 0),
    ("TR", 4, 0),
    ("S9T", 4, 0),
    ("TZ", 4, 0),
    ("ZVZT", 4, 0),
];

pub const LAYOUT: &[u8] = b"ZZ9V.99;-9;";
pub const PLAN: &[u8] = &[2, 6, 3, 1, 2, 2, 0, 0, 8, 1, 1, 0, 8, 0, 0, 5, 0];

/// A layout with the symbol R, its plan, and bytes that have that R in a mark and are no plan.
pub const PUNCHED_LAYOUT: &[u8] = b"9R;";
pub const PUNCHED_PLAN: &[u8] = &[1, 2, 2, 0, 0, 2, 0, 17];
pub const NO_PLAN: &[u8] = &[1, 3, 3, 0, 0, 3, 0, 11, 17];

/// The records of the listing with their values.
pub const RECORDS: &[(&[u8], &[i64])] = &[(b" 12.34-7", &[1234, -7]), (b"  7.00 8", &[700, 8])];
/// The record of the listing that is refused at its first field.
pub const REFUSED_RECORD: &[u8] = b"   .00 8";

pub const LISTER_INPUT: &[u8] = b"ZZ9V.99;-9;\n 12.34-7\n  7.00 8\n   .00 8\n";
pub const LISTING: &[u8] = b"0,0,0,2,8\n1,0,0,1234,-7\n2,0,0,700,8\n3,10,1\n";

/// What the totals program prints for the lister's input.
pub const TOTALS: &[u8] = b"0,0,0,2,8\n3,10,1\n2\n1,1934,700,1234\n2,1,-7,8\n";

/// The records of the listing end to end.
pub const BATCH: &[u8] = b" 12.34-7  7.00 8   .00 8";

/// The count of a totals sheet, and of each field of that layout the sum, the least and the greatest.
pub type Totals = (i64, [[i64; 3]; 2]);

/// The largest sum, and with a minus the smallest.
const LARGEST: i64 = 999_999_999_999_999_999;

const NO_TOTALS: Totals = (0, [[0; 3]; 2]);
const TOTALS_OF_ONE: Totals = (1, [[1_234, 1_234, 1_234], [-7, -7, -7]]);
const TOTALS_OF_TWO: Totals = (2, [[1_934, 700, 1_234], [1, -7, 8]]);

/// Place in the batch, the sheet, how many fields are read, and the sheet behind that.
pub const ADDED: &[(u64, Totals, usize, Totals)] = &[
    (0, NO_TOTALS, 2, TOTALS_OF_ONE),
    (8, TOTALS_OF_ONE, 2, TOTALS_OF_TWO),
    (24, TOTALS_OF_TWO, 0, TOTALS_OF_TWO),
    (0, (0, [[100, 9, 9], [-100, 9, 9]]), 2, (1, [[1_334, 1_234, 1_234], [-107, -7, -7]])),
    (8, (8_999, [[0, 900, -900], [0, -900, 900]]), 2, (9_000, [[700, 700, 700], [8, -900, 900]])),
    (0, (1, [[LARGEST - 1_234, 0, 0], [0; 3]]), 2, (2, [[LARGEST, 0, 1_234], [-7, -7, 0]])),
    (0, (1, [[0; 3], [7 - LARGEST, 0, 0]]), 2, (2, [[1_234, 0, 1_234], [-LARGEST, -7, 0]])),
    (24, (1, [[i64::MIN, 0, 0], [i64::MAX, 0, 0]]), 0, (1, [[i64::MIN, 0, 0], [i64::MAX, 0, 0]])),
];

/// Place in the batch, the sheet, and the number and field of the refusal.
pub const ADDING_REFUSED: &[(u64, Totals, u64, u64)] = &[
    (16, TOTALS_OF_TWO, 10, 1),
    (7, NO_TOTALS, 9, 0),
    (32, NO_TOTALS, 9, 0),
    (u64::MAX, NO_TOTALS, 9, 0),
    (0, (9_000, [[0; 3]; 2]), 14, 0),
    (7, (9_000, [[0; 3]; 2]), 14, 0),
    (24, (9_000, [[0; 3]; 2]), 14, 0),
    (0, (-1, [[0; 3]; 2]), 14, 0),
    (0, (1, [[LARGEST - 1_233, 0, 0], [0; 3]]), 8, 1),
    (0, (1, [[0; 3], [6 - LARGEST, 0, 0]]), 8, 2),
    (0, (1, [[0; 3], [LARGEST + 1, 0, 0]]), 8, 2),
    (0, (1, [[i64::MIN, 0, 0], [i64::MAX, 0, 0]]), 8, 1),
    (16, (1, [[LARGEST + 1, 0, 0], [0; 3]]), 10, 1),
];

/// The content of lent memory before a call.
const GUARD: u8 = 0xa5;
/// The lent bytes beyond those needed.
const SPARE: usize = 3;

/// A case and the answer that the rules or a manual gives to it.
pub type Stated = (Case, Reply);

/// The sheet, the plan examples, the records of the listing and the manuals' examples.
pub fn stated() -> Vec<Stated> {
    let mut all = sheet();
    all.extend(plan_example());
    all.extend(punched_plan());
    all.extend(manual::examples().into_iter().flat_map(|(picture, example)| of_manual(picture, example)));
    all
}

/// The additions to totals sheets. They stand apart, since a program without totals is held to the others alone.
pub fn totals() -> Vec<Stated> {
    let mut all = Vec::new();
    for &(place, before, fields, after) in ADDED {
        all.push(stated_case(adding(BATCH, place, before), fields, &sheet_bytes(after)));
    }
    for &(place, before, number, field) in ADDING_REFUSED {
        all.push(refused_case(adding(BATCH, place, before), number, field));
    }
    all.extend(batches());
    all.extend(short_runs());
    all
}

/// The runs of full sheets that lack their last byte, by a plan and by bytes that are none, at a place that is none either.
fn short_runs() -> Vec<Stated> {
    let sheet = sheet_bytes((9_000, [[0; 3]; 2]))[..775].to_vec();
    let add = |plan: &[u8], sheet| Case::TotalsAdd { plan: plan.to_vec(), batch: BATCH.to_vec(), place: 7, sheet };
    vec![refused_case(add(PLAN, sheet.clone()), 7, 0), refused_case(add(NO_PLAN, sheet), 12, 0)]
}

/// Batches of as many bytes as may be and of none, of a record too many, and of a byte too many.
fn batches() -> Vec<Stated> {
    let long = RECORDS[1].0.repeat(8_193);
    let after = sheet_bytes((1, [[700, 700, 700], [8, 8, 8]]));
    vec![
        stated_case(adding(&long[..65_536], 65_528, NO_TOTALS), 2, &after),
        stated_case(adding(&long[..65_536], 65_536, NO_TOTALS), 0, &[]),
        stated_case(adding(&[], 0, NO_TOTALS), 0, &[]),
        refused_case(adding(&long, 0, NO_TOTALS), 9, 0),
        refused_case(adding(&long[..9], 0, NO_TOTALS), 9, 0),
    ]
}

fn adding(batch: &[u8], place: u64, totals: Totals) -> Case {
    let sheet = [sheet_bytes(totals), vec![GUARD; SPARE]].concat();
    Case::TotalsAdd { plan: PLAN.to_vec(), batch: batch.to_vec(), place, sheet }
}

/// A totals sheet of 32 places, zero behind those of the two fields.
fn sheet_bytes((count, fields): Totals) -> Vec<u8> {
    let places = |which: usize| fields.iter().map(move |field| field[which]).chain([0; 30]);
    let numbers: Vec<i64> = [count].into_iter().chain((0..3).flat_map(places)).collect();
    collector::bytes(&numbers)
}

fn sheet() -> Vec<Stated> {
    let mut all = Vec::new();
    for mode in Mode::BOTH {
        all.extend(EDITED.iter().map(|&(text, m, q, field)| edited(mode, text, m, q, Ok(&blanks(field)))));
        all.extend(EDITING_REFUSED.iter().map(|&(text, m, q, number)| edited(mode, text, m, q, Err(number))));
    }
    for &(text, m, q, rounded, cut) in FRACTIONS {
        for (mode, outcome) in [(Mode::Rounding, rounded), (Mode::Cut, cut)] {
            all.push(edited(mode, text, m, q, outcome.map(blanks).as_deref().map_err(|&number| number)));
        }
    }
    all.extend(READ.iter().map(|&(text, field, value)| read(text, &blanks(field), value)));
    all.extend(READING_REFUSED.iter().map(|&(text, field, number)| read_refused(text, &blanks(field), number)));
    all.extend(CHECKED.iter().map(|&(text, number, length)| checked(text, number, length)));
    all
}

fn plan_example() -> Vec<Stated> {
    let lent = vec![GUARD; PLAN.len() + SPARE];
    let mut all = vec![stated_case(Case::Compile { layout: LAYOUT.to_vec(), plan: lent }, 17, PLAN)];
    for &(record, values) in RECORDS {
        let row = vec![GUARD; 8 * values.len() + SPARE];
        let numbers = collector::bytes(values);
        let reading = Case::PlanRead { plan: PLAN.to_vec(), record: record.to_vec(), row };
        all.push(stated_case(reading, 2, &numbers));
        let lent = vec![GUARD; record.len() + SPARE];
        all.push(stated_case(Case::PlanEdit { plan: PLAN.to_vec(), row: numbers, record: lent }, 8, record));
    }
    let row = vec![GUARD; 16];
    let refused = Case::PlanRead { plan: PLAN.to_vec(), record: REFUSED_RECORD.to_vec(), row };
    all.push(refused_case(refused, 10, 1));
    all
}

fn punched_plan() -> Vec<Stated> {
    let lent = vec![GUARD; PUNCHED_PLAN.len() + SPARE];
    let compiling = Case::Compile { layout: PUNCHED_LAYOUT.to_vec(), plan: lent };
    let refused = Case::PlanRead { plan: NO_PLAN.to_vec(), record: b"7CR".to_vec(), row: vec![GUARD; 8] };
    vec![stated_case(compiling, 8, PUNCHED_PLAN), refused_case(refused, 12, 0)]
}

fn of_manual(picture: &str, example: Example) -> Vec<Stated> {
    match example {
        Example::Accept { n, .. } => vec![checked(picture, 0, n as u64)],
        Example::Edit { modes, m, q, field } => {
            modes.iter().map(|&mode| edited(mode, picture, m, q, field.as_deref().ok_or(8))).collect()
        }
        Example::Read { field, value: Some((m, _)) } => vec![read(picture, &field, m)],
        Example::Read { field, value: None } => vec![read_refused(picture, &field, 10)],
    }
}

fn checked(text: &str, number: u64, length: u64) -> Stated {
    (Case::Check { text: text.into() }, Reply { packed: pack(number, 0, length), memory: Vec::new() })
}

/// A value that has a field, or the number of its refusal.
fn edited(mode: Mode, text: &str, m: i64, q: u64, field: Result<&[u8], u64>) -> Stated {
    let lent = field.map_or(64, |field| field.len() + SPARE);
    let case = Case::Edit { mode, text: text.into(), m, q, out: vec![GUARD; lent] };
    match field {
        Ok(field) => stated_case(case, field.len(), field),
        Err(number) => refused_case(case, number, 0),
    }
}

fn read(text: &str, field: &[u8], value: i64) -> Stated {
    let row = vec![GUARD; 8 + SPARE];
    stated_case(Case::Read { text: text.into(), field: field.to_vec(), row }, 1, &value.to_le_bytes())
}

fn read_refused(text: &str, field: &[u8], number: u64) -> Stated {
    refused_case(Case::Read { text: text.into(), field: field.to_vec(), row: vec![GUARD; 8] }, number, 0)
}

/// Success: the bytes written come first, the lent bytes behind them stay.
fn stated_case(case: Case, length: usize, written: &[u8]) -> Stated {
    let mut memory = case.lent().to_vec();
    memory[..written.len()].copy_from_slice(written);
    (case, Reply { packed: pack(0, 0, length as u64), memory })
}

/// A refusal: the lent bytes stay.
fn refused_case(case: Case, number: u64, field: u64) -> Stated {
    let memory = case.lent().to_vec();
    (case, Reply { packed: pack(number, field, 0), memory })
}

/// A field with its blanks.
pub fn blanks(field: &str) -> Vec<u8> {
    field.replace('_', " ").into_bytes()
}
