//! The COBOL programs: four for each size, each a loop over records in memory that moves each field to a number or back.
//!
//! The numbers are eight bytes of binary, as in the library's rows, or decimal characters, just as many as the picture has digits,
//! which GnuCOBOL moves faster.

use crate::layouts::{pictures, RECORDS};
use crate::pictures::{cobol, Picture};

/// The programs of one size: moves_N_read_binary, moves_N_read_display, and the same of edit.
pub fn programs(fields: usize) -> String {
    let pictures: Vec<Picture> = pictures(fields).map(cobol).collect();
    let mut all = String::new();
    for call in ["read", "edit"] {
        for numbers in ["binary", "display"] {
            all +=
                &program(&format!("moves_{fields}_{call}_{numbers}"), &pictures, call == "edit", numbers == "binary");
        }
    }
    all
}

/// One program, for the number of records, the numbers and the records.
fn program(name: &str, pictures: &[Picture], edit: bool, binary: bool) -> String {
    let (mut numbers, mut fields, mut moves) = (String::new(), String::new(), String::new());
    for (k, picture) in pictures.iter().enumerate() {
        numbers += &format!("10 m{k} pic {}.\n", number(picture, binary));
        fields += &format!("10 f{k} pic {}.\n", picture.text);
        let (from, to) = if edit { ("m", "f") } else { ("f", "m") };
        moves += &format!("move {from}{k}(r) to {to}{k}(r)\n");
    }
    format!(
        "\
identification division.
program-id. \"{name}\".
data division.
working-storage section.
01 r pic s9(9) comp-5.
linkage section.
01 n pic s9(9) comp-5.
01 all-rows.
05 a-row occurs {RECORDS}.
{numbers}01 all-records.
05 a-record occurs {RECORDS}.
{fields}procedure division using n all-rows all-records.
perform varying r from 1 by 1 until r > n
{moves}end-perform
goback.
end program \"{name}\".
"
    )
}

/// The picture of a number.
fn number(picture: &Picture, binary: bool) -> String {
    let (whole, part) = (if binary { 18 - picture.part } else { picture.whole }, picture.part);
    let behind = if part > 0 { format!("v9({part})") } else { String::new() };
    format!("s9({whole}){behind}{}", if binary { " comp-5" } else { "" })
}
