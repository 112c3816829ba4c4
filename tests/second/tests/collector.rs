//! The calls of the C collector: packed answers, rows as byte runs of any length, spare bytes left alone.

use second::collector::{bytes, check, compile, edit, edit_cut, numbers, plan_edit, plan_read, read};
use second::sheet_of_examples::{LAYOUT, PLAN};

const VALUE: u64 = 6;
const ROOM: u64 = 7;
const SIZE: u64 = 8;
const LENGTH: u64 = 9;

#[test]
fn packed_answers() {
    assert_eq!(compile(LAYOUT, &mut [0; 17]), 65_536 * 17);
    assert_eq!(compile(b"9;9Z;", &mut [0; 17]), 4 + 256 * 2);
    assert_eq!(plan_read(PLAN, b"   .00 8", &mut [0; 16]), 10 + 256);
    assert_eq!(plan_edit(PLAN, &bytes(&[0, 10]), &mut [0; 8]), 8 + 256 * 2);
}

#[test]
fn rows_are_little_endian_two_s_complement() {
    assert_eq!(bytes(&[258, -1]), [2, 1, 0, 0, 0, 0, 0, 0, 255, 255, 255, 255, 255, 255, 255, 255]);
    assert_eq!(numbers(&[254, 255, 255, 255, 255, 255, 255, 255, 9]), [-2]);
}

#[test]
fn rows_for_reading() {
    for length in 0..40 {
        let mut row = vec![0xee; length];
        let answer = plan_read(PLAN, b" 12.34-7", &mut row);
        if length < 16 {
            assert_eq!((answer, row), (ROOM, vec![0xee; length]));
        } else {
            assert_eq!(answer, 65_536 * 2);
            assert_eq!(row[..16], bytes(&[1_234, -7]));
            assert!(row[16..].iter().all(|&byte| byte == 0xee));
        }
    }
}

#[test]
fn rows_for_editing() {
    let row = [bytes(&[1_234, -7]), vec![0; 24]].concat();
    for length in 0..row.len() {
        let mut record = [b'#'; 10];
        let answer = plan_edit(PLAN, &row[..length], &mut record);
        if length == 16 {
            assert_eq!((answer, &record), (65_536 * 8, b" 12.34-7##"));
        } else {
            assert_eq!((answer, record), (LENGTH, [b'#'; 10]));
        }
        assert_eq!(plan_edit(&PLAN[1..], &row[..length], &mut record), 12);
    }
}

#[test]
fn editing_a_single_value() {
    let mut out = *b"####";
    assert_eq!((edit(b"99V9", 9_995, 2, &mut out), &out), (SIZE, b"####"));
    assert_eq!((edit_cut(b"99V9", 9_995, 2, &mut out[..2]), &out), (ROOM, b"####"));
    assert_eq!((edit_cut(b"99V9", 9_995, 2, &mut out), &out), (65_536 * 3, b"999#"));
    assert_eq!((edit(b"99V9", 9_985, 2, &mut out), &out), (65_536 * 3, b"999#"));
    assert_eq!((edit_cut(b"99V9", 9_985, 2, &mut out), &out), (65_536 * 3, b"998#"));
    assert_eq!((edit(b"99", -5, 1, &mut out), edit_cut(b"9Z", -5, 1, &mut out)), (SIZE, 4));
    assert_eq!((edit(b"-9", -5, 1, &mut out), &out), (65_536 * 2, b"-18#"));
}

#[test]
fn reading_a_single_field() {
    let mut row = [0xee; 9];
    assert_eq!(read(b"9Z", b"1", &mut []), 4);
    assert_eq!(read(b"-9", b"1", &mut []), LENGTH);
    assert_eq!(read(b"-9", b"xx", &mut row[..7]), ROOM);
    assert_eq!(read(b"-9", b"-0", &mut row), 10);
    assert_eq!(row, [0xee; 9]);
    assert_eq!(read(b"-9", b"-2", &mut row), 65_536);
    assert_eq!(row, [254, 255, 255, 255, 255, 255, 255, 255, 0xee]);
}

/// The largest M and the smallest, as a row.
const LARGEST: [i64; 2] = [999_999_999_999_999_999, -999_999_999_999_999_999];
const LARGEST_ROW: [u8; 16] =
    [0xff, 0xff, 0x63, 0xa7, 0xb3, 0xb6, 0xe0, 0x0d, 0x01, 0x00, 0x9c, 0x58, 0x4c, 0x49, 0x1f, 0xf2];

#[test]
fn the_largest_values_in_rows() {
    assert_eq!(bytes(&LARGEST), LARGEST_ROW);
    assert_eq!(numbers(&LARGEST_ROW), LARGEST);
    let (mut plan, mut record, mut row) = ([0; 48], [b'#'; 39], [0xee; 17]);
    assert_eq!(compile(b"(18)9;S(9)9V.(9)9;", &mut plan), 65_536 * 47);
    let fields = b"999999999999999999-999999999.999999999#";
    assert_eq!(plan_edit(&plan[..47], &LARGEST_ROW, &mut record), 65_536 * 38);
    assert_eq!(record, *fields);
    assert_eq!(plan_read(&plan[..47], &fields[..38], &mut row), 65_536 * 2);
    assert_eq!(row, *[&LARGEST_ROW[..], &[0xee]].concat());
    for (changed, field) in [([LARGEST[0] + 1, 0], 1), ([0, LARGEST[1] - 1], 2), ([i64::MAX, i64::MIN], 1)] {
        assert_eq!(plan_edit(&plan[..47], &bytes(&changed), &mut record), VALUE + 256 * field);
    }
    assert_eq!(record, *fields);
}

#[test]
fn the_largest_values_of_one_picture() {
    assert_eq!((check(b"(18)9"), check(b"(19)9"), check(b"(19)$"), check(b"(20)$")), (65_536 * 18, 5, 65_536 * 19, 5));
    let (mut out, mut row) = ([b'#'; 20], [0xee; 9]);
    assert_eq!(edit(b"S(18)9", LARGEST[1], 0, &mut out), 65_536 * 19);
    assert_eq!(&out, b"-999999999999999999#");
    assert_eq!(read(b"S(18)9", &out[..19], &mut row), 65_536);
    assert_eq!(row, *[&LARGEST_ROW[8..], &[0xee]].concat());
    for (m, q) in [(LARGEST[0] + 1, 0), (LARGEST[1] - 1, 18), (LARGEST[0], 19), (0, 19)] {
        assert_eq!((edit(b"S(18)9", m, q, &mut out), edit_cut(b"S(18)9", m, q, &mut out)), (VALUE, VALUE));
    }
    assert_eq!(&out, b"-999999999999999999#");
}
