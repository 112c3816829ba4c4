//! What the totals program prints, whole, and its edges.

use second::sheet_of_examples::{LISTER_INPUT, TOTALS};
use second::{listing, totalling};

fn gives(input: &[u8], lines: &str) {
    let shown = String::from_utf8(totalling(input)).expect("totals are ASCII");
    assert_eq!(shown, lines, "input {:?}", String::from_utf8_lossy(&input[..input.len().min(80)]));
}

#[test]
fn the_totals_of_the_listing() {
    assert_eq!(totalling(LISTER_INPUT), TOTALS);
    assert_eq!(totalling(&LISTER_INPUT[..LISTER_INPUT.len() - 1]), TOTALS);
}

#[test]
fn without_records() {
    gives(b"9;", "0,0,0,1,1\n0\n1,0,0,0\n");
    gives(b"9;-9;\n", "0,0,0,2,3\n0\n1,0,0,0\n2,0,0,0\n");
    gives(b"9;-9;\n\n1\nx 1\n", "0,0,0,2,3\n1,9,0\n2,9,0\n3,10,1\n0\n1,0,0,0\n2,0,0,0\n");
}

#[test]
fn refused_layouts_and_long_inputs_as_in_the_listing() {
    let most = [&b"9;\n"[..], &b"5".repeat(65_533)].concat();
    gives(&most, "0,0,0,1,1\n1,9,0\n0\n1,0,0,0\n");
    let more = [&most[..], b"5"].concat();
    for input in [&b""[..], b"\n", b"9", b";\n", b"9;Z9Z;\n55\n", b"\n9;\n5\n", &more] {
        assert_eq!(totalling(input), listing(input));
    }
    gives(&more, "0,13,0\n");
    gives(b"9;Z9Z;\n55\n", "0,4,2\n");
}

#[test]
fn record_lines_are_counted_whether_refused_or_not() {
    gives(b"S9;\n+1\n\n-2\n-0\n+9", "0,0,0,1,2\n2,9,0\n4,10,1\n3\n1,8,-2,9\n");
    gives(b"9;9;\r\n", "0,11,0\n");
    gives(b"9;9;\n12\r\n34\n5\0\n", "0,0,0,2,2\n1,9,0\n3,10,2\n1\n1,3,3,3\n2,4,4,4\n");
}

#[test]
fn least_and_greatest_may_have_one_sign() {
    gives(b"-9;9;\n-35\n-17\n-26\n", "0,0,0,2,3\n3\n1,-6,-3,-1\n2,18,5,7\n");
}

/// Where a sum would be too large its record is named, and nothing behind is looked at.
#[test]
fn a_sum_at_the_limit() {
    let nines = "999999999999999999";
    let layout = "9;S(18)9;";
    gives(
        format!("{layout}\n1+{nines}\nx+{nines}\n2+000000000000000001\n3-{nines}\nx\n").as_bytes(),
        &format!("0,0,0,2,20\n2,10,1\n3,8,2\n1\n1,1,1,1\n2,{nines},{nines},{nines}\n"),
    );
    gives(
        format!("{layout}\n1-{nines}\n2+{nines}\n3-{nines}\n").as_bytes(),
        &format!("0,0,0,2,20\n3\n1,6,1,3\n2,-{nines},-{nines},{nines}\n"),
    );
    gives(
        format!("(18)9;(18)9;\n{nines}{nines}\n{nines}{nines}\n").as_bytes(),
        &format!("0,0,0,2,36\n2,8,1\n1\n1,{nines},{nines},{nines}\n2,{nines},{nines},{nines}\n"),
    );
    gives(
        format!("(18)9;9;\n{nines}1\n{nines}x\n{nines}\n{nines}2\n{nines}3\n").as_bytes(),
        &format!("0,0,0,2,19\n2,10,2\n3,9,0\n4,8,1\n1\n1,{nines},{nines},{nines}\n2,1,1,1\n"),
    );
}

/// The record line behind 9,000 records is named whatever it holds, and nothing behind is looked at.
#[test]
fn a_full_sheet() {
    let full = [&b"9;\nx\n"[..], &b"2\n".repeat(9_000)].concat();
    gives(&full, "0,0,0,1,1\n1,10,1\n9000\n1,18000,2,2\n");
    for last in [&b"3\n"[..], b"x", b"\n", b"33\n4\n\nx\n"] {
        gives(&[&full[..], last].concat(), "0,0,0,1,1\n1,10,1\n9002,14,0\n9000\n1,18000,2,2\n");
    }
}

#[test]
fn thirty_two_fields() {
    let layout = b"9;".repeat(32);
    let digits = b"12345678".repeat(4);
    let lines: String = (0..32).map(|k| format!("{0},{1},{1},{1}\n", k + 1, k % 8 + 1)).collect();
    gives(&[&layout[..], b"\n", &digits].concat(), &format!("0,0,0,32,32\n1\n{lines}"));
}
