//! The lister's listing, whole, and its edges.

use second::listing;
use second::sheet_of_examples::{LISTER_INPUT, LISTING};

fn gives(input: &[u8], lines: &str) {
    let shown = String::from_utf8(listing(input)).expect("listings are ASCII");
    assert_eq!(shown, lines, "input {:?}", String::from_utf8_lossy(&input[..input.len().min(80)]));
}

#[test]
fn the_listing_of_the_rules() {
    assert_eq!(listing(LISTER_INPUT), LISTING);
    let without_last_lf = &LISTER_INPUT[..LISTER_INPUT.len() - 1];
    assert_eq!(listing(without_last_lf), LISTING);
}

#[test]
fn empty_input_and_empty_lines() {
    gives(b"", "0,11,0\n");
    gives(b"\n", "0,11,0\n");
    gives(b"\n9;\n5\n", "0,11,0\n");
    gives(b"9;\n\n5\n\n", "0,0,0,1,1\n1,9,0\n2,0,0,5\n3,9,0\n");
    gives(b"9;\n5\n\n6", "0,0,0,1,1\n1,0,0,5\n2,9,0\n3,0,0,6\n");
}

#[test]
fn layout_only() {
    gives(b"9;", "0,0,0,1,1\n");
    gives(b"9;\n", "0,0,0,1,1\n");
    gives(b"9", "0,11,0\n");
    gives(b"9;Z9Z;\n55\n", "0,4,2\n");
    gives(b";\n", "0,1,1\n");
}

#[test]
fn other_bytes_than_lf_are_ordinary() {
    gives(b"9;\r\n5\r\n", "0,11,0\n");
    gives(b"9;\n5\r\n5\n", "0,0,0,1,1\n1,9,0\n2,0,0,5\n");
    gives(b"9;\n\0\n5\n", "0,0,0,1,1\n1,10,1\n2,0,0,5\n");
    gives(b"9\0;\n5\n", "0,2,1\n");
    gives(b"9; \n5\n", "0,11,0\n");
    gives(b" 9;\n5\n", "0,2,1\n");
    gives(b"9;\n5 \n 5\n \n", "0,0,0,1,1\n1,9,0\n2,9,0\n3,10,1\n");
}

#[test]
fn the_limit_of_the_input() {
    let mut input = b"9;\n".to_vec();
    input.extend(b"5".repeat(65_536 - input.len()));
    gives(&input, "0,0,0,1,1\n1,9,0\n");
    input.push(b'5');
    gives(&input, "0,13,0\n");
    let lines = [&b"99;\n1"[..], &b"\n".repeat(65_531)].concat();
    assert_eq!(lines.len(), 65_536);
    let shown = listing(&lines);
    assert!(shown.starts_with(b"0,0,0,1,2\n1,9,0\n2,9,0\n"));
    assert!(shown.ends_with(b"\n65531,9,0\n"));
    gives(&[&lines[..], b"\n"].concat(), "0,13,0\n");
    gives(&b"\n".repeat(65_537), "0,13,0\n");
}

#[test]
fn thirty_two_fields_and_the_longest_record() {
    let layout = b"9;".repeat(32);
    let digits = b"12345678".repeat(4);
    let values: String = digits.iter().map(|&d| format!(",{}", char::from(d))).collect();
    gives(&[&layout[..], b"\n", &digits].concat(), &format!("0,0,0,32,32\n1,0,0{values}\n"));
    gives(&[&layout[..], b"9;\n", &digits].concat(), "0,11,0\n");

    let layout = b"S(45)/(18)9;".repeat(32);
    let field = [b"-", &b"/".repeat(45)[..], b"999999999999999999"].concat();
    let record = field.repeat(32);
    assert_eq!(record.len(), 2_048);
    let values = ",-999999999999999999".repeat(32);
    gives(&[&layout[..], b"\n", &record].concat(), &format!("0,0,0,32,2048\n1,0,0{values}\n"));
    gives(&[&layout[..], b"\n", &record, b"9\n"].concat(), "0,0,0,32,2048\n1,9,0\n");
    gives(&[&layout[..], b"\n", &record[1..], b"\n"].concat(), "0,0,0,32,2048\n1,9,0\n");
}

#[test]
fn the_limit_of_digits() {
    gives(b"(18)9;(19)9;\n", "0,5,2\n");
    gives(b"(20)$;\n", "0,5,1\n");
    gives(
        b"(19)-;\n-999999999999999999\n 999999999999999999\n                   \n-0\n",
        "0,0,0,1,19\n1,0,0,-999999999999999999\n2,0,0,999999999999999999\n3,0,0,0\n4,9,0\n",
    );
    gives(
        b"(17)9T;(16)9;\n99999999999999999R1000000000000000\n99999999999999999I9999999999999999\n",
        "0,0,0,2,34\n1,0,0,-999999999999999999,1000000000000000\n2,0,0,999999999999999999,9999999999999999\n",
    );
}

#[test]
fn long_lines_are_never_cut() {
    let long = b"7".repeat(5_000);
    gives(&[b"9;\n", &long[..], b"\n7\n"].concat(), "0,0,0,1,1\n1,9,0\n2,0,0,7\n");
    let layout = b"9;".repeat(2_100);
    gives(&[&layout[..], b"\n7\n"].concat(), "0,11,0\n");
}

#[test]
fn punched_signs_are_listed_as_signs() {
    gives(
        b"9VT;9I;9R;\n1B1B12\n1K121K\n0{0{00\n0}0{00\n1B001}\n",
        "0,0,0,3,6\n1,0,0,12,12,12\n2,0,0,-12,-12,-12\n3,0,0,0,0,0\n4,10,1\n5,10,2\n",
    );
    gives(b"9R;CRR;\n", "0,2,2\n");
    gives(b"9T;TT;\n", "0,4,2\n");
}

#[test]
fn blanks_of_b_are_listed_by_their_fields() {
    gives(
        b"**B**;$$B$$9;\n** *5 $ 123\n** **    $0\n50 00$1 234\n****5 $ 123\n** *5  $123\n",
        "0,0,0,2,11\n1,0,0,5,123\n2,0,0,0,0\n3,0,0,5000,1234\n4,10,1\n5,10,2\n",
    );
}

#[test]
fn refused_records_do_not_stop_the_list() {
    gives(b"S9V9;99;\n-1207\n+0007\n-0007\n+12x7\n", "0,0,0,2,5\n1,0,0,-12,7\n2,0,0,0,7\n3,10,1\n4,10,2\n");
}
