//! Points of the rules that are easily missed, one test a group, each with the result that the words of the rules give.

use second::sheet_of_examples::blanks;
use second::{check, compile, edit, edit_cut, is_plan, plan_edit, plan_read, read, Answer};

/// The largest M.
const LARGEST: i64 = 999_999_999_999_999_999;

fn all_are(number: u64, texts: &[&str]) {
    for text in texts {
        assert_eq!(check(text.as_bytes()).number, number, "{text}");
    }
}

fn accepted(text: &str, n: u64) {
    assert_eq!(check(text.as_bytes()), Answer::success(n as usize), "{text}");
}

type Edit = fn(&[u8], i64, u64, &mut [u8]) -> Answer;

fn edits_by(edit: Edit, text: &str, m: i64, q: u64, field: &str) {
    let mut out = vec![b'#'; field.len()];
    assert_eq!(edit(text.as_bytes(), m, q, &mut out), Answer::success(field.len()), "{text} {m}@{q}");
    assert_eq!(String::from_utf8(out).unwrap().replace(' ', "_"), field, "{text} {m}@{q}");
}

fn edit_by_is(edit: Edit, number: u64, text: &str, m: i64, q: u64) {
    let expected = Answer { number, field: 0, length: 0, value: 0 };
    assert_eq!(edit(text.as_bytes(), m, q, &mut [0; 64]), expected, "{text} {m}@{q}");
}

/// In either mode.
fn edits(text: &str, m: i64, q: u64, field: &str) {
    [edit, edit_cut].iter().for_each(|&edit| edits_by(edit, text, m, q, field));
}

/// In either mode.
fn edit_is(number: u64, text: &str, m: i64, q: u64) {
    [edit, edit_cut].iter().for_each(|&edit| edit_by_is(edit, number, text, m, q));
}

/// By the cut, where rounding gives something else.
fn cuts(text: &str, m: i64, q: u64, field: &str) {
    edits_by(edit_cut, text, m, q, field);
}

/// By rounding, where the cut gives something else.
fn rounds(text: &str, m: i64, q: u64, field: &str) {
    edits_by(edit, text, m, q, field);
}

/// By rounding, where the cut takes the value.
fn round_is(number: u64, text: &str, m: i64, q: u64) {
    edit_by_is(edit, number, text, m, q);
}

fn reads(text: &str, field: &str, value: i64) {
    assert_eq!(read(text.as_bytes(), &blanks(field)), Answer::value(value), "{text} {field}");
}

fn read_is(number: u64, text: &str, field: &str) {
    assert_eq!(read(text.as_bytes(), &blanks(field)).number, number, "{text} {field}");
}

fn plan(layout: &str) -> Vec<u8> {
    let mut plan = vec![0; 2_147];
    let answer = compile(layout.as_bytes(), &mut plan);
    assert_eq!(answer.number, 0, "{layout}");
    plan.truncate(answer.length as usize);
    plan
}

fn compile_is(number: u64, field: u64, layout: &[u8]) {
    let expected = Answer { number, field, length: 0, value: 0 };
    assert_eq!(compile(layout, &mut [0; 2_147]), expected, "{:?}", String::from_utf8_lossy(layout));
}

#[test]
fn lengths_of_texts() {
    all_are(1, &["", &"9".repeat(129), &"Q".repeat(129)]);
    all_are(2, &[&"Q".repeat(128)]);
    all_are(3, &[&"9".repeat(128), &"9".repeat(65), &"9".repeat(127)]);
    accepted(&("(01)B".repeat(25) + "999"), 28);
}

#[test]
fn marks_are_the_last_two_bytes() {
    all_are(
        2,
        &["9(1)DB", "9(2)CR", "9DBB", "9CRV", "CR9", "9D(1)B", "9CVR", "9C", "9D", "9DBCR", "CRR", "9CRR", "(1)DB"],
    );
    accepted("9(2)B", 3);
    accepted("9BDB", 4);
    edits("9BDB", -1, 0, "1_DB");
    edits("9(2)B", 1, 0, "1__");
    accepted("9CR", 3);
    accepted("9R", 2);
    accepted("9VR", 2);
    edits("9CR", -1, 0, "1CR");
    edits("9R", -1, 0, "0J");
}

#[test]
fn bytes_that_are_no_symbols() {
    all_are(2, &["9Y9", "YY", "F9", "9E9", "99K", "A9", "9X", "9{", "9}", "9J", "99t", "99i", "99r", "z9", "9 9"]);
}

#[test]
fn factors() {
    for worth in 1..=9 {
        accepted(&format!("(0{worth})9"), worth);
        accepted(&format!("({worth})9"), worth);
    }
    all_are(
        2,
        &[
            "(0)9", "(00)9", "(003)9", "(65)9", "(99)9", "()9", "( 2)9", "(+2)9", "(1)(2)9", "9(2)", "(2)", "(", ")",
            "9)",
        ],
    );
    all_are(2, &["(1)V", "9(1)V9", "(1)CR", "(1)R", "(1)D", "9(1)DB", "(2", "(2)", "((2)9)", "(2)(9", "(a)9", "(2)Q"]);
    accepted("(63)B9", 64);
}

#[test]
fn factors_before_punched_digits() {
    accepted("(1)T", 1);
    accepted("(01)I", 1);
    accepted("9(1)T", 2);
    all_are(4, &["(2)T", "(02)I", "(3)I", "(64)T", "9(2)TV9"]);
    all_are(2, &["(1)R", "(01)R", "(2)R", "9(1)R", "(1)RCR", "(0)T", "(65)I", "(1)(1)T"]);
    all_are(3, &["(64)9T", "(63)BTV", "(62)BRCR"]);
    accepted("(63)BT", 64);
    accepted("(62)BRV", 63);
}

#[test]
fn symbols_before_length() {
    all_are(2, &["(64)9(64)9Q", "Q(64)9(64)9"]);
    all_are(3, &["(64)9(64)9", "(64)9V", "(63)B9V", "(62)B9CR", "(61)B9VCR", "VV(64)9", "(64)Z9"]);
    all_are(0, &["(62)B9V", "(61)B9CR", "(60)B9VDB"]);
}

#[test]
fn pictures_without_a_digit() {
    all_are(4, &["VV", "S+", "SCR", "+DB", "VVCR"]);
    all_are(5, &["S$", "$,S", "V", "B", "CR", "DB", "S", "$", ",./B", "VCR", "$VS", "$CR"]);
}

#[test]
fn places_of_v() {
    all_are(0, &["V$9", "VS9", "9V-", "9-V", "9V$", ",V.9", "9VCR", "$V$", "$,V.$", "V9", "9V", "BV9", "*V**DB"]);
    all_are(4, &["V$$", "VSS9", ",V,--", "9V9V", "V$$9"]);
    all_are(2, &["9CVR", "9CRV", "9DVB"]);
    edits("$V$", 5, 1, "$5");
    edits("V$9", 5, 1, "$5");
    edit_is(8, "$V$", 1, 0);
}

#[test]
fn places_of_static_symbols() {
    all_are(4, &["$S$", "S$S", "9$9", "Z-Z", "$$S9", "S9$9", "$$,S$", "ZV-Z"]);
    all_are(0, &["S$9", "$S9", "9S$", "S9$", "$9-", "S$$9", "$$9S", ",$,S,9", "$ZZ9CR"]);
}

#[test]
fn kinds_of_signs_and_suppression() {
    all_are(
        4,
        &["S9S$$", "SS$$", "++--", "S9-", "S9CR", "-9DB", "--9CR", "+9-", "Z*", "*Z9", "ZSS", "$$*", "9Z", "99$$"],
    );
    all_are(4, &["9VZ", "Z9VZ", "$$9V$", "9VS9S", "*9V*"]);
    all_are(0, &["ZVZ", "*V*", "$$V$", "ZV9", "Z9V9", "$$9CR", "S9V9", "ZZVZZ-", "S**"]);
}

#[test]
fn a_punched_digit_is_the_one_sign() {
    all_are(4, &["TT", "II", "RR", "TI", "IR", "TR", "T9T", "T,I", "TV9R"]);
    all_are(4, &["S9T", "T9S", "ST", "+T", "T+", "9I-", "-9R", "T9CR", "RCR", "9RCR", "TDB", "9IDB"]);
    all_are(4, &["--T", "SST", "++9I", "--9R", "S$T", "+,+T"]);
    all_are(0, &["$9T", "9T$", "$T", "I$", "R9$"]);
}

#[test]
fn a_punched_digit_has_the_shape_of_a_nine() {
    all_are(4, &["TZ", "T*", "Z9TZ", "ZTZ", "I$$", "T$$9", "ZVZT", "*V*R", "ZTVZ", "TVZ", "$$V$I", "T$9", "9$T"]);
    all_are(4, &["TVV", "VT9V", "Z*T", "Z$$T"]);
    all_are(
        0,
        &["T", "I", "R", "ZT", "ZT9", "ZZR", "*I", "**T", "$$,$$T", "$$R9", "ZVT", "Z9VT9", "VT", "TV", "TV9", "9VT"],
    );
    all_are(0, &["R99", "9I9", "99T9", "ZZV9T", ",T", "T,", "B.T/B", "V$T", "T$V"]);
    all_are(0, &["(17)9T", "T(17)9", "(17)ZR", "(17)*I", "(18)$T", "(9)9IV(8)9", "V(17)9T", "TV(17)9"]);
    all_are(0, &["(15)9T", "T(16)9", "(15)ZR", "(16)*I", "(16)$T", "(8)9IV(8)9"]);
    all_are(5, &["(18)9T", "T(18)9", "(18)ZR", "(18)*I", "(19)$T", "(9)9IV(9)9", "V(18)9T", "TV(18)9"]);
}

#[test]
fn numbers_of_digits() {
    all_are(0, &["(19)$", "(19)-", "(18)Z", "(18)9", "(9)ZV(9)Z", "(9)9V(9)9"]);
    all_are(5, &["(20)$", "(20)-", "(19)Z", "(19)9", "(9)ZV(10)Z", "(10)9V(9)9", "(64)9", "(64)*"]);
    accepted("(18)9", 18);
    accepted("(19)$", 19);
    accepted("$(18)9CR", 21);
    accepted("(18)*(44)BCR", 64);
    all_are(5, &["$(19)9CR", "(19)*(43)BCR", "(19)Z(45)/"]);
}

#[test]
fn numbers_of_digits_of_every_kind() {
    for digits in 1..=21 {
        let number = if digits > 18 { 5 } else { 0 };
        for (symbol, first) in [("9", 0), ("Z", 0), ("*", 0), ("S", 1), ("+", 1), ("-", 1), ("$", 1)] {
            all_are(number, &[&format!("({}){symbol}", first + digits), &symbol.repeat(first + digits)]);
            for v in 0..=digits {
                all_are(number, &[&format!("{}V{}", symbol.repeat(first + v), symbol.repeat(digits - v))]);
            }
        }
        for (symbol, at) in ["T", "I", "R"].into_iter().flat_map(|symbol| (0..digits).map(move |at| (symbol, at))) {
            all_are(number, &[&format!("{}{symbol}{}", "9".repeat(at), "9".repeat(digits - 1 - at))]);
        }
        for suppressible in 1..digits {
            for symbol in ["Z", "*"] {
                all_are(number, &[&format!("({suppressible}){symbol}V{}", "9".repeat(digits - suppressible))]);
            }
        }
    }
}

#[test]
fn zero_has_the_plus() {
    for (text, field) in
        [("S9", "+0"), ("+9", "+0"), ("-9", "_0"), ("9CR", "0__"), ("9DB", "0__"), ("SS9", "_+0"), ("--9", "__0")]
    {
        edits(text, -4, 1, field);
        cuts(text, -9, 1, field);
        edits(text, 0, 0, field);
        reads(text, field, 0);
    }
    for (text, field) in [
        ("S9", "-0"),
        ("+9", "_0"),
        ("-9", "-0"),
        ("9CR", "0CR"),
        ("9DB", "0DB"),
        ("SS9", "_-0"),
        ("++9", "__0"),
        ("--9", "_-0"),
    ] {
        read_is(10, text, field);
    }
    read_is(10, "+99", "_00");
    edits("99", -4, 1, "00");
    cuts("99", -9, 1, "00");
    edit_is(8, "99", -1, 0);
    edits("ZZCR", -4, 1, "____");
    cuts("ZZCR", -9, 1, "____");
}

const PLAIN: [&str; 10] = ["0", "1", "2", "3", "4", "5", "6", "7", "8", "9"];
const WITH_PLUS: [&str; 10] = ["{", "A", "B", "C", "D", "E", "F", "G", "H", "I"];
const WITH_MINUS: [&str; 10] = ["}", "J", "K", "L", "M", "N", "O", "P", "Q", "R"];

#[test]
fn both_lists_under_punched_digits() {
    let of_symbols = [("T", WITH_PLUS, WITH_MINUS), ("I", WITH_PLUS, PLAIN), ("R", PLAIN, WITH_MINUS)];
    for (symbol, plus, minus) in of_symbols {
        let (alone, first, last) = (symbol.to_string(), format!("{symbol}9"), format!("9{symbol}"));
        for digit in 0..10 {
            let (m, plus, minus) = (digit as i64, plus[digit], minus[digit]);
            let shown = [
                (&last, 10 + m, format!("1{plus}")),
                (&last, -10 - m, format!("1{minus}")),
                (&first, 10 * m + 1, format!("{plus}1")),
                (&first, -10 * m - 1, format!("{minus}1")),
            ];
            for (text, m, field) in shown {
                edits(text, m, 0, &field);
                reads(text, &field, m);
            }
            edits(&alone, m, 0, plus);
            reads(&alone, plus, m);
            if digit > 0 {
                edits(&alone, -m, 0, minus);
                reads(&alone, minus, -m);
            } else {
                read_is(10, &alone, minus);
            }
        }
    }
    for digit in 0..10 {
        read_is(10, "T", PLAIN[digit]);
        read_is(10, "I", WITH_MINUS[digit]);
        read_is(10, "R", WITH_PLUS[digit]);
    }
}

#[test]
fn plain_digits_are_never_punched() {
    for figure in WITH_PLUS.into_iter().chain(WITH_MINUS) {
        for text in ["9", "Z", "*", "V9"] {
            read_is(10, text, figure);
        }
        for text in ["9T", "ZT", "*I", "9R", "T9", "RV9"] {
            read_is(10, text, &format!("{figure}{figure}"));
        }
        for (text, before, behind) in
            [("S9", "+", ""), ("9CR", "", "CR"), ("ZZ", "_", ""), ("$$", "$", ""), ("9TV9", "1A", "")]
        {
            read_is(10, text, &format!("{before}{figure}{behind}"));
        }
    }
}

#[test]
fn zero_is_punched_as_plus() {
    for (text, field) in [("T", "{"), ("I", "{"), ("R", "0"), ("9T", "0{"), ("9I", "0{"), ("9R", "00"), ("T9", "{0")] {
        edits(text, 0, 0, field);
        edits(text, -4, 1, field);
        cuts(text, -9, 1, field);
        reads(text, field, 0);
    }
    for (text, field) in
        [("T", "}"), ("T", "0"), ("I", "0"), ("I", "}"), ("R", "}"), ("R", "{"), ("9T", "0}"), ("9I", "00")]
    {
        read_is(10, text, field);
    }
    read_is(10, "9R", "0}");
    read_is(10, "ZZT", "__}");
    reads("9T", "1}", -10);
    reads("9I", "10", -10);
    reads("9I", "1{", 10);
    reads("9R", "1}", -10);
    reads("T9", "}1", -1);
}

#[test]
fn punched_digits_take_negatives() {
    edits("9T", -1, 0, "0J");
    edits("9I", -1, 0, "01");
    edits("9R", -1, 0, "0J");
    edit_is(8, "99", -1, 0);
    edit_is(8, "9T", 100, 0);
    edit_is(8, "9T", -100, 0);
    edit_is(8, "VT", 1, 0);
    cuts("99T", -1_239, 1, "12L");
    cuts("99T", 1_239, 1, "12C");
    rounds("99T", -1_239, 1, "12M");
    rounds("99T", 1_239, 1, "12D");
    edits("(17)9T", -LARGEST, 0, "99999999999999999R");
    edits("I(17)9", LARGEST, 0, "I99999999999999999");
    edit_is(6, "T", -LARGEST - 1, 18);
    cuts("T", -LARGEST, 18, "{");
    rounds("T", -LARGEST, 18, "J");
    rounds("I", -LARGEST, 18, "1");
    rounds("R", -LARGEST, 18, "J");
}

#[test]
fn punched_digits_are_always_printed() {
    edits("ZZT", 0, 0, "__{");
    edits("ZZT", -5, 0, "__N");
    edits("ZZT", 120, 0, "12{");
    edits("**T", 0, 0, "**{");
    edits("**R", -7, 0, "**P");
    edits("$$,$$T", 0, 0, "____${");
    edits("$$,$$T", -1_234, 0, "$1,23M");
    edits("$$,$$I", -123, 0, "__$123");
    edits("ZT9", 5, 0, "_{5");
    edits("ZT9", -5, 0, "_}5");
    edits("ZT9", -105, 0, "1}5");
    edits("ZR9", -15, 0, "_J5");
    edits("9VT", -12, 1, "1K");
    edits("TV9", -12, 1, "J2");
    edits("ZV.T", -2, 1, "_.K");
    edits("ZZ.VT", 2, 1, "___B");
    edits("Z,ZI/", -3, 0, "___3/");
    edits("T$", -3, 0, "L$");
    edits(",T.", 0, 0, ",{.");
    for (text, field, m) in
        [("ZZT", "__N", -5), ("ZT9", "_}5", -5), ("$$,$$T", "$1,23M", -1_234), ("ZV.T", "_.K", -2), ("**T", "**{", 0)]
    {
        reads(text, field, m);
    }
    for (text, field) in
        [("ZZT", "___"), ("ZZT", "_0N"), ("ZZT", "00N"), ("ZT9", "__5"), ("**T", "***"), ("ZT9", "_{E"), ("ZZT", "_AE")]
    {
        read_is(10, text, field);
    }
}

#[test]
fn everything_suppressed() {
    for (text, field) in [
        ("+ZZ", "___"),
        ("+++", "___"),
        ("$ZZ", "___"),
        ("Z,ZS", "____"),
        ("**CR", "****"),
        ("$*,*-", "*****"),
        ("*DB", "***"),
    ] {
        edits(text, 0, 0, field);
        reads(text, field, 0);
    }
    read_is(10, "**CR", "**__");
    read_is(10, "$ZZ", "$__");
    read_is(10, "+ZZ", "+__");
    read_is(10, "***", "___");
    read_is(10, "Z", "*");
    read_is(10, "VZZ", "00");
    read_is(10, "ZV.ZZ", "_.00");
}

#[test]
fn whole_part_too_large() {
    edit_is(8, "V99", 1, 0);
    edit_is(8, "V99", 100, 2);
    edits("V99", 99, 2, "99");
    cuts("V99", 9_999, 4, "99");
    round_is(8, "V99", 9_999, 4);
    edits("V99", 9_949, 4, "99");
    edit_is(8, "9V(17)9", 10, 0);
    edits("9V(17)9", 9, 0, "900000000000000000");
    edits("V(18)9", LARGEST, 18, "999999999999999999");
    edits("(18)9", LARGEST, 0, "999999999999999999");
    edit_is(8, "(17)9", LARGEST, 0);
    edit_is(8, "(17)9", 100_000_000_000_000_000, 0);
    cuts("(17)9", LARGEST, 1, "99999999999999999");
    round_is(8, "(17)9", LARGEST, 1);
}

#[test]
fn aligned_numbers_beyond_64_bits() {
    for m in [10, 100_000_000_000_000_000, LARGEST, -LARGEST] {
        edit_is(8, "SV(18)9", m, 0);
        edit_is(8, "S9V(17)9", m, 0);
    }
    edit_is(8, "V(18)9", 1, 0);
    edit_is(8, "9V(17)9", LARGEST, 16);
    edits("9V(17)9", LARGEST, 17, "999999999999999999");
    cuts("9V(17)9", LARGEST, 18, "099999999999999999");
    rounds("9V(17)9", LARGEST, 18, "100000000000000000");
    edit_is(8, "(9)9V(9)9", 1_000_000_000, 0);
    edits("(9)9V(9)9", 999_999_999, 0, "999999999000000000");
    // The product of each with the power of ten is a multiple of 2 to the 64.
    edit_is(8, "V(18)9", 1 << 46, 0);
    edit_is(8, "9V(17)9", 1 << 47, 0);
    edit_is(8, "(9)9V(9)9", 1 << 55, 0);
    edit_is(8, "(13)9V(5)9", 1 << 59, 0);
}

#[test]
fn insertions_beside_the_stretch() {
    edits(",ZZ", 1, 0, ",_1");
    edits(",ZZ", 0, 0, "___");
    edits("ZZ,", 5, 0, "_5,");
    edits("ZZ,", 0, 0, "___");
    edits("V.ZZ", 1, 2, ".01");
    edits("VZZ", 1, 2, "01");
    edits("V,.Z", 1, 1, ",.1");
    edits("V,.Z", 0, 0, "___");
    edits("ZV.9", 0, 0, "_.0");
    edits("$$,9", 5, 0, "__$5");
    edits("**,**9", 7, 0, "*****7");
    edits("$$,$$9", 12, 0, "___$12");
    edits("$,$9", 0, 0, "__$0");
}

/// M at scale q, the picture's own, has the field, and the field is read back.
fn shows(text: &str, fields: &[(i64, u64, &str)]) {
    for &(m, q, field) in fields {
        edits(text, m, q, field);
        reads(text, field, m);
    }
}

/// The known fields have these values, the others are 10.
fn read_as(text: &str, known: &[(&str, i64)], refused: &[&str]) {
    known.iter().for_each(|&(field, m)| reads(text, field, m));
    refused.iter().for_each(|field| read_is(10, text, field));
}

#[test]
fn b_is_a_blank_among_asterisks() {
    shows("**B**", &[(0, 0, "**_**"), (5, 0, "**_*5"), (50, 0, "**_50"), (500, 0, "*5_00"), (5_000, 0, "50_00")]);
    shows("**B9", &[(0, 0, "**_0"), (10, 0, "*1_0")]);
    shows("*BB*", &[(0, 0, "*__*"), (5, 0, "*__5"), (50, 0, "5__0")]);
    shows("*B,*", &[(0, 0, "*_**"), (5, 0, "*_*5"), (50, 0, "5_,0")]);
    shows("*,B*", &[(0, 0, "**_*"), (5, 0, "**_5"), (50, 0, "5,_0")]);
    shows("B**", &[(0, 0, "_**"), (5, 0, "_*5")]);
    shows("**B", &[(0, 0, "**_"), (5, 0, "*5_")]);
    shows("*BV*", &[(0, 1, "*_*"), (5, 1, "*_5"), (50, 1, "5_0")]);
    shows("*VB*", &[(0, 1, "*_*"), (5, 1, "*_5"), (50, 1, "5_0")]);
    shows("**BV.99", &[(0, 2, "**_.00"), (5, 2, "**_.05"), (500, 2, "*5_.00")]);
    shows("**BT", &[(0, 0, "**_{"), (-3, 0, "**_L"), (-13, 0, "*1_L")]);
    shows("$**B*DB", &[(0, 0, "***_***"), (5, 0, "$**_5__"), (-5, 0, "$**_5DB"), (-50, 0, "$*5_0DB")]);
}

#[test]
fn b_is_a_blank_where_everything_is_suppressed() {
    for text in ["ZBZ", "SBS", "+B+", "-B-", "$B$", "BZZ", "ZZB", "B$$", "--B"] {
        shows(text, &[(0, 0, "___")]);
        read_as(text, &[], &["_*_", "***", "*_*", "_0_", "_B_"]);
    }
    shows("**DB", &[(0, 0, "****")]);
    shows("*BDB", &[(0, 0, "*_**"), (7, 0, "7___"), (-7, 0, "7_DB")]);
    shows("*BBDB", &[(0, 0, "*__**")]);
    shows("*B*CR", &[(0, 0, "*_***")]);
    shows("$*B*", &[(0, 0, "**_*")]);
    shows("S*B*", &[(0, 0, "**_*")]);
    shows("*B*-", &[(0, 0, "*_**")]);
    shows("B*B.V/*B", &[(0, 1, "_*_***_")]);
    shows("Z,BZDB", &[(0, 0, "______")]);
}

#[test]
fn the_drifting_character_leaves_out_b() {
    shows("$$B$$9", &[(0, 0, "____$0"), (12, 0, "___$12"), (123, 0, "_$_123"), (1_234, 0, "$1_234")]);
    shows("$$B9", &[(0, 0, "_$_0"), (5, 0, "_$_5"), (15, 0, "$1_5")]);
    shows("$$BB9", &[(0, 0, "_$__0"), (5, 0, "_$__5"), (15, 0, "$1__5")]);
    shows("$B$9", &[(0, 0, "__$0"), (5, 0, "__$5"), (15, 0, "$_15")]);
    shows("$BB$", &[(0, 0, "____"), (5, 0, "$__5")]);
    shows("B$$9", &[(5, 0, "__$5"), (15, 0, "_$15")]);
    shows("$$B", &[(0, 0, "___"), (5, 0, "$5_")]);
    shows("$$B.99", &[(5, 0, "___$05"), (123, 0, "$1_.23")]);
    shows("$$.B99", &[(5, 0, "__$_05"), (123, 0, "$1._23")]);
    shows("$$B,B9", &[(5, 0, "___$_5"), (15, 0, "$1_,_5")]);
    shows("$$BT", &[(0, 0, "_$_{"), (-5, 0, "_$_N"), (-15, 0, "$1_N")]);
    shows("S$B$9", &[(5, 0, "+__$5"), (-5, 0, "-__$5"), (-15, 0, "-$_15")]);
    shows("$B$9CR", &[(-5, 0, "__$5CR"), (15, 0, "$_15__")]);
}

#[test]
fn the_drifting_character_leaves_out_b_before_v() {
    shows("$B$BV.99", &[(0, 2, "__$_.00"), (5, 2, "__$_.05"), (500, 2, "$_5_.00")]);
    shows("$$BV.$$", &[(0, 2, "______"), (5, 2, "_$_.05"), (500, 2, "$5_.00")]);
    shows("$$VB$", &[(0, 1, "____"), (5, 1, "_$_5"), (50, 1, "$5_0")]);
    shows("$BV$", &[(0, 1, "___"), (5, 1, "$_5")]);
    shows("$VB$", &[(0, 1, "___"), (5, 1, "$_5")]);
    shows("$$B.V99", &[(5, 2, "___$05"), (500, 2, "$5_.00")]);
    shows("$$.BV99", &[(5, 2, "__$_05"), (500, 2, "$5._00")]);
}

#[test]
fn drifting_signs_leave_out_b() {
    shows("SSB9", &[(0, 0, "_+_0"), (7, 0, "_+_7"), (-7, 0, "_-_7"), (17, 0, "+1_7"), (-17, 0, "-1_7")]);
    shows("++B9", &[(0, 0, "_+_0"), (7, 0, "_+_7"), (-7, 0, "___7"), (17, 0, "+1_7"), (-17, 0, "_1_7")]);
    shows("--B9", &[(0, 0, "___0"), (7, 0, "___7"), (-7, 0, "_-_7"), (17, 0, "_1_7"), (-17, 0, "-1_7")]);
    shows("SBS", &[(0, 0, "___"), (5, 0, "+_5"), (-5, 0, "-_5")]);
    shows("+B+", &[(0, 0, "___"), (5, 0, "+_5"), (-5, 0, "__5")]);
    shows("-B-", &[(0, 0, "___"), (5, 0, "__5"), (-5, 0, "-_5")]);
    shows("++B+9V.99", &[(123, 2, "___+1.23"), (1_234, 2, "_+_12.34"), (12_345, 2, "+1_23.45")]);
}

#[test]
fn fields_in_which_b_has_taken_a_character() {
    read_as("**B**", &[("**_*5", 5), ("**_**", 0)], &["****5", "*****", "__**5", "**__5", "_____", "**_05", "**0*5"]);
    read_as("**BDB", &[("*5_DB", -5), ("**_**", 0)], &["*5*DB", "*****", "**___", "**_DB", "**_*B"]);
    read_as("$$B$$9", &[("_$_123", 123)], &["__$123", "___123", "$__123", "_$$123", "$$_123", "$_$123", "_$0123"]);
    read_as("$$BB9", &[("_$__5", 5)], &["__$_5", "___$5", "$___5", "____5", "_$_$5", "_$**5"]);
    read_as("--B9", &[("_-_7", -7), ("___7", 7)], &["__-7", "-__7", "_--7", "--_7", "_-_0", "_*_7"]);
    read_as("++B9", &[("_+_7", 7), ("___7", -7)], &["__+7", "+__7", "_++7", "___0"]);
    read_as("$$B.99", &[("___$05", 5)], &["__$_05", "_$_.05", "____05", "___.05"]);
    read_as("$B$", &[("___", 0), ("$_5", 5)], &["_$5", "$$5", "__5", "_$_", "$__", "$_0"]);
}

#[test]
fn plans_keep_the_bytes_of_b() {
    assert_eq!(plan("**B**;$$B$$9;"), [2, 5, 5, 2, 6, 6, 6, 0, 11, 1, 1, 10, 1, 1, 2, 1, 10, 1, 1, 0]);
    assert_eq!(plan("*BDB;"), [1, 4, 4, 2, 0, 4, 1, 10, 13, 14]);
    let (plan, mut record, mut row) = (plan("**B**;$$B$$9;*BDB;"), [b'#'; 15], [9; 3]);
    for (values, fields) in [([5, 123, -7], b"** *5 $ 1237 DB"), ([0, 0, 0], b"** **    $0* **")] {
        assert_eq!(plan_edit(&plan, &values, &mut record), Answer::success(15));
        assert_eq!(&record, fields);
        assert_eq!(plan_read(&plan, fields, &mut row), Answer::success(3));
        assert_eq!(row, values);
    }
    let refused = |field| Answer { number: 10, field, length: 0, value: 0 };
    assert_eq!(plan_read(&plan, b"****5 $ 1237 DB", &mut row), refused(1));
    assert_eq!(plan_read(&plan, b"** *5  $1237 DB", &mut row), refused(2));
    assert_eq!(plan_read(&plan, b"** *5 $ 123****", &mut row), refused(3));
}

#[test]
fn ranges_of_values_come_first() {
    let limit = 1_000_000_000_000_000_000;
    for m in [limit, -limit, limit + 1, -limit - 1, i64::MAX, i64::MIN, i64::MIN + 1] {
        for q in [0, 17, 18, 19] {
            for text in ["9", "S(18)9", "(9)9V(9)9", "SV(18)9", "(17)9T"] {
                edit_is(6, text, m, q);
            }
        }
    }
    for q in [19, 20, 64, 255, 256, 1 << 32, u64::MAX] {
        edit_is(6, "9", 0, q);
        edit_is(6, "9", -999, q);
        edit_is(6, "V(18)9", 1, q);
        edit_is(6, "S(18)9", LARGEST, q);
    }
    edit_is(8, "9", LARGEST, 0);
    edit_is(8, "9", -LARGEST, 17);
    cuts("9", -LARGEST, 18, "0");
    round_is(8, "9", -LARGEST, 18);
    cuts("9", LARGEST, 17, "9");
    round_is(8, "9", LARGEST, 17);
}

#[test]
fn values_of_every_size_and_scale() {
    for digits in 0..=18 {
        let power = 10i64.pow(digits);
        for m in [power - 1, power, power + 1].into_iter().filter(|&m| m <= LARGEST) {
            shows("S(18)9", &[(m, 0, &format!("{m:+019}")), (-m, 0, &format!("{:+019}", -m))]);
            shows("SV(18)9", &[(m, 18, &format!("{m:+019}")), (-m, 18, &format!("{:+019}", -m))]);
        }
    }
    for q in 1..=18 {
        let (below_one, nines) = (10i64.pow(q as u32) - 1, "9".repeat(q));
        let (plus, minus) = (format!("+{nines}"), format!("-{nines}"));
        shows(&format!("SV({q})9"), &[(below_one, q as u64, &plus), (-below_one, q as u64, &minus)]);
        cuts("S9V9", -below_one, q as u64, "-09");
        rounds("S9V9", -below_one, q as u64, if q == 1 { "-09" } else { "-10" });
        cuts("9", -below_one, q as u64, "0");
        round_is(8, "9", -below_one, q as u64);
        edits("9", 0, q as u64, "0");
    }
}

#[test]
fn the_largest_values_under_every_kind() {
    for (text, plus, minus) in [
        ("S(18)9", "+999999999999999999", "-999999999999999999"),
        ("+(18)9", "+999999999999999999", "_999999999999999999"),
        ("-(18)Z", "_999999999999999999", "-999999999999999999"),
        ("(18)*CR", "999999999999999999__", "999999999999999999CR"),
        ("$(18)9DB", "$999999999999999999__", "$999999999999999999DB"),
        ("(19)S", "+999999999999999999", "-999999999999999999"),
        ("(19)+", "+999999999999999999", "_999999999999999999"),
        ("(19)-", "_999999999999999999", "-999999999999999999"),
        ("(19)$-", "$999999999999999999_", "$999999999999999999-"),
        ("(17)9T", "99999999999999999I", "99999999999999999R"),
        ("I(17)9", "I99999999999999999", "999999999999999999"),
        ("(17)ZR", "999999999999999999", "99999999999999999R"),
    ] {
        shows(text, &[(LARGEST, 0, plus), (-LARGEST, 0, minus)]);
        edit_is(6, text, LARGEST + 1, 0);
        edit_is(6, text, -LARGEST - 1, 0);
    }
    shows("-(9)9V.(9)9", &[(LARGEST, 9, "_999999999.999999999"), (-LARGEST, 9, "-999999999.999999999")]);
    shows("ZZZ,ZZZ,ZZZ,ZZZ,ZZ9V.999", &[(LARGEST, 3, "999,999,999,999,999.999")]);
    shows("(18)Z", &[(0, 0, "__________________"), (1, 0, "_________________1")]);
    shows("(19)$", &[(0, 0, "___________________"), (1, 0, "_________________$1")]);
    read_is(10, "(18)Z", "000000000000000001");
    read_is(10, "(18)9", "_99999999999999999");
    read_is(9, "(18)9", "9999999999999999999");
}

#[test]
fn order_of_refusals_on_one_picture() {
    for edit in [edit, edit_cut] {
        assert_eq!(edit(b"", i64::MIN, 99, &mut []).number, 1);
        assert_eq!(edit(b"9Z", i64::MIN, 99, &mut []).number, 4);
        assert_eq!(edit(b"9", i64::MIN, 0, &mut []).number, 6);
        assert_eq!(edit(b"9", 10, 0, &mut []).number, 8);
        assert_eq!(edit(b"9", 9, 0, &mut []).number, 7);
        assert_eq!(edit(b"(19)9", i64::MIN, 99, &mut []).number, 5);
        assert_eq!(edit(b"(18)9", i64::MIN, 99, &mut []).number, 6);
        assert_eq!(edit(b"(18)9", LARGEST, 0, &mut [0; 17]).number, 7);
    }
    assert_eq!(read(b"(19)9", b"").number, 5);
    assert_eq!(read(b"(18)9", b"").number, 9);
    assert_eq!(read(b"9", b"").number, 9);
    assert_eq!(read(b"9", b"xx").number, 9);
    assert_eq!(read(b"9", b"x").number, 10);
}

#[test]
fn blank_is_never_a_nine() {
    read_is(10, "9", "_");
    read_is(10, "Z9", "__");
    read_is(10, "9V9", "1_");
    reads("Z9", "_0", 0);
    reads("+Z", "_5", -5);
    reads("-Z", "_5", 5);
}

#[test]
fn layouts_that_are_refused() {
    compile_is(11, 0, b"");
    compile_is(11, 0, b"9");
    compile_is(11, 0, b"9;9");
    compile_is(11, 0, b"9;\r");
    compile_is(1, 1, b";");
    compile_is(1, 2, b"9;;Q;");
    compile_is(11, 0, &b";".repeat(33));
    compile_is(11, 0, &b"9;".repeat(33));
    compile_is(1, 1, &b";".repeat(32));
    compile_is(4, 3, b"9;Z;9Z;Q;");
    compile_is(2, 1, b"(1)V;9Z;");
    compile_is(5, 2, b"9;CR;");
    compile_is(5, 2, b"(18)9;(19)9;Q;");
    compile_is(5, 3, b"(19)$;(9)ZV(9)Z;(20)$;");
    compile_is(5, 1, b"(18)9T;");
    compile_is(3, 2, b"9;(64)9V;");
    compile_is(1, 2, &[b"9;", &b"9".repeat(129)[..], b";"].concat());
}

#[test]
fn the_longest_layout() {
    let picture = [&b"(01)B".repeat(25)[..], b"999"].concat();
    let layout = [&picture[..], b";"].concat().repeat(32);
    assert_eq!(layout.len(), 4_128);
    let needed = 1 + 96 + 2 + 32 * 28;
    assert_eq!(compile(&layout, &mut vec![0; needed]), Answer::success(needed));
    assert_eq!(compile(&layout, &mut vec![0; needed - 1]).number, 7);
    compile_is(11, 0, &[&layout[..], b";"].concat());
    let too_long = [&layout[..4_127], b"9;"].concat();
    assert_eq!(too_long.len(), 4_129);
    compile_is(11, 0, &too_long);
}

#[test]
fn v_at_the_end_gives_the_plan_of_no_v() {
    assert_eq!(plan("9V;"), plan("9;"));
    assert_eq!(plan("9CR;"), [1, 3, 3, 0, 0, 3, 0, 11, 12]);
    assert_eq!(plan("9-V;"), plan("9-;"));
    assert_ne!(plan("9V-;"), plan("9-;"));
    assert_eq!(plan("9VCR;"), [1, 3, 1, 0, 0, 3, 0, 11, 12]);
    for layout in ["9V;", "9;"] {
        let plan = plan(layout);
        let (mut row, mut record) = ([0], [0]);
        assert_eq!(plan_edit(&plan, &[7], &mut record), Answer::success(1));
        assert_eq!(plan_read(&plan, &record, &mut row), Answer::success(1));
        assert_eq!((record, row), ([b'7'], [7]));
        assert_eq!(plan_edit(&plan, &[10], &mut record).number, 8);
    }
}

#[test]
fn bytes_that_are_no_plan() {
    let field = |n: u8, v: u8, kind: u8, positions: &[u8]| [&[1, n, v, kind, 0, n], positions].concat();
    let full = [&[0][..], &[10; 63]].concat();
    assert!(is_plan(&field(64, 64, 0, &full)));
    assert!(!is_plan(&field(64, 1, 0, &full)), "64 positions and a V");
    assert!(is_plan(&field(3, 1, 0, &[0, 11, 12])) && is_plan(&field(3, 1, 0, &[0, 13, 14])));
    assert!(!is_plan(&field(3, 2, 0, &[0, 11, 12])) && !is_plan(&field(3, 2, 0, &[0, 13, 14])), "V within a mark");
    assert!(!is_plan(&field(3, 3, 0, &[0, 13, 10])) && !is_plan(&field(3, 3, 0, &[0, 10, 14])), "half a mark");
    for kind in 1..=6 {
        assert!(!is_plan(&field(1, 1, kind, &[0])), "kind {kind} borne out by no position");
    }
    assert!(!is_plan(&field(3, 3, 3, &[3, 2, 1])), "S drifting and static");
    assert!(!is_plan(&field(3, 3, 0, &[3, 0, 3])), "S static twice");
    assert!(!is_plan(&field(2, 2, 6, &[2, 0])), "first drifting symbol alone");
    assert!(!is_plan(&field(3, 3, 0, &[3, 0, 5])), "two signs");
    assert!(!is_plan(&field(2, 2, 1, &[0, 1])), "suppressible digit behind a nine");
    assert!(!is_plan(&field(3, 1, 1, &[1, 1, 0])), "suppressible digit behind V beside a nine");
    assert!(!is_plan(&field(1, 2, 0, &[0])) && !is_plan(&field(0, 0, 0, &[])), "V beyond the end; no position");
    assert!(!is_plan(&[]) && !is_plan(&[0]) && !is_plan(&[0, 0, 0]), "no field");
}

#[test]
fn plans_by_their_number_of_digits() {
    let field = |v: usize, kind: u8, positions: &[u8]| {
        let n = positions.len() as u8;
        is_plan(&[&[1, n, v as u8, kind, 0, n], positions].concat())
    };
    for digits in 1..=20 {
        let (nines, suppressible, fits) = (vec![0; digits], vec![1; digits], digits <= 18);
        let punched = [&nines[1..], &[15]].concat();
        let drifting = [&[2], &suppressible[..]].concat();
        for v in 0..=digits {
            assert_eq!(field(v, 0, &nines), fits, "{digits} nines");
            assert_eq!(field(v, 0, &punched), fits, "{digits} nines, one of them a T");
            assert_eq!(field(v, 2, &suppressible), fits, "{digits} asterisks");
            assert_eq!(field(v + 1, 6, &drifting), fits, "{digits} that drift");
        }
    }
}

#[test]
fn plans_of_punched_digits() {
    assert_eq!(plan("9R;"), [1, 2, 2, 0, 0, 2, 0, 17]);
    assert_eq!(plan("9CR;"), [1, 3, 3, 0, 0, 3, 0, 11, 12]);
    assert_eq!(plan("T;I;R;"), [3, 1, 1, 0, 1, 1, 0, 1, 1, 0, 0, 3, 15, 16, 17]);
    assert_eq!(plan("ZT;*I;$$R;"), [3, 2, 2, 1, 2, 2, 2, 3, 3, 6, 0, 7, 1, 15, 1, 16, 2, 1, 17]);
    assert_eq!(plan("9VT;"), [1, 2, 1, 0, 0, 2, 0, 15]);
    assert_eq!(plan("TV;"), plan("T;"));
    compile_is(4, 2, b"9T;TT;");
    compile_is(2, 1, b"CRR;9;");
    compile_is(2, 2, b"9R;(1)R;");
    let mut record = [b'#'; 6];
    assert_eq!(plan_edit(&plan("9T;9I;9R;"), &[-12, -12, -12], &mut record), Answer::success(6));
    assert_eq!(&record, b"1K121K");
    let mut row = [0; 3];
    assert_eq!(plan_read(&plan("9T;9I;9R;"), b"1B1B12", &mut row), Answer::success(3));
    assert_eq!(row, [12, 12, 12]);
    let second_bad = Answer { number: 10, field: 2, length: 0, value: 0 };
    assert_eq!(plan_read(&plan("9T;9I;9R;"), b"1B001}", &mut row), second_bad);
}

#[test]
fn bytes_of_punched_digits_that_are_no_plan() {
    let field = |v: u8, kind: u8, positions: &[u8]| {
        let n = positions.len() as u8;
        is_plan(&[&[1, n, v, kind, 0, n], positions].concat())
    };
    assert!(field(3, 0, &[0, 11, 12]) && !field(3, 0, &[0, 11, 17]), "R of the mark");
    assert!(field(2, 0, &[0, 17]) && !field(2, 0, &[0, 12]), "R that is the symbol");
    assert!(!field(3, 0, &[17, 11, 12]) && !field(3, 0, &[17, 11, 17]) && !field(1, 0, &[12]), "R beside the mark");
    for punched in 15..=17 {
        assert!(field(1, 0, &[punched]) && field(0, 0, &[punched]) && field(2, 0, &[punched, 6]));
        assert!(field(2, 1, &[1, punched]) && field(3, 6, &[2, 1, punched]) && field(1, 1, &[1, punched]));
        for kind in 1..=7 {
            assert!(!field(1, kind, &[punched]), "kind {kind} borne out by no position");
        }
        assert!(!field(2, 1, &[punched, 1]) && !field(1, 1, &[punched, 1]), "suppressible digit behind it");
        assert!(!field(1, 1, &[1, 1, punched]), "suppressible digit behind V beside it");
        assert!(!field(3, 3, &[2, 1, punched]) && !field(2, 0, &[3, punched]), "two signs");
        assert!((15..=17).all(|other| !field(2, 0, &[punched, other])), "two of them");
        assert!(!field(1, 0, &[18]) && !field(2, 0, &[punched, 18]), "a byte that is none");
    }
}

#[test]
fn counts_of_plans() {
    let of = |fields: u8| {
        let heads = [1, 1, 0].repeat(usize::from(fields));
        [&[fields][..], &heads, &[0, fields], &vec![0; usize::from(fields)]].concat()
    };
    assert!(is_plan(&of(1)) && is_plan(&of(32)) && !is_plan(&of(33)) && !is_plan(&of(0)));
    let good = plan("ZZ9V.99;-9;");
    assert!(!is_plan(&good[..16]) && !is_plan(&[&good[..], &[0]].concat()));
    for (at, byte) in [(7, 1), (8, 7), (8, 9)] {
        let mut changed = good.clone();
        changed[at] = byte;
        assert!(!is_plan(&changed));
    }
    let large = plan(&"(46)/(18)9;".repeat(32));
    assert_eq!(large.len(), 2_147);
    assert_eq!(large[97..99], [8, 0]);
    assert!(is_plan(&large));
}

#[test]
fn order_of_refusals_in_plan_reading() {
    let plan = plan("9;99;S9;");
    let mut row = [5; 3];
    assert_eq!(plan_read(&plan[1..], b"", &mut []).number, 12);
    assert_eq!(plan_read(&plan, b"1", &mut []).number, 9);
    assert_eq!(plan_read(&plan, b"x22+3", &mut row[..2]).number, 7);
    let second_bad = Answer { number: 10, field: 2, length: 0, value: 0 };
    assert_eq!(plan_read(&plan, b"12x 3", &mut row), second_bad);
    assert_eq!(row, [5; 3]);
    assert_eq!(plan_read(&plan, b"122-3", &mut row), Answer::success(3));
    assert_eq!(row, [1, 22, -3]);
}

#[test]
fn order_of_refusals_in_plan_editing() {
    let plan = plan("9;99V9;S9;");
    let mut record = [b'#'; 6];
    let at = |number, field| Answer { number, field, length: 0, value: 0 };
    assert_eq!(plan_edit(&plan[1..], &[], &mut []), at(12, 0));
    assert_eq!(plan_edit(&plan, &[1, 2], &mut []), at(9, 0));
    assert_eq!(plan_edit(&plan, &[1, 2, 3, 4], &mut record), at(9, 0));
    assert_eq!(plan_edit(&plan, &[10, i64::MIN, 0], &mut []), at(8, 1));
    assert_eq!(plan_edit(&plan, &[9, i64::MIN, 10], &mut []), at(6, 2));
    assert_eq!(plan_edit(&plan, &[9, 1_000, i64::MAX], &mut []), at(8, 2));
    assert_eq!(plan_edit(&plan, &[9, -1, -9], &mut []), at(8, 2));
    assert_eq!(plan_edit(&plan, &[9, 999, LARGEST + 1], &mut []), at(6, 3));
    assert_eq!(plan_edit(&plan, &[9, 999, LARGEST], &mut []), at(8, 3));
    assert_eq!(plan_edit(&plan, &[9, LARGEST, LARGEST + 1], &mut []), at(8, 2));
    assert_eq!(plan_edit(&plan, &[9, 999, -9], &mut record[..5]), at(7, 0));
    assert_eq!(record, [b'#'; 6]);
    assert_eq!(plan_edit(&plan, &[9, 999, -9], &mut record), Answer::success(6));
    assert_eq!(&record, b"9999-9");
}

#[test]
fn plans_of_the_most_digits() {
    let plan = plan("S(18)9;SV(18)9;(9)9V(8)9T;(19)-;(18)9;");
    let largest = [LARGEST, -LARGEST, -LARGEST, -LARGEST, LARGEST];
    let fields = "+999999999999999999-99999999999999999999999999999999999R-999999999999999999999999999999999999";
    let (mut record, mut row) = ([b'#'; 93], [9; 5]);
    assert_eq!(plan_edit(&plan, &largest, &mut record), Answer::success(93));
    assert_eq!(String::from_utf8_lossy(&record), fields);
    assert_eq!(plan_read(&plan, fields.as_bytes(), &mut row), Answer::success(5));
    assert_eq!(row, largest);
    for field in 1..=5 {
        for beyond in [LARGEST + 1, -LARGEST - 1, LARGEST + 2, -LARGEST - 2, i64::MAX, i64::MIN] {
            let mut row = largest;
            row[field - 1] = beyond;
            let refused = Answer { number: 6, field: field as u64, length: 0, value: 0 };
            assert_eq!(plan_edit(&plan, &row, &mut record), refused);
        }
    }
    assert_eq!(String::from_utf8_lossy(&record), fields);
}
