//! The command as it is run: the protocol against itself, corrupted answers found, wrong use refused.

use std::io::Write;
use std::path::PathBuf;
use std::process::{Command, Output, Stdio};

fn run(arguments: &[&str], input: &[u8]) -> Output {
    let mut command = Command::new(env!("CARGO_BIN_EXE_second"));
    command.args(arguments).stdin(Stdio::piped()).stdout(Stdio::piped()).stderr(Stdio::piped());
    let mut child = command.spawn().expect("the program starts");
    let mut stdin = child.stdin.take().expect("a pipe");
    let input = input.to_vec();
    let writer = std::thread::spawn(move || stdin.write_all(&input));
    let output = child.wait_with_output().expect("the program ends");
    // A program refusing its arguments may end before it has read its input.
    let _ = writer.join().expect("the writer ends");
    output
}

fn output_of(arguments: &[&str], input: &[u8]) -> String {
    let output = run(arguments, input);
    assert_eq!(output.status.code(), Some(0), "{arguments:?}");
    String::from_utf8(output.stdout).expect("ASCII")
}

fn file(name: &str, content: &str) -> PathBuf {
    let path = PathBuf::from(env!("CARGO_TARGET_TMPDIR")).join(name);
    std::fs::write(&path, content).expect("the file is written");
    path
}

/// The exit code and the output of a judgement of these lines.
fn judged(name: &str, cases: &str, answers: &str) -> (Option<i32>, String) {
    let (cases, answers) = (file(&format!("{name}.cases"), cases), file(&format!("{name}.answers"), answers));
    let output = run(&["judge", cases.to_str().unwrap(), answers.to_str().unwrap()], b"");
    (output.status.code(), String::from_utf8(output.stdout).expect("ASCII"))
}

#[test]
fn own_answers_do_not_differ() {
    for kind in ["picture", "layout", "totals_add", "all"] {
        let cases = output_of(&["cases", kind, "21", "1500"], b"");
        assert_eq!(cases.lines().count(), 1_500);
        let answers = output_of(&["answer"], cases.as_bytes());
        assert_eq!(judged(kind, &cases, &answers), (Some(0), "1500 compared, 0 differ\n".to_string()));
    }
}

#[test]
fn corrupted_answers_are_found() {
    let cases = output_of(&["cases", "all", "22", "100"], b"");
    let answers = output_of(&["answer"], cases.as_bytes());
    let mut lines: Vec<String> = answers.lines().map(str::to_string).collect();
    lines[40] = format!("1{}", lines[40]);
    lines[70] = lines[70].split(' ').next().unwrap().to_string() + " 00112233445566778899aabb";
    lines[80] = "nothing".to_string();
    let (code, report) = judged("corrupted", &cases, &(lines.join("\n") + "\n"));
    assert_eq!(code, Some(1));
    assert!(report.ends_with("100 compared, 3 differ\n"), "{report}");
    assert!(report.contains("case 41: ") && report.contains("case 71: ") && report.contains("case 81: "), "{report}");
}

/// How the judge shows that `ZZ9` prints 5 as `__5` and an answer says `__6`.
const DIFFERENCE: &str = r#"case 1: edit "ZZ9" value 5@0 into 3 bytes "..."
  edit 5a5a39 5 0 2e2e2e
  expected number 0 field 0 length 3 memory "  5"
           196608 202035
  got      number 0 field 0 length 3 memory "  6"
           196608 202036
1 compared, 1 differ
"#;

#[test]
fn differences_are_worded() {
    let (code, report) = judged("worded", "edit 5a5a39 5 0 2e2e2e\n", "196608 202036\n");
    assert_eq!((code, report.as_str()), (Some(1), DIFFERENCE));
    let (_, report) = judged("worded_cut", "edit_cut 5a5a39 55 1 2e2e2e\n", "196608 202036\n");
    assert!(report.starts_with("case 1: edit_cut \"ZZ9\" value 55@1 into 3 bytes \"...\"\n"), "{report}");
    assert!(report.contains("length 3 memory \"  5\"\n"), "{report}");
    let (_, report) = judged("no_answer", "check 39\n", "no\tanswer\n");
    assert!(report.contains("  got      no answer line: \"no\\tanswer\"\n"), "{report}");
}

/// How the judge shows an addition to an empty sheet, with a byte behind it, after which the answer has lost the sum.
const LOST_SUM: [&str; 3] = [
    r#"case 1: totals_add by the plan of "9;" at 0 of 1 bytes "7" to 777 bytes count 0 sums [] least [] greatest [] and [171]"#,
    "  expected number 0 field 0 length 1 memory count 1 sums [7] least [7] greatest [7] and [171]",
    "  got      number 0 field 0 length 1 memory count 1 sums [] least [7] greatest [7] and [171]",
];

#[test]
fn sheets_are_worded() {
    let sheet = |sevens: &[usize], count: u8| {
        let mut sheet = [vec![0; 776], vec![171]].concat();
        sheet[0] = count;
        sevens.iter().for_each(|&at| sheet[at] = 7);
        second::cases::hex(&sheet)
    };
    let case = format!("totals_add 01010100000100 37 0 {}\n", sheet(&[], 0));
    let (code, report) = judged("lost_sum", &case, &format!("65536 {}\n", sheet(&[8 * 33, 8 * 65], 1)));
    let words: Vec<&str> = report.lines().filter(|line| line.contains("count")).collect();
    assert_eq!((code, &words[..]), (Some(1), &LOST_SUM[..]));
}

/// The exit code and the output of a judgement by the stated lines.
fn judged_by(name: &str, cases: &str, answers: &str, stated: &str) -> (Option<i32>, String) {
    let lines = [("cases", cases), ("answers", answers), ("stated", stated)];
    let [cases, answers, stated] = lines.map(|(what, lines)| file(&format!("{name}.{what}"), lines));
    let output = run(&["judge", cases.to_str().unwrap(), answers.to_str().unwrap(), stated.to_str().unwrap()], b"");
    (output.status.code(), String::from_utf8(output.stdout).expect("ASCII"))
}

#[test]
fn stated_answers_take_the_place_of_its_own() {
    let case = "edit 5a5a39 5 0 2e2e2e\n";
    let agreed = (Some(0), "1 compared, 0 differ\n".to_string());
    assert_eq!(judged_by("agreed", case, "196608 202036\n", "196608 202036\n"), agreed);
    let differed = judged_by("differed", case, "196608 202036\n", "196608 202035\n");
    assert_eq!(differed, (Some(1), DIFFERENCE.to_string()));
    assert_eq!(judged_by("unanswered", case, "", "196608 202035\n").0, Some(1));
    assert_eq!(judged_by("unstated", case, "196608 202035\n", "").0, Some(2));
    assert_eq!(judged_by("unusable", case, "196608 202035\n", "nothing\n").0, Some(2));
}

#[test]
fn cases_in_messages_are_worded() {
    let worded = [
        ("driver: line 7: the call crashed: check 5a5a39", r#"check "ZZ9""#),
        ("read 39 00 -", r#"read "9" field "\x00" into 0 bytes [] and []"#),
        ("plan_read 010101000001 - -", r#"plan_read by [1, 1, 1, 0, 0, 1] record "" into 0 bytes [] and []"#),
        ("plan_read 01010100000100 37 -", r#"plan_read by the plan of "9;" record "7" into 0 bytes [] and []"#),
        ("totals_add 01010100000100 37 0 07", r#"totals_add by the plan of "9;" at 0 of 1 bytes "7" to 1 bytes [7]"#),
    ];
    for (line, words) in worded {
        assert_eq!(output_of(&["word"], format!("{line}\n").as_bytes()), format!("{line}\n  {words}\n"));
    }
    assert_eq!(output_of(&["word"], b"no case: chek 39\n\n"), "no case: chek 39\n\n");
    assert_eq!(output_of(&["word"], b""), "");
}

#[test]
fn at_most_twenty_differences_are_worded() {
    let cases = output_of(&["cases", "check", "23", "50"], b"");
    let (code, report) = judged("many", &cases, &"255 -\n".repeat(50));
    assert_eq!((code, report.matches("expected").count()), (Some(1), 20));
    assert!(report.ends_with("50 compared, 50 differ\n"));
}

#[test]
fn missing_and_spare_answers_are_found() {
    for answers in ["65536 -\n", "65536 -\n65536 -\n65536 -\n"] {
        let (code, report) = judged("lines", "check 39\ncheck 39\n", answers);
        assert_eq!(code, Some(1));
        assert!(report.ends_with(" compared, 0 differ\n") && report.starts_with("2 cases but "), "{report}");
    }
}

#[test]
fn stated_answers_agree() {
    let (cases, answers) = (output_of(&["sheet", "cases"], b""), output_of(&["sheet", "answers"], b""));
    assert_eq!(judged("sheet", &cases, &answers), (Some(0), "395 compared, 0 differ\n".to_string()));
    assert_eq!(output_of(&["answer"], cases.as_bytes()), answers);
}

#[test]
fn the_lister_runs() {
    let input = second::sheet_of_examples::LISTER_INPUT;
    assert_eq!(output_of(&["list"], input).as_bytes(), second::sheet_of_examples::LISTING);
    assert_eq!(output_of(&["list"], b""), "0,11,0\n");
    assert_eq!(output_of(&["list"], &b"\n".repeat(65_537)), "0,13,0\n");
}

#[test]
fn the_totals_program_runs() {
    let input = second::sheet_of_examples::LISTER_INPUT;
    assert_eq!(output_of(&["total"], input).as_bytes(), second::sheet_of_examples::TOTALS);
    assert_eq!(output_of(&["total"], b""), "0,11,0\n");
    assert_eq!(output_of(&["total"], &b"\n".repeat(65_537)), "0,13,0\n");
}

#[test]
fn wrong_use_is_refused() {
    let wrong: [&[&str]; 12] = [
        &[],
        &["lists"],
        &["list", "more"],
        &["total", "more"],
        &["cases", "all", "1"],
        &["cases", "none", "1", "0"],
        &["cases", "all", "x", "1"],
        &["cases", "all", "1", "-1"],
        &["sheet"],
        &["sheet", "all"],
        &["judge", "one"],
        &["word", "more"],
    ];
    for arguments in wrong {
        let output = run(arguments, b"");
        assert_eq!((output.status.code(), output.stdout.len()), (Some(2), 0), "{arguments:?}");
        assert!(output.stderr.starts_with(b"usage:"), "{arguments:?}");
    }
    assert_eq!(run(&["answer"], b"chek 39\n").status.code(), Some(2));
    assert_eq!(run(&["judge", "no such file", "nor this"], b"").status.code(), Some(2));
    assert_eq!(run(&["judge", "no such file", "nor this", "nor that"], b"").status.code(), Some(2));
}
