//! The sheet of examples, the plan examples, the additions to totals sheets and the manuals' examples, each held against the calls of
//! this program.

use second::manual::{examples, Example};
use second::rules_of_shape::Picture;
use second::sheet_of_examples::{self as sheet, blanks, stated, totals};
use second::value_to_field::Mode;
use second::{check, compile, edit, edit_cut, is_plan, plan_edit, plan_read, read, Answer};

fn refusal(number: u64, field: u64) -> Answer {
    Answer { number, field, length: 0, value: 0 }
}

/// In this mode the value has the field or, where there is none, is refused with the number.
fn edits_to(mode: Mode, text: &str, m: i64, q: u64, outcome: Result<&[u8], u64>) {
    let (expected, field) = match outcome {
        Ok(field) => (Answer::success(field.len()), field),
        Err(number) => (refusal(number, 0), &[b'#'; 64][..]),
    };
    let mut out = vec![b'#'; field.len()];
    let answer = match mode {
        Mode::Rounding => edit(text.as_bytes(), m, q, &mut out),
        Mode::Cut => edit_cut(text.as_bytes(), m, q, &mut out),
    };
    assert_eq!((answer, &out[..]), (expected, field), "{mode:?} {text} {m}@{q}");
}

#[test]
fn edited_lines() {
    for mode in Mode::BOTH {
        for &(text, m, q, field) in sheet::EDITED {
            edits_to(mode, text, m, q, Ok(&blanks(field)));
        }
        for &(text, m, q, number) in sheet::EDITING_REFUSED {
            edits_to(mode, text, m, q, Err(number));
        }
    }
}

#[test]
fn lines_of_more_places_than_the_picture() {
    for &(text, m, q, rounded, cut) in sheet::FRACTIONS {
        let places = Picture::of(text.as_bytes()).expect(text).f() as u64;
        assert!(q > places, "{text} {m}@{q} has no more");
        for (mode, outcome) in [(Mode::Rounding, rounded), (Mode::Cut, cut)] {
            match outcome {
                Ok(field) => edits_to(mode, text, m, q, Ok(&blanks(field))),
                Err(number) => edits_to(mode, text, m, q, Err(number)),
            }
        }
    }
}

#[test]
fn read_lines() {
    for &(text, field, value) in sheet::READ {
        assert_eq!(read(text.as_bytes(), &blanks(field)), Answer::value(value), "{text} {field}");
    }
    for &(text, field, number) in sheet::READING_REFUSED {
        assert_eq!(read(text.as_bytes(), &blanks(field)), refusal(number, 0), "{text} {field}");
    }
}

#[test]
fn checked_lines() {
    for &(text, number, length) in sheet::CHECKED {
        assert_eq!(check(text.as_bytes()), Answer { number, field: 0, length, value: 0 }, "{text}");
    }
}

#[test]
fn plan_example() {
    let mut plan = [0; 17];
    assert_eq!(compile(sheet::LAYOUT, &mut plan), Answer::success(17));
    assert_eq!(plan, sheet::PLAN);
    assert!(is_plan(&plan));
    for &(record, values) in sheet::RECORDS {
        let (mut row, mut edited) = ([0; 2], [0; 8]);
        assert_eq!(plan_read(&plan, record, &mut row), Answer::success(2));
        assert_eq!(row, values);
        assert_eq!(plan_edit(&plan, values, &mut edited), Answer::success(8));
        assert_eq!(edited, record);
    }
    assert_eq!(plan_read(&plan, sheet::REFUSED_RECORD, &mut [0; 2]), refusal(10, 1));
}

#[test]
fn plan_of_a_punched_digit() {
    let mut plan = [0; 8];
    assert_eq!(compile(sheet::PUNCHED_LAYOUT, &mut plan), Answer::success(8));
    assert_eq!(plan, sheet::PUNCHED_PLAN);
    assert!(is_plan(&plan) && !is_plan(sheet::NO_PLAN));
}

#[test]
fn manual_examples() {
    let all = examples();
    assert_eq!(all.len(), 85);
    for (text, example) in all {
        let picture = Picture::of(text.as_bytes()).expect(text);
        match example {
            Example::Accept { n, i, f } => {
                assert_eq!((picture.n(), picture.i(), picture.f()), (n, i, f), "{text}");
            }
            Example::Edit { modes, m, q, field } => {
                assert_eq!(modes == Mode::BOTH, q <= picture.f() as u64, "{text} {m}@{q}");
                modes.iter().for_each(|&mode| edits_to(mode, text, m, q, field.as_deref().ok_or(8)));
            }
            Example::Read { field, value: Some((m, q)) } => {
                assert_eq!(read(text.as_bytes(), &field), Answer::value(m), "{text}");
                assert_eq!(picture.f(), q, "{text}");
            }
            Example::Read { field, value: None } => {
                assert_eq!(read(text.as_bytes(), &field), refusal(10, 0), "{text}")
            }
        }
    }
}

#[test]
fn stated_answers_are_the_own_answers() {
    for (case, reply) in stated().into_iter().chain(totals()) {
        assert_eq!(case.answer(), reply, "{}", second::judge::worded(&case));
    }
}
