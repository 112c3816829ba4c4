//! The examples of the rules and of the manuals, with the answers stated there. Those of single pictures are tried by layouts of
//! one.

use crate::{lent, reply, same};
use second::cases::Case;
use second::layouts_and_plans::plan_of;
use second::rules_of_shape::Picture;
use second::sheet_of_examples::stated;

#[test]
fn examples() {
    let mut tried = 0;
    for (case, expected) in stated() {
        let Some(by_layout) = by_layout(&case) else {
            continue;
        };
        let given = reply(&by_layout).expect("a call on layouts");
        assert_eq!(given.number(), expected.number(), "{}", second::judge::worded(&case));
        if !matches!(case, Case::Check { .. }) {
            assert_eq!(given.memory, expected.memory, "{}", second::judge::worded(&case));
        }
        tried += 1;
    }
    assert!(tried > 50, "{tried}");
}

/// What GnuCOBOL reads or edits without a word, as docs/SPEED.md says: CONVERSION or SIZE here.
#[test]
fn what_cobol_takes() {
    let plan = |text: &str| plan_of(&[Picture::of(text.as_bytes()).expect("an accepted picture")]);
    let fields = [("ZZ9", vec!["   ", "ABC", "1 2", "1A2", "007", "-12"]), ("ZZ9V.99", vec![" 12 34"])];
    for (text, field) in fields.iter().flat_map(|(text, fields)| fields.iter().map(move |field| (text, field))) {
        let number = same(&Case::PlanRead { plan: plan(text), record: (*field).into(), row: lent(8) });
        assert_eq!(number, 10, "{field}");
    }
    for m in [1234i64, -5] {
        assert_eq!(same(&Case::PlanEdit { plan: plan("ZZ9"), row: m.to_le_bytes().into(), record: lent(3) }), 8, "{m}");
    }
}

/// The case on a layout; None where a value is stated at another scale than that of its field.
fn by_layout(case: &Case) -> Option<Case> {
    let picture = |text: &[u8]| Picture::of(text).expect("an accepted picture");
    Some(match case.clone() {
        Case::Check { text } => Case::Compile { layout: [&text[..], b";"].concat(), plan: lent(80) },
        Case::Edit { text, m, q, out, .. } => {
            let picture = picture(&text);
            if picture.f() as u64 != q {
                return None;
            }
            Case::PlanEdit { plan: plan_of(&[picture]), row: m.to_le_bytes().into(), record: out }
        }
        Case::Read { text, field, row } => Case::PlanRead { plan: plan_of(&[picture(&text)]), record: field, row },
        on_layouts => on_layouts,
    })
}
