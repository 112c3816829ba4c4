//! Fields of every number of digits, by values of every length.

use crate::{lent, reply, same};
use second::cases::Case;
use second::is_plan;
use second::layouts_and_plans::plan_of;
use second::make::random::Random;
use second::rules_of_shape::Picture;

const MOST_DIGITS: usize = Picture::MOST_DIGITS;
const LIMIT: u64 = 10u64.pow(MOST_DIGITS as u32);

/// Pictures of one symbol with V in every place, to two digits more than there may be.
#[test]
fn texts() {
    for (symbol, digits) in
        "9Z*S+-$".chars().flat_map(|symbol| (1..=MOST_DIGITS + 2).map(move |digits| (symbol, digits)))
    {
        let all = digits + usize::from("S+-$".contains(symbol));
        for v in all - digits..=all {
            let mut text = symbol.to_string().repeat(all);
            text.insert(v, 'V');
            let number = same(&Case::Compile { layout: (text + ";").into_bytes(), plan: lent(80) });
            assert_eq!(number, if digits > MOST_DIGITS { 5 } else { 0 }, "{digits} of {symbol}");
        }
    }
}

/// The plans that would be theirs.
#[test]
fn plans() {
    for (kind, digits) in (0..=6).flat_map(|kind| (1..=MOST_DIGITS + 2).map(move |digits| (kind, digits))) {
        let first: &[u8] = if kind < 3 { &[] } else { &[2] };
        let roles = [first, &vec![u8::from(kind != 0); digits]].concat();
        let n = roles.len() as u8;
        for v in first.len() as u8..=n {
            let plan = [&[1, n, v, kind, 0, n], &roles[..]].concat();
            assert_eq!(is_plan(&plan), digits <= MOST_DIGITS, "{plan:?}");
            let number = if digits > MOST_DIGITS { 12 } else { 9 };
            assert_eq!(same(&Case::PlanEdit { plan: plan.clone(), row: vec![], record: lent(80) }), number);
            assert_eq!(same(&Case::PlanRead { plan: plan.clone(), record: vec![], row: lent(8) }), number);
            // only with a record of its length is a plan judged while that is read
            let number = if digits > MOST_DIGITS { 12 } else { 0 };
            let drift: &[u8] = &b"   ++ $"[usize::from(kind)..][..first.len()];
            let record = [drift, &vec![b'1'; digits]].concat();
            assert_eq!(same(&Case::PlanRead { plan, record, row: lent(8) }), number);
        }
    }
}

/// Every value edited, and what comes of it read.
#[test]
fn values() {
    let mut random = Random::new(4);
    for digits in 1..=MOST_DIGITS {
        let values = values_to(digits, &mut random);
        for text in signed(digits) {
            let plan = plan_of(&[Picture::of(text.as_bytes()).expect("an accepted picture")]);
            for &m in &values {
                let number = match m.unsigned_abs() {
                    LIMIT.. => 6,
                    t if t >= 10u64.pow(digits as u32) => 8,
                    _ => 0,
                };
                assert_eq!(edited_and_read(&plan, m), number, "{text} {m}");
            }
        }
    }
}

/// The number of editing by a plan of one field; a field that comes of it is read.
fn edited_and_read(plan: &[u8], m: i64) -> u64 {
    let edit = Case::PlanEdit { plan: plan.into(), row: m.to_le_bytes().into(), record: lent(plan.len() - 6) };
    let number = same(&edit);
    if number == 0 {
        let record = reply(&edit).expect("a call on layouts").memory;
        assert_eq!(same(&Case::PlanRead { plan: plan.into(), record, row: lent(8) }), 0, "{m}");
    }
    number
}

/// Digits that stand under insertions make the sum wrap, here to 0 and to 1. No value has such a field.
#[test]
fn sums_that_wrap() {
    for (text, field) in [
        (",,(18)9", "99446744073709551616"),
        (",,(18)9", "99446744073709551617"),
        ("BB(18)9", "99446744073709551616"),
        (",,(18)Z", "99446744073709551616"),
        (",,(18)*", "99446744073709551617"),
        ("//(17)9T", "9944674407370955161F"),
        ("//(17)9T", "9944674407370955161O"),
    ] {
        let plan = plan_of(&[Picture::of(text.as_bytes()).expect("an accepted picture")]);
        assert_eq!(same(&Case::PlanRead { plan, record: field.into(), row: lent(8) }), 10, "{text}");
    }
}

/// Signed pictures of so many digits: each number of them suppressible, with a B and without, and each of them punched.
fn signed(digits: usize) -> Vec<String> {
    let mut texts = vec![format!("S({digits})9")];
    for suppressible in 1..=digits {
        let nines = "9".repeat(digits - suppressible);
        for (symbol, first, sign) in
            [("Z", 0, "CR"), ("*", 0, "DB"), ("S", 1, ""), ("+", 1, ""), ("-", 1, ""), ("$", 1, "S")]
        {
            let drift = symbol.repeat(first + suppressible);
            texts.extend(["", "B"].map(|blank| format!("{drift}{nines}{blank}{sign}")));
        }
        let before = "9".repeat(suppressible - 1);
        texts.extend(["T", "I", "R"].map(|punched| format!("{before}{punched}{nines}")));
    }
    texts
}

/// Values beside each power of ten up to that of so many digits, one below it by chance, and the edges of all.
fn values_to(digits: usize, random: &mut Random) -> Vec<i64> {
    let mut values = vec![i64::MAX, i64::MIN];
    for k in (0..=digits).chain([MOST_DIGITS]) {
        let power = 10i64.pow(k as u32);
        values.extend([power - 1, 1 - power, power, -power - 1, random.number() as i64 % power]);
    }
    values
}
