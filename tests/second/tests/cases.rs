//! The cases that the program makes: repeatable, deep enough, and every refusal leaving the lent memory as it was.

use second::cases::{hex, unhex, Case, Reply};
use second::collector::numbers;
use second::layouts_and_plans::{pictures_of_plan, record_length};
use second::make::{case, random::Random, KINDS};
use second::rules_of_shape::Picture;
use second::text_to_symbols::{symbols_of, Symbol};
use second::value_to_field::Mode;
use std::collections::HashMap;

fn answered(kind: &str, seed: u64, count: usize) -> Vec<(Case, Reply)> {
    let mut random = Random::new(seed);
    let made = (0..count).map(|_| case(kind, &mut random).expect("a known kind"));
    made.map(|case| (case.clone(), case.answer())).collect()
}

/// The lent bytes that a successful call of this length may write. At the end of a batch no record is added.
fn written(case: &Case, length: usize) -> usize {
    match case {
        Case::Check { .. } => 0,
        Case::Read { .. } | Case::PlanRead { .. } => 8 * length,
        Case::TotalsAdd { .. } if length > 0 => 776,
        _ => length,
    }
}

#[test]
fn lent_memory_changes_only_where_it_may() {
    for (case, reply) in answered("all", 11, 20_000) {
        let length = (reply.packed / 65_536) as usize;
        let kept = if reply.number() == 0 { written(&case, length) } else { 0 };
        assert_eq!(reply.memory[kept..], case.lent()[kept..], "{}", case.line());
    }
}

#[test]
fn refusals_name_a_field_only_in_layouts_and_plans() {
    for (case, reply) in answered("all", 12, 20_000) {
        let (number, field, length) = (reply.number(), reply.packed / 256 % 256, reply.packed / 65_536);
        let single = matches!(case, Case::Check { .. } | Case::Edit { .. } | Case::Read { .. });
        let named = !single && matches!(number, 1..=6 | 8 | 10);
        assert_eq!(field > 0, named, "{}", case.line());
        let at_end = matches!(&case, Case::TotalsAdd { batch, place, .. } if *place == batch.len() as u64);
        assert!(field <= 32 && (length > 0) == (number == 0 && !at_end), "{}", case.line());
    }
}

#[test]
fn most_cases_reach_the_last_test() {
    let last: [(&str, &[u64]); 8] = [
        ("check", &[0, 4, 5]),
        ("edit", &[0, 7]),
        ("edit_cut", &[0, 7]),
        ("read", &[0, 10]),
        ("compile", &[0, 7]),
        ("plan_read", &[0, 10]),
        ("plan_edit", &[0, 7]),
        ("totals_add", &[0, 8]),
    ];
    for (kind, numbers) in last {
        let all = answered(kind, 13, 4_000);
        let deep = all.iter().filter(|(_, reply)| numbers.contains(&reply.number())).count();
        assert!(2 * deep > all.len(), "{kind}: {deep} of {}", all.len());
    }
}

#[test]
fn every_number_comes_back_in_every_call_that_has_it() {
    let numbers: [(&str, &[u64]); 8] = [
        ("check", &[0, 1, 2, 3, 4, 5]),
        ("edit", &[0, 1, 2, 3, 4, 5, 6, 7, 8]),
        ("edit_cut", &[0, 1, 2, 3, 4, 5, 6, 7, 8]),
        ("read", &[0, 1, 2, 3, 4, 5, 7, 9, 10]),
        ("compile", &[0, 1, 2, 3, 4, 5, 7, 11]),
        ("plan_read", &[0, 7, 9, 10, 12]),
        ("plan_edit", &[0, 6, 7, 8, 9, 12]),
        ("totals_add", &[0, 7, 8, 9, 10, 12, 14]),
    ];
    for (kind, expected) in numbers {
        let mut seen: Vec<u64> = answered(kind, 14, 4_000).iter().map(|(_, reply)| reply.number()).collect();
        seen.sort_unstable();
        seen.dedup();
        assert_eq!(seen, expected, "{kind}");
    }
}

/// The punched digit of a text's picture, if it has one.
fn punched(text: &[u8]) -> Option<Symbol> {
    Picture::of(text).ok()?.symbols.into_iter().find(|symbol| symbol.is_punched())
}

#[test]
fn many_cases_have_a_punched_digit_of_either_sign() {
    let (edits, reads) = (answered("edit", 18, 4_000), answered("read", 19, 4_000));
    for symbol in [Symbol::T, Symbol::I, Symbol::R] {
        let (mut edited, mut read) = ([0; 2], [0; 3]);
        for (case, reply) in edits.iter().chain(&reads) {
            match case {
                Case::Edit { text, m, .. } if punched(text) == Some(symbol) && reply.number() == 0 => {
                    edited[usize::from(*m < 0)] += 1;
                }
                Case::Read { text, .. } if punched(text) == Some(symbol) => match reply.number() {
                    0 => read[usize::from(numbers(&reply.memory)[0] < 0)] += 1,
                    _ => read[2] += 1,
                },
                _ => {}
            }
        }
        assert!(edited.iter().chain(&read).all(|&count| count > 40), "{symbol:?} {edited:?} {read:?}");
    }
}

/// What a field shows of the Bs of its picture: a blank behind asterisks and before all digits, one where all is suppressed under
/// asterisks, one behind the drifting character; or an asterisk or the drifting character at a B.
fn shown_of_bs(text: &[u8], field: &[u8]) -> [bool; 4] {
    let picture = Picture::of(text).expect("an accepted text");
    let drifting: &[u8] = match picture.drifting {
        Some(Symbol::Dollar) => b"$",
        Some(_) => b"+-",
        None => b"",
    };
    let symbols: Vec<Symbol> = picture.symbols.iter().flat_map(|&symbol| vec![symbol; symbol.width()]).collect();
    let (blank, other): (Vec<usize>, Vec<usize>) =
        (0..field.len()).filter(|&at| symbols[at] == Symbol::B).partition(|&at| field[at] == b' ');
    let bare = |part: &[u8]| part.contains(&b'*') && !part.iter().any(u8::is_ascii_alphanumeric);
    let drifts = |byte: &u8| drifting.contains(byte);
    [
        blank.iter().any(|&at| bare(&field[..at])),
        !blank.is_empty() && bare(field),
        blank.iter().any(|&at| field[..at].last().is_some_and(drifts)),
        other.iter().any(|&at| field[at] == b'*' || drifts(&field[at])),
    ]
}

#[test]
fn many_cases_hide_a_b() {
    let (mut edited, mut read, mut refused) = ([0; 4], [0; 4], [0; 4]);
    for (case, reply) in answered("edit", 25, 8_000).iter().chain(&answered("read", 26, 8_000)) {
        let (counts, shown) = match (case, reply.number()) {
            (Case::Edit { text, .. }, 0) => {
                (&mut edited, shown_of_bs(text, &reply.memory[..(reply.packed / 65_536) as usize]))
            }
            (Case::Read { text, field, .. }, 0) => (&mut read, shown_of_bs(text, field)),
            (Case::Read { text, field, .. }, 10) => (&mut refused, shown_of_bs(text, field)),
            _ => continue,
        };
        counts.iter_mut().zip(shown).for_each(|(count, shown)| *count += usize::from(shown));
    }
    let many = edited[..3].iter().chain(&read[..3]).all(|&count| count > 30) && refused[3] > 300;
    assert!(many && edited[3] == 0 && read[3] == 0, "{edited:?} {read:?} {refused:?}");
}

/// The values next beyond the range of M, and the ends of 64 bits.
const BEYOND: [i64; 6] = [
    1_000_000_000_000_000_000,
    1_000_000_000_000_000_001,
    -1_000_000_000_000_000_000,
    -1_000_000_000_000_000_001,
    i64::MAX,
    i64::MIN,
];

/// How many digits a number has; 0 has none.
fn digits(m: i64) -> usize {
    if m == 0 {
        0
    } else {
        m.unsigned_abs().to_string().len()
    }
}

#[test]
fn many_values_stand_at_the_limits() {
    let (mut by_digits, mut by_scale, mut largest) = ([0; 19], [0; 19], [0; 2]);
    let (mut beyond, mut scale_beyond) = ([0; BEYOND.len()], 0);
    for (case, reply) in answered("edit", 27, 20_000) {
        let Case::Edit { m, q, .. } = case else { panic!("another call: {}", case.line()) };
        match (reply.number(), BEYOND.iter().position(|&other| other == m)) {
            (0, _) => {
                by_digits[digits(m)] += 1;
                by_scale[q as usize] += 1;
                largest[usize::from(m < 0)] += usize::from(m.unsigned_abs() == 999_999_999_999_999_999);
            }
            (6, Some(k)) => beyond[k] += 1,
            (6, None) => scale_beyond += usize::from(q == 19),
            _ => {}
        }
    }
    let often = |counts: &[usize]| counts.iter().all(|&count| count > 40);
    assert!(often(&by_digits) && often(&by_scale), "{by_digits:?} {by_scale:?}");
    assert!(often(&largest) && often(&beyond) && scale_beyond > 40, "{largest:?} {beyond:?} {scale_beyond}");
    assert!(by_digits[18] > 400 && by_scale[18] > 400, "{by_digits:?} {by_scale:?}");
}

/// A value that has a field by the cut, of more places than its picture: what the cut keeps of it, what goes, and both replies.
struct Fraction {
    picture: Picture,
    negative: bool,
    kept: i64,
    /// How many places go, and what stands in them.
    places: u32,
    gone: i64,
    rounded: Reply,
    cut: Reply,
}

/// None for another case.
fn fraction(case: &Case) -> Option<Fraction> {
    let Case::Edit { text, m, q, out, .. } = case else { panic!("another call: {}", case.line()) };
    let picture = Picture::of(text).ok()?;
    let reply = |mode| Case::Edit { mode, text: text.clone(), m: *m, q: *q, out: out.clone() }.answer();
    let (rounded, cut) = (reply(Mode::Rounding), reply(Mode::Cut));
    let places = q.checked_sub(picture.f() as u64).filter(|&places| places > 0 && cut.number() == 0)? as u32;
    let (kept, gone) = (m.abs() / 10i64.pow(places), m.abs() % 10i64.pow(places));
    Some(Fraction { picture, negative: *m < 0, kept, places, gone, rounded, cut })
}

fn said_of_halves(t: &Fraction) -> Said {
    let half = 10i64.pow(t.places) / 2;
    let refused = t.rounded.number() == 8;
    vec![
        ("a half goes and is one more", t.gone == half && !refused),
        ("next below a half goes", t.gone == half - 1),
        ("next below a half goes, of several places", t.gone == half - 1 && t.places > 3),
        ("next above a half goes, of several places", t.gone == half + 1 && t.places > 3 && !refused),
        ("the most goes", t.gone == 2 * half - 1 && !refused),
        ("nothing goes", t.gone == 0),
        ("a half goes of a value of 18 digits", t.gone == half && digits(t.kept * 2 * half) == 18 && !refused),
        ("all 18 places go", t.places == 18 && t.gone >= half),
    ]
}

fn said_of_carries(t: &Fraction) -> Said {
    let (refused, goes_up) = (t.rounded.number() == 8, t.gone >= 10i64.pow(t.places) / 2);
    let (longer, held) = (digits(t.kept + 1) > digits(t.kept), digits(t.kept) == t.picture.digits.len());
    let nines = t.kept % 100 == 99;
    vec![
        ("a carry through nines", goes_up && nines && !longer && !refused),
        ("a carry through nines to one more digit", goes_up && nines && longer && !refused),
        ("a carry to more digits than there are", goes_up && longer && held && refused),
        ("nines stay nines", !goes_up && nines && longer && held && !refused),
    ]
}

fn said_of_signs(t: &Fraction) -> Said {
    let (refused, goes_up) = (t.rounded.number() == 8, t.gone >= 10i64.pow(t.places) / 2);
    let (signed, from_zero) = (t.picture.signed(), t.kept == 0 && t.gone > 0);
    let hides = t.picture.every_digit_suppressible();
    vec![
        ("a negative becomes zero without a sign", t.negative && from_zero && !goes_up && !signed && !refused),
        ("a negative becomes zero under a sign", t.negative && from_zero && !goes_up && signed && !refused),
        ("a negative becomes -1 without a sign", t.negative && from_zero && goes_up && !signed && refused),
        ("a negative becomes -1 under a sign", t.negative && from_zero && goes_up && signed && !refused),
        ("a negative becomes less than -1", t.negative && !from_zero && goes_up && !refused),
        ("all stays hidden", hides && from_zero && !goes_up && !refused),
        ("all is hidden by the cut alone", hides && from_zero && goes_up && !refused),
    ]
}

#[test]
fn many_values_round() {
    let (mut counts, mut by_places): (HashMap<&str, usize>, _) = (HashMap::new(), [0; 19]);
    let (mut differ, mut too_large) = (0, 0);
    for (case, _) in answered("edit", 33, 20_000) {
        let Some(tried) = fraction(&case) else {
            continue;
        };
        for said in [said_of_halves, said_of_carries, said_of_signs] {
            said(&tried).into_iter().for_each(|(what, is_so)| *counts.entry(what).or_insert(0) += usize::from(is_so));
        }
        by_places[tried.places as usize] += usize::from(tried.rounded.number() == 0 && tried.rounded != tried.cut);
        differ += usize::from(tried.rounded != tried.cut);
        too_large += usize::from(tried.rounded.number() == 8);
    }
    counts.iter().for_each(|(what, &count)| assert!(count > 40, "{what}: {count}"));
    assert!(by_places[1..].iter().all(|&count| count > 40), "{by_places:?}");
    assert!((3_000..6_000).contains(&differ) && too_large > 600, "{differ} {too_large}");
}

/// How many digits the symbols of a text have.
fn digits_in(text: &[u8]) -> usize {
    let symbols = symbols_of(text).unwrap_or_default();
    let times = |of: &[Symbol]| symbols.iter().filter(|symbol| of.contains(symbol)).count();
    let drifting = [Symbol::S, Symbol::Plus, Symbol::Minus, Symbol::Dollar].map(|symbol| times(&[symbol]));
    let fixed = times(&[Symbol::Nine, Symbol::Z, Symbol::Star, Symbol::T, Symbol::I, Symbol::R]);
    fixed + drifting.iter().map(|times| times.saturating_sub(1)).sum::<usize>()
}

#[test]
fn many_pictures_stand_at_the_limits() {
    let (mut accepted, mut refused) = ([0; 20], [0; 20]);
    for (case, reply) in answered("check", 28, 8_000) {
        let Case::Check { text } = case else { panic!("another call: {}", case.line()) };
        match reply.number() {
            0 => accepted[digits_in(&text)] += 1,
            5 => refused[digits_in(&text).min(19)] += 1,
            _ => {}
        }
    }
    let often = accepted[1..19].iter().all(|&count| count > 40) && accepted[18] > 200 && refused[19] > 200;
    let rightly = accepted[0] + accepted[19] + refused[1..19].iter().sum::<usize>() == 0;
    assert!(often && rightly, "{accepted:?} {refused:?}");
}

#[test]
fn many_rows_stand_at_the_limits() {
    let (mut read, mut edited, mut beyond) = ([0; 19], [0; 19], [0; BEYOND.len()]);
    for (case, reply) in answered("layout", 29, 12_000) {
        match (&case, reply.number()) {
            (Case::PlanRead { plan, .. }, 0) => {
                numbers(&reply.memory)[..usize::from(plan[0])].iter().for_each(|&m| read[digits(m)] += 1);
            }
            (Case::PlanEdit { row, .. }, 0) => numbers(row).iter().for_each(|&m| edited[digits(m)] += 1),
            (Case::PlanEdit { row, .. }, 6) => {
                let refused = numbers(row)[(reply.packed / 256 % 256) as usize - 1];
                BEYOND.iter().position(|&other| other == refused).into_iter().for_each(|k| beyond[k] += 1);
            }
            _ => {}
        }
    }
    let many = read.iter().chain(&edited).chain(&beyond).all(|&count| count > 20);
    assert!(many && read[18] > 100 && edited[18] > 100, "{read:?} {edited:?} {beyond:?}");
}

#[test]
fn many_plans_stand_at_the_limits() {
    let (mut run, mut refused) = ([0; 20], [0; 20]);
    for (case, reply) in answered("layout", 30, 12_000) {
        if let Case::PlanRead { plan, .. } | Case::PlanEdit { plan, .. } = &case {
            if let [1, _, _, _, 0, _, positions @ ..] = &plan[..] {
                let digits = positions.iter().filter(|role| matches!(role, 0 | 1 | 15..=17)).count();
                (if reply.number() == 12 { &mut refused } else { &mut run })[digits.min(19)] += 1;
            }
        }
    }
    let many = run[16] > 10 && run[17] > 20 && run[18] > 40 && refused[19] > 5;
    assert!(many && run[19] == 0, "{run:?} {refused:?}");
}

#[test]
fn plans_with_every_byte_are_run_and_refused() {
    let cases = answered("layout", 20, 12_000);
    for byte in 0..=18 {
        let (mut run, mut refused) = (0, 0);
        for (case, reply) in &cases {
            if let Case::PlanRead { plan, .. } | Case::PlanEdit { plan, .. } = case {
                let positions = plan.get(3 * usize::from(plan.first().copied().unwrap_or(0)) + 3..).unwrap_or(&[]);
                if positions.contains(&byte) {
                    *(if reply.number() == 12 { &mut refused } else { &mut run }) += 1;
                }
            }
        }
        let run_rightly = if byte == 18 { run == 0 } else { run > 100 };
        assert!(run_rightly && refused > 5, "{byte}: {run} run, {refused} refused");
    }
}

/// An addition that was tried: lengths, place, the run's numbers before and behind, and the answer.
struct Tried {
    batch: u64,
    record: u64,
    place: u64,
    run: usize,
    before: Vec<i64>,
    after: Vec<i64>,
    number: u64,
    field: usize,
    fields_read: u64,
}

/// None for bytes that are no plan.
fn tried(case: &Case, reply: &Reply) -> Option<Tried> {
    let Case::TotalsAdd { plan, batch, place, sheet } = case else { panic!("another call: {}", case.line()) };
    let pictures = pictures_of_plan(plan)?;
    Some(Tried {
        batch: batch.len() as u64,
        record: record_length(&pictures) as u64,
        place: *place,
        run: sheet.len(),
        before: numbers(sheet),
        after: numbers(&reply.memory),
        number: reply.number(),
        field: (reply.packed / 256 % 256) as usize,
        fields_read: reply.packed / 65_536,
    })
}

/// What there is to say of an addition; a sentence, and whether it is true.
type Said = Vec<(&'static str, bool)>;

fn said_of_count(t: &Tried) -> Said {
    let count = t.before.first().copied().unwrap_or(0);
    vec![
        ("a sheet takes its first record", t.fields_read > 0 && count == 0),
        ("a sheet takes its last record", t.fields_read > 0 && count == 8_999),
        ("a sheet has 9,000 records", t.number == 14 && count == 9_000),
        ("a sheet has a count of many records", t.number == 14 && count == 1 << 32),
        ("a sheet has a negative count", t.number == 14 && count < 0),
    ]
}

fn said_of_sums(t: &Tried) -> Said {
    let limit = 1_000_000_000_000_000_000u64;
    let sum = |field: usize| t.before[field];
    let refused = |may: &dyn Fn(i64) -> bool| t.number == 8 && may(sum(t.field));
    let read = 1 + t.fields_read as usize;
    let beyond = |sums: &[i64]| sums.iter().any(|sum| sum.unsigned_abs() >= limit);
    let becomes = |sum: i64| t.fields_read > 0 && t.after[1..read].contains(&sum);
    vec![
        ("a sum becomes the largest", becomes(999_999_999_999_999_999)),
        ("a sum becomes the smallest", becomes(-999_999_999_999_999_999)),
        ("a sum would become too large", refused(&|sum| sum > 0 && sum.unsigned_abs() < limit)),
        ("a sum would become too small", refused(&|sum| sum < 0 && sum.unsigned_abs() < limit)),
        ("a sum handed in is one too large", refused(&|sum| sum == 1_000_000_000_000_000_000)),
        ("a sum handed in is one too small", refused(&|sum| sum == -1_000_000_000_000_000_000)),
        ("a sum handed in is at an end of 64 bits", refused(&|sum| sum == i64::MIN || sum == i64::MAX)),
        ("a sum without a field isn't judged", t.fields_read > 0 && beyond(&t.before[read..33])),
        ("a sum isn't judged at the end", t.number == 0 && t.fields_read == 0 && beyond(&t.before[1..33])),
        ("a bad field goes before a sum", t.number == 10 && beyond(&t.before[1..33])),
    ]
}

fn said_of_places(t: &Tried) -> Said {
    let whole = t.batch.is_multiple_of(t.record);
    let start = t.place.is_multiple_of(t.record);
    let refused = t.number == 9 && t.batch <= 65_536;
    vec![
        ("a record is the last", t.fields_read > 0 && t.place + t.record == t.batch),
        (
            "a record is neither the first nor the last",
            t.fields_read > 0 && t.place > 0 && t.place + t.record < t.batch,
        ),
        ("a batch is at its end", t.number == 0 && t.batch > 0 && t.place == t.batch),
        ("a batch is empty", t.number == 0 && t.batch == 0),
        ("a batch isn't of whole records", refused && !whole && start && t.place < t.batch),
        ("a place is within a record", refused && whole && !start && t.place < t.batch),
        ("a place is past the end", refused && whole && start && t.place > t.batch),
        ("a place is far behind", refused && whole && t.place >= 1 << 32),
    ]
}

fn said_of_lengths(t: &Tried) -> Said {
    let right = t.batch.is_multiple_of(t.record) && t.place.is_multiple_of(t.record) && t.place <= t.batch;
    vec![
        ("a batch is as long as may be", t.fields_read > 0 && t.batch == 65_536),
        ("a batch is too long and right otherwise", t.number == 9 && right && t.batch > 65_536),
        ("a run is empty", t.number == 7 && t.run == 0),
        ("a run lacks a byte", t.number == 7 && t.run == 775),
        ("a run has just room", t.fields_read > 0 && t.run == 776),
        ("a run has a byte more", t.fields_read > 0 && t.run == 777),
    ]
}

#[test]
fn many_totals_stand_at_the_limits() {
    let mut counts: HashMap<&str, usize> = HashMap::new();
    for (case, reply) in answered("totals_add", 32, 20_000) {
        let Some(tried) = tried(&case, &reply) else {
            continue;
        };
        for said in [said_of_count, said_of_sums, said_of_places, said_of_lengths] {
            said(&tried).into_iter().for_each(|(what, is_so)| *counts.entry(what).or_insert(0) += usize::from(is_so));
        }
    }
    for (what, count) in counts {
        let long = matches!(what, "a batch is as long as may be" | "a batch is too long and right otherwise");
        assert!(count > if long { 5 } else { 40 }, "{what}: {count}");
    }
}

#[test]
fn a_seed_names_its_cases() {
    for kind in KINDS {
        assert_eq!(answered(kind, 15, 50), answered(kind, 15, 50));
        assert_ne!(answered(kind, 15, 50), answered(kind, 16, 50));
    }
    assert_eq!(case("other", &mut Random::new(1)), None);
}

#[test]
fn lines_are_read_back() {
    for (case, reply) in answered("all", 17, 5_000) {
        assert_eq!(Case::parse(&case.line()), Some(case));
        assert_eq!(Reply::parse(&reply.line()), Some(reply));
    }
    let editing = |mode| Case::Edit { mode, text: b"Z9".to_vec(), m: -5, q: 2, out: Vec::new() };
    assert_eq!(editing(Mode::Rounding).line(), "edit 5a39 -5 2 -");
    assert_eq!(editing(Mode::Cut).line(), "edit_cut 5a39 -5 2 -");
    let adding = Case::TotalsAdd { plan: vec![1], batch: Vec::new(), place: u64::MAX, sheet: vec![255] };
    assert_eq!(adding.line(), "totals_add 01 - 18446744073709551615 ff");
    let calls = ["", "check", "check ", "check 5", "check 5A", "check 39 ", "edit 39 1 -1 -", "edit 39 1 1", "list 39"];
    let others = ["edit_cut 39 1 1", "edit_round 39 1 1 -", "totals_add 01 - -1 ff", "totals_add 01 - ff"];
    for line in calls.into_iter().chain(others) {
        assert_eq!(Case::parse(line), None, "{line}");
    }
    assert_eq!((hex(&[]), hex(&[0, 255])), ("-".to_string(), "00ff".to_string()));
    assert_eq!((unhex("-"), unhex("00ff"), unhex("")), (Some(vec![]), Some(vec![0, 255]), None));
}
