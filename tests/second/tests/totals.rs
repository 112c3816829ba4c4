//! Totals: the sheet after one addition and after many, the refusals and their order, and the walker.

use second::cases::Case;
use second::collector::{bytes, compile, numbers, totals_add};
use second::layouts_and_plans::{pictures_of_plan, record_length, values_of};
use second::make::{self, random::Random};
use second::sheet_of_examples::{BATCH, NO_PLAN, PLAN};
use second::totals::{History, Sheet, Walker};
use second::Refusal;

const ROOM: u64 = 7;
const SIZE: u64 = 8;
const LENGTH: u64 = 9;
const CONVERSION: u64 = 10;
const NOT_A_PLAN: u64 = 12;
const FULL: u64 = 14;

/// A successful addition of two fields.
const TWO_READ: u64 = 65_536 * 2;
const LARGEST: i64 = 999_999_999_999_999_999;

/// A sheet's bytes: the count, and the sums, the least and the greatest with zeros up to 32 of each.
fn sheet(count: i64, sums: &[i64], least: &[i64], greatest: &[i64]) -> Vec<u8> {
    let part = |numbers: &[i64]| [numbers, &vec![0; 32 - numbers.len()]].concat();
    bytes(&[vec![count], part(sums), part(least), part(greatest)].concat())
}

fn sums(sums: &[i64]) -> Vec<u8> {
    sheet(1, sums, &[], &[])
}

fn plan_of(layout: &[u8]) -> Vec<u8> {
    let mut plan = vec![0; 2_147];
    let answer = compile(layout, &mut plan);
    assert_eq!(answer % 65_536, 0);
    plan.truncate((answer / 65_536) as usize);
    plan
}

/// The addition gives this answer, and the run is this behind it.
fn adds(plan: &[u8], batch: &[u8], place: u64, before: &[u8], answer: u64, after: &[u8]) {
    let mut run = before.to_vec();
    let given = totals_add(plan, batch, place, &mut run);
    assert_eq!((given, &run[..]), (answer, after), "{} of {} bytes", place, batch.len());
}

fn refuses(plan: &[u8], batch: &[u8], place: u64, run: &[u8], answer: u64) {
    adds(plan, batch, place, run, answer, run);
}

#[test]
fn the_records_of_the_listing() {
    let none = vec![0; 776];
    let one = sheet(1, &[1_234, -7], &[1_234, -7], &[1_234, -7]);
    let two = sheet(2, &[1_934, 1], &[700, -7], &[1_234, 8]);
    adds(PLAN, BATCH, 0, &none, TWO_READ, &one);
    adds(PLAN, BATCH, 8, &one, TWO_READ, &two);
    refuses(PLAN, BATCH, 16, &two, CONVERSION + 256);
    adds(PLAN, BATCH, 24, &two, 0, &two);
    adds(PLAN, BATCH, 8, &none, TWO_READ, &sheet(1, &[700, 8], &[700, 8], &[700, 8]));
}

#[test]
fn where_the_numbers_of_a_sheet_stand() {
    let mut run = [0; 780];
    assert_eq!(totals_add(PLAN, BATCH, 0, &mut run), TWO_READ);
    let mut expected = [0; 780];
    expected[0] = 1;
    for part in [8, 264, 520] {
        expected[part..part + 16].copy_from_slice(&[210, 4, 0, 0, 0, 0, 0, 0, 249, 255, 255, 255, 255, 255, 255, 255]);
    }
    assert_eq!(run, expected);
}

#[test]
fn the_first_record_sets_least_and_greatest() {
    let handed_in = sheet(0, &[0, 0], &[-9_000, -9_000], &[9_000, 9_000]);
    adds(PLAN, BATCH, 0, &handed_in, TWO_READ, &sheet(1, &[1_234, -7], &[1_234, -7], &[1_234, -7]));
    let with_sums = sheet(0, &[100, -100], &[0, 0], &[0, 0]);
    adds(PLAN, BATCH, 0, &with_sums, TWO_READ, &sheet(1, &[1_334, -107], &[1_234, -7], &[1_234, -7]));
    let second = sheet(1, &[0, 0], &[0, 0], &[0, 0]);
    adds(PLAN, BATCH, 0, &second, TWO_READ, &sheet(2, &[1_234, -7], &[0, -7], &[1_234, 0]));
    let crossed = sheet(1, &[0, 0], &[i64::MAX, i64::MAX], &[i64::MIN, i64::MIN]);
    adds(PLAN, BATCH, 0, &crossed, TWO_READ, &sheet(2, &[1_234, -7], &[1_234, -7], &[1_234, -7]));
    let wide = sheet(1, &[0, 0], &[i64::MIN, i64::MIN], &[i64::MAX, i64::MAX]);
    adds(PLAN, BATCH, 0, &wide, TWO_READ, &sheet(2, &[1_234, -7], &[i64::MIN, i64::MIN], &[i64::MAX, i64::MAX]));
}

#[test]
fn places() {
    let none = vec![0; 776];
    for place in (0..30).chain([1 << 32, (1 << 32) + 8, 1 << 63, u64::MAX - 7, u64::MAX]) {
        let mut run = none.clone();
        let answer = totals_add(PLAN, BATCH, place, &mut run);
        let expected = match place {
            0 | 8 => TWO_READ,
            16 => CONVERSION + 256,
            24 => 0,
            _ => LENGTH,
        };
        assert_eq!((answer, run == none), (expected, expected != TWO_READ), "{place}");
    }
    adds(PLAN, b"", 0, &none, 0, &none);
    refuses(PLAN, b"", 8, &none, LENGTH);
}

#[test]
fn lengths_of_batches() {
    let none = vec![0; 776];
    let records = b"  7.00 8".repeat(8_200);
    let one = sheet(1, &[700, 8], &[700, 8], &[700, 8]);
    for length in (0..=24).chain(65_500..=65_600) {
        let batch = &records[..length];
        match length {
            0 => adds(PLAN, batch, 0, &none, 0, &none),
            _ if length % 8 == 0 && length <= 65_536 => {
                adds(PLAN, batch, 0, &none, TWO_READ, &one);
                adds(PLAN, batch, length as u64 - 8, &none, TWO_READ, &one);
                adds(PLAN, batch, length as u64, &none, 0, &none);
            }
            _ => refuses(PLAN, batch, 0, &none, LENGTH),
        }
    }
    let single = plan_of(b"9;");
    adds(&single, &[b'7'; 65_536], 65_535, &none, 65_536, &sheet(1, &[7], &[7], &[7]));
    refuses(&single, &[b'7'; 65_537], 65_535, &none, LENGTH);
}

#[test]
fn counts() {
    for count in [0, 1, 255, 256, 8_998, 8_999] {
        let mut run = sheet(count, &[], &[], &[]);
        assert_eq!(totals_add(PLAN, BATCH, 0, &mut run), TWO_READ);
        assert_eq!(numbers(&run)[0], count + 1);
    }
    for count in [9_000, 9_001, 65_536, 1 << 32, i64::MAX, i64::MIN, -1, -9_000] {
        let run = sheet(count, &[], &[], &[]);
        for (batch, place) in [(BATCH, 0), (BATCH, 24), (&b""[..], 0), (BATCH, 7), (&BATCH[..7], 0)] {
            refuses(PLAN, batch, place, &run, FULL);
        }
    }
}

#[test]
fn sums_at_the_limit() {
    let becomes = |before: [i64; 2], after: [i64; 2]| {
        let mut run = sums(&before);
        assert_eq!(totals_add(PLAN, BATCH, 0, &mut run), TWO_READ, "{before:?}");
        assert_eq!(numbers(&run)[1..3], after);
    };
    becomes([LARGEST - 1_234, 0], [LARGEST, -7]);
    becomes([-LARGEST, LARGEST], [1_234 - LARGEST, LARGEST - 7]);
    becomes([0, 7 - LARGEST], [1_234, -LARGEST]);
    let beyond = [LARGEST + 1, -LARGEST - 1, i64::MAX, i64::MAX - 1_234, i64::MIN, i64::MIN + 7];
    for sum in [LARGEST - 1_233, LARGEST].into_iter().chain(beyond) {
        refuses(PLAN, BATCH, 0, &sums(&[sum, 0]), SIZE + 256);
        refuses(PLAN, BATCH, 0, &sums(&[sum, i64::MIN]), SIZE + 256);
    }
    for sum in [6 - LARGEST, -LARGEST].into_iter().chain(beyond) {
        refuses(PLAN, BATCH, 0, &sums(&[0, sum]), SIZE + 512);
    }
    for sum in beyond {
        adds(PLAN, BATCH, 24, &sums(&[sum, sum]), 0, &sums(&[sum, sum]));
    }
}

#[test]
fn two_records_reach_the_limit() {
    let plan = plan_of(b"S(18)9;");
    let batch = b"+999999999999999999+000000000000000001-999999999999999999-999999999999999999-000000000000000001";
    let none = vec![0; 776];
    let largest = sheet(1, &[LARGEST], &[LARGEST], &[LARGEST]);
    let cancelled = sheet(2, &[0], &[-LARGEST], &[LARGEST]);
    let smallest = sheet(3, &[-LARGEST], &[-LARGEST], &[LARGEST]);
    adds(&plan, batch, 0, &none, 65_536, &largest);
    refuses(&plan, batch, 0, &largest, SIZE + 256);
    refuses(&plan, batch, 19, &largest, SIZE + 256);
    adds(&plan, batch, 38, &largest, 65_536, &cancelled);
    adds(&plan, batch, 57, &cancelled, 65_536, &smallest);
    refuses(&plan, batch, 76, &smallest, SIZE + 256);
}

#[test]
fn places_without_a_field_stay() {
    let others = [i64::MAX, i64::MIN, LARGEST + 1, 5];
    let before = sheet(1, &[&[0, 0], &others[..]].concat(), &[&[0, 0], &others[..]].concat(), &[0; 32]);
    let after = sheet(2, &[&[1_234, -7], &others[..]].concat(), &[&[0, -7], &others[..]].concat(), &[1_234]);
    adds(PLAN, BATCH, 0, &before, TWO_READ, &after);
    let plan = plan_of(&b"9;".repeat(32));
    let values: Vec<i64> = (0..32).map(|k| k % 10).collect();
    let record: Vec<u8> = values.iter().map(|&m| b'0' + m as u8).collect();
    adds(&plan, &record, 0, &[0; 776], 65_536 * 32, &sheet(1, &values, &values, &values));
    let at_the_limit = [&[0; 31], &[LARGEST][..]].concat();
    refuses(&plan, &record, 0, &sums(&at_the_limit), SIZE + 256 * 32);
}

#[test]
fn lengths_of_runs() {
    for length in (0..=16).chain(768..=800) {
        let mut run = vec![0; length];
        run.iter_mut().skip(776).for_each(|byte| *byte = 0xee);
        let mut expected = run.clone();
        if length < 776 {
            refuses(PLAN, BATCH, 0, &run, ROOM);
        } else {
            expected[..776].copy_from_slice(&sheet(1, &[1_234, -7], &[1_234, -7], &[1_234, -7]));
            adds(PLAN, BATCH, 0, &run, TWO_READ, &expected);
        }
    }
}

/// Every set of faults is refused for the first of them.
#[test]
fn the_order_of_refusals() {
    let order = [NOT_A_PLAN, ROOM, FULL, LENGTH, CONVERSION + 512, SIZE + 256];
    for faults in 0..64u8 {
        let has = |k: usize| faults >> k & 1 == 1;
        let plan = if has(0) { NO_PLAN } else { PLAN };
        let count = if has(2) { 9_000 } else { 1 };
        let mut batch = if has(4) { b" 12.34_7".to_vec() } else { b" 12.34-7".to_vec() };
        batch.extend(if has(3) { &b" "[..] } else { b"" });
        let sum = if has(5) { LARGEST } else { 0 };
        let mut run = sheet(count, &[sum], &[], &[]);
        run.truncate(if has(1) { 775 } else { 776 });
        let expected = (0..6).find(|&k| has(k)).map_or(TWO_READ, |k| order[k]);
        let before = run.clone();
        assert_eq!(totals_add(plan, &batch, 0, &mut run), expected, "{faults:b}");
        assert_eq!(run == before, faults != 0, "{faults:b}");
    }
}

/// LENGTH by the place alone is judged where LENGTH by the batch is.
#[test]
fn a_bad_place_goes_before_bad_records() {
    refuses(PLAN, BATCH, 17, &sums(&[LARGEST]), LENGTH);
    refuses(PLAN, BATCH, 7, &sheet(9_000, &[], &[], &[]), FULL);
    refuses(PLAN, BATCH, 7, &[0; 775], ROOM);
    refuses(NO_PLAN, BATCH, 7, &[0; 776], NOT_A_PLAN);
    refuses(&[], &[], 0, &[], NOT_A_PLAN);
}

#[test]
fn the_first_field_is_named() {
    let plan = plan_of(b"9;9;9;");
    for (record, sums_in, answer) in [
        (b"1x2", [0, 0, 0], CONVERSION + 512),
        (b"xxx", [LARGEST; 3], CONVERSION + 256),
        (b"11x", [LARGEST; 3], CONVERSION + 256 * 3),
        (b"111", [0, LARGEST, LARGEST], SIZE + 512),
        (b"010", [LARGEST, LARGEST - 1, -LARGEST - 1], SIZE + 256 * 3),
    ] {
        refuses(&plan, record, 0, &sums(&sums_in), answer);
    }
}

#[test]
fn the_walker_hands_all_records_over() {
    let mut walker = Walker::over(BATCH, 8).expect("whole records");
    let expected: [&[u8]; 3] = [b" 12.34-7", b"  7.00 8", b"   .00 8"];
    for record in expected {
        assert_eq!(walker.next(), Some(record));
    }
    assert_eq!((walker.next(), walker.next(), walker.next()), (None, None, None));
    assert_eq!(Walker::over(b"", 8).expect("no record").next(), None);
    let long = [b'7'; 65_536];
    assert_eq!(Walker::over(&long, 1).expect("single bytes").count(), 65_536);
    let at = |place| Walker::over(BATCH, 8).and_then(|walker| walker.at(place)).map(Iterator::count);
    let (start, end) = ((at(0), at(8), at(16)), at(24));
    assert_eq!((start, end), ((Ok(3), Ok(2), Ok(1)), Ok(0)));
    for place in [1, 7, 9, 23, 25, 32, u64::MAX] {
        assert_eq!(at(place), Err(Refusal::Length), "{place}");
    }
    for batch in [&BATCH[..23], &BATCH[..1], &[b'7'; 65_544][..]] {
        assert_eq!(Walker::over(batch, 8).err(), Some(Refusal::Length));
    }
}

/// Good and bad records for a plan; the sums of wide fields go beyond the limit soon.
fn some_records(random: &mut Random, plan: &[u8]) -> Vec<u8> {
    let pictures = pictures_of_plan(plan).expect("a good plan");
    let count = random.below(25);
    (0..count).flat_map(|_| make::fields::whole_record(random, &pictures, 20)).collect()
}

/// Walks a batch from an empty sheet. Each answer is that of the records accepted before, and so is the sheet at the end; how many
/// records were added, and how many refused with CONVERSION and with SIZE.
fn walked(plan: &[u8], batch: &[u8]) -> [usize; 3] {
    let pictures = pictures_of_plan(plan).expect("a good plan");
    let (mut history, mut run, mut counts) = (History::default(), vec![0; 776], [0; 3]);
    let length = record_length(&pictures);
    for (k, record) in batch.chunks(length).enumerate() {
        let before = run.clone();
        let kept = values_of(&pictures, record).and_then(|values| history.keep(values));
        let answer = totals_add(plan, batch, (k * length) as u64, &mut run);
        match kept {
            Ok(()) => assert_eq!(answer, 65_536 * pictures.len() as u64),
            Err(refused) => assert_eq!((answer, &run), (refused.packed(), &before)),
        }
        counts[match answer % 256 {
            0 => 0,
            CONVERSION => 1,
            _ => 2,
        }] += 1;
    }
    assert_eq!(run, bytes(&history.sheet().numbers()));
    for _ in 0..2 {
        adds(plan, batch, batch.len() as u64, &run, 0, &run);
    }
    counts
}

#[test]
fn batches_give_the_totals_of_the_records_accepted() {
    let mut random = Random::new(33);
    let mut counts = [0; 3];
    for _ in 0..1_500 {
        let plan = make::plans::good(&mut random);
        let batch = some_records(&mut random, &plan);
        let of_batch = walked(&plan, &batch);
        counts.iter_mut().zip(of_batch).for_each(|(all, one)| *all += one);
    }
    assert!(counts.iter().all(|&count| count > 500), "{counts:?}");
}

#[test]
fn a_sheet_takes_nine_thousand() {
    let plan = plan_of(b"-9;");
    let batch = b" 9-3 0".repeat(4_000);
    let mut run = vec![0; 776];
    for k in 0..9_000 {
        assert_eq!(totals_add(&plan, &batch[..18], k % 9 * 2, &mut run), 65_536, "{k}");
    }
    assert_eq!(run, sheet(9_000, &[18_000], &[-3], &[9]));
    refuses(&plan, &batch, 0, &run, FULL);
    refuses(&plan, &batch[..24_000], 24_000, &run, FULL);
    let mut history = History::default();
    while !history.full() {
        history.keep(vec![1]).expect("small sums");
    }
    assert_eq!(history.sheet().numbers()[..2], [9_000, 9_000]);
}

#[test]
fn the_history_refuses_where_a_sum_is_too_large() {
    let mut history = History::default();
    assert_eq!(history.sheet(), Sheet::default());
    assert!(history.keep(vec![LARGEST, -LARGEST]).is_ok());
    let refused = history.keep(vec![0, -1]).expect_err("the second sum");
    assert_eq!(refused.packed(), SIZE + 512);
    assert_eq!(history.keep(vec![1, -1]).expect_err("both sums").packed(), SIZE + 256);
    assert!(history.keep(vec![-1, 1]).is_ok());
    let expected = sheet(2, &[LARGEST - 1, 1 - LARGEST], &[-1, -LARGEST], &[LARGEST, 1]);
    assert_eq!(bytes(&history.sheet().numbers()), expected);
}

/// Of the numbers of a run a random addition changes the count and the places of its fields, each as the value read there asks.
#[test]
fn what_an_addition_changes() {
    let mut random = Random::new(34);
    let mut added = 0;
    for _ in 0..6_000 {
        let case = make::case("totals_add", &mut random).expect("a kind of cases");
        let reply = case.answer();
        let Case::TotalsAdd { plan, batch, place, sheet } = &case else { panic!("another call: {}", case.line()) };
        let fields = (reply.packed / 65_536) as usize;
        if fields == 0 {
            assert_eq!(&reply.memory, sheet, "{}", case.line());
            continue;
        }
        let values = make::totals::values_at(&pictures_of_plan(plan).expect("a good plan"), batch, *place);
        let (before, after) = (numbers(sheet), numbers(&reply.memory));
        assert_eq!((after[0], values.len()), (before[0] + 1, fields));
        for k in 1..97 {
            let value = values.get((k - 1) % 32).copied();
            let expected = match (value, (k - 1) / 32) {
                (None, _) => before[k],
                (Some(m), 0) => before[k] + m,
                (Some(m), _) if before[0] == 0 => m,
                (Some(m), 1) => *[before[k], m].iter().min().unwrap(),
                (Some(m), _) => *[before[k], m].iter().max().unwrap(),
            };
            assert_eq!(after[k], expected, "number {k} of {}", case.line());
        }
        added += 1;
    }
    assert!(added > 2_000, "{added}");
}
