//! Which byte strings are plans: compared with the set of all plans of small pictures, and tried with every change of one byte.

use second::layouts_and_plans::{pictures_of_plan, plan_of, rebuilt_layout, record_length};
use second::make::random::Random;
use second::make::values::fitting;
use second::make::{layouts, pictures};
use second::rules_of_shape::Picture;
use second::{compile, edit, edit_cut, is_plan, plan_edit, plan_read, read, Answer};
use std::collections::HashSet;

/// The plans of all one-picture layouts of up to three positions, written out with V at every place.
fn plans_of_small_pictures() -> HashSet<Vec<u8>> {
    let letters = b"9Z*V,./BS+-$CRDTI";
    let mut texts: Vec<Vec<u8>> = vec![Vec::new()];
    let mut plans = HashSet::new();
    for _ in 0..4 {
        texts = texts.iter().flat_map(|text| letters.iter().map(|&c| [&text[..], &[c]].concat())).collect();
        let pictures = texts.iter().filter_map(|text| Picture::of(text).ok());
        plans.extend(pictures.filter(|picture| picture.n() <= 3).map(|picture| plan_of(&[picture])));
    }
    plans
}

#[test]
fn small_plans_are_exactly_those_of_small_pictures() {
    let known = plans_of_small_pictures();
    let mut found = 0;
    for n in 0..=3u8 {
        for code in 0..19usize.pow(u32::from(n)) {
            let positions: Vec<u8> = (0..u32::from(n)).map(|k| (code / 19usize.pow(k) % 19) as u8).collect();
            for (v, kind) in (0..=4).flat_map(|v| (0..=7).map(move |kind| (v, kind))) {
                let bytes = [&[1, n, v, kind, 0, n], &positions[..]].concat();
                assert_eq!(is_plan(&bytes), known.contains(&bytes), "{bytes:?}");
                found += usize::from(known.contains(&bytes));
            }
        }
    }
    assert_eq!(found, known.len());
}

/// The plan and the pictures of its rebuilt layout give the same fields, in either mode, and values.
fn runs_as_its_layout(random: &mut Random, plan: &[u8]) {
    let layout = rebuilt_layout(plan).unwrap();
    let mut compiled = vec![0; plan.len()];
    assert_eq!(compile(&layout, &mut compiled), Answer::success(plan.len()));
    assert_eq!(compiled, plan);
    let pictures = pictures_of_plan(plan).unwrap();
    let row: Vec<i64> = pictures.iter().map(|picture| fitting(random, picture)).collect();
    let mut expected = Vec::new();
    for ((text, &m), picture) in layout.split(|&b| b == b';').zip(&row).zip(&pictures) {
        let (mut field, mut cut) = (vec![0; picture.n()], vec![0; picture.n()]);
        assert_eq!(edit(text, m, picture.f() as u64, &mut field).number, 0);
        assert_eq!(edit_cut(text, m, picture.f() as u64, &mut cut).number, 0);
        assert_eq!(field, cut);
        assert_eq!(read(text, &field).value, m);
        expected.extend(field);
    }
    let (mut record, mut back) = (vec![0; record_length(&pictures)], vec![0; row.len()]);
    assert_eq!(plan_edit(plan, &row, &mut record), Answer::success(record.len()));
    assert_eq!(record, expected);
    assert_eq!(plan_read(plan, &record, &mut back), Answer::success(row.len()));
    assert_eq!(back, row);
}

#[test]
fn every_change_of_one_byte() {
    let mut random = Random::new(5);
    let (mut tried, mut accepted) = (0, 0);
    while tried < 300 {
        let count = random.between(1, 3);
        let texts: Vec<Vec<u8>> = (0..count).map(|_| pictures::accepted(&mut random)).collect();
        let plan = plan_of(&texts.iter().map(|text| Picture::of(text).unwrap()).collect::<Vec<_>>());
        if plan.len() > 45 {
            continue;
        }
        tried += 1;
        for at in 0..plan.len() {
            let mut changed = plan.clone();
            for byte in 0..=255 {
                changed[at] = byte;
                if is_plan(&changed) {
                    accepted += 1;
                    runs_as_its_layout(&mut random, &changed);
                } else {
                    assert_eq!(plan_read(&changed, b"", &mut []).number, 12);
                }
            }
        }
    }
    assert!(accepted > 300 * 20, "many changes lead to the plan of another layout");
}

#[test]
fn one_byte_more_or_less_is_no_plan() {
    let mut random = Random::new(6);
    for _ in 0..300 {
        let plan = second::make::plans::good(&mut random);
        assert!(is_plan(&plan));
        assert!(!is_plan(&plan[..plan.len() - 1]));
        for byte in 0..=18 {
            assert!(!is_plan(&[&plan[..], &[byte]].concat()));
        }
    }
}

#[test]
fn a_v_at_the_end_changes_nothing() {
    let mut random = Random::new(7);
    let plan = |texts: &[Vec<u8>]| {
        let mut room = vec![0; 2_147];
        let answer = compile(&layouts::joined(texts), &mut room);
        room.truncate(answer.length as usize);
        (answer.number, room)
    };
    for _ in 0..300 {
        let texts = layouts::good(&mut random);
        let mut longer = texts.clone();
        let (number, short_plan) = plan(&texts);
        assert_eq!(number, 0);
        for text in &mut longer {
            let with_v = [&text[..], b"V"].concat();
            if !text.contains(&b'V') && Picture::of(&with_v).is_ok() {
                *text = with_v;
            }
        }
        assert_eq!(plan(&longer), (0, short_plan.clone()));
        runs_as_its_layout(&mut random, &short_plan);
    }
}
