//! Making cases: random but repeatable, most of them reaching the last test of their call.

pub mod fields;
pub mod layouts;
pub mod pictures;
pub mod plans;
pub mod random;
pub mod totals;
pub mod values;

use crate::cases::Case;
use crate::layouts_and_plans::{pictures_of_layout, pictures_of_plan, plan_of, record_length};
use crate::rules_of_shape::Picture;
use crate::value_to_field::Mode;
use random::Random;

/// The kinds of cases that can be asked for.
pub const KINDS: [&str; 11] = [
    "check",
    "edit",
    "edit_cut",
    "read",
    "compile",
    "plan_read",
    "plan_edit",
    "totals_add",
    "picture",
    "layout",
    "all",
];

/// One case of a kind; None if there is no such kind.
pub fn case(kind: &str, random: &mut Random) -> Option<Case> {
    let made = match kind {
        "check" => check(random),
        "edit" => edit(random, Mode::Rounding),
        "edit_cut" => edit(random, Mode::Cut),
        "read" => read(random),
        "compile" => compile(random),
        "plan_read" => plan_read(random),
        "plan_edit" => plan_edit(random),
        "totals_add" => totals_add(random),
        "picture" => return case(random.pick(&KINDS[..4]), random),
        "layout" => return case(random.pick(&KINDS[4..7]), random),
        "all" => return case(random.pick(&KINDS[..8]), random),
        _ => return None,
    };
    Some(made)
}

fn check(random: &mut Random) -> Case {
    Case::Check { text: pictures::text(random, 50) }
}

fn edit(random: &mut Random, mode: Mode) -> Case {
    let text = pictures::text(random, 88);
    let picture = Picture::of(&text).ok();
    let (m, q) = match &picture {
        Some(picture) => values::for_picture(random, picture),
        None => values::at_the_edges(random),
    };
    let out = lent(random, picture.map_or(5, |p| p.n()), 1);
    Case::Edit { mode, text, m, q, out }
}

fn read(random: &mut Random) -> Case {
    let text = pictures::text(random, 92);
    let field = match Picture::of(&text) {
        Ok(picture) => fields::for_picture(random, &picture),
        Err(_) => random.bytes(4),
    };
    let row = lent(random, 8, 8);
    Case::Read { text, field, row }
}

fn compile(random: &mut Random) -> Case {
    let layout = layouts::text(random, 75);
    let needed = pictures_of_layout(&layout).map_or(30, |pictures| plan_of(&pictures).len());
    let plan = lent(random, needed, 1);
    Case::Compile { layout, plan }
}

fn plan_read(random: &mut Random) -> Case {
    let good = plans::good(random);
    let record = fields::record(random, &pictures_of_plan(&good).expect("a good plan"));
    let plan = plans::damaged_at_times(random, good, 20);
    let fields = pictures_of_plan(&plan).map_or(1, |pictures| pictures.len());
    let row = lent(random, 8 * fields, 8);
    Case::PlanRead { plan, record, row }
}

fn plan_edit(random: &mut Random) -> Case {
    let good = plans::good(random);
    let pictures = pictures_of_plan(&good).expect("a good plan");
    let row = values::row(random, &pictures);
    let plan = plans::damaged_at_times(random, good, 20);
    let record = lent(random, record_length(&pictures), 1);
    Case::PlanEdit { plan, row, record }
}

fn totals_add(random: &mut Random) -> Case {
    let long = random.below(250) == 0;
    let good = if long && random.percent(50) { totals::filling_plan(random) } else { plans::good(random) };
    let pictures = pictures_of_plan(&good).expect("a good plan");
    let batch = if long { totals::long_batch(random, &pictures) } else { totals::batch(random, &pictures) };
    let place = totals::place(random, batch.len(), record_length(&pictures));
    let sheet = totals::sheet(random, &totals::values_at(&pictures, &batch, place));
    let plan = plans::damaged_at_times(random, good, 10);
    Case::TotalsAdd { plan, batch, place, sheet }
}

/// Lent memory with random content: mostly what is needed, else a little more or less, in bytes and in places of `unit` bytes.
fn lent(random: &mut Random, needed: usize, unit: usize) -> Vec<u8> {
    let length = match random.below(20) {
        0..=9 => needed,
        10 => needed.saturating_sub(1),
        11 => needed.saturating_sub(unit),
        12 | 13 => needed + 1,
        14 => needed + unit,
        15 => needed + 2 * unit - 1,
        16 | 17 => needed + random.below(40),
        18 => random.below(needed + 1),
        _ => 0,
    };
    random.bytes(length)
}
