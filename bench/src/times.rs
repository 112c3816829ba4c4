//! Times from one run. A round times every call at every size, all sides in turn, so that whatever else the machine does falls on
//! all of them alike; each round begins with the next side.

use crate::clock;
use crate::layouts::RECORDS;
use crate::sides::{Call, Side, CALLS};
use crate::table;
use crate::work::Work;
use std::hint::black_box;

/// A round takes about so many nanoseconds for each call, size and side, or one pass where that takes longer.
const ROUND: f64 = 1e6;

/// The times of one call at one size.
struct Series {
    call: Call,
    /// Which of the works.
    size: usize,
    sides: Vec<Times>,
}

/// The times of one side, in nanoseconds a field, one for each round.
struct Times {
    side: Side,
    /// How many passes over all records make a round.
    passes: usize,
    rounds: Vec<f64>,
}

/// Measures and prints the table.
pub fn print(rounds: usize) -> Result<(), String> {
    let mut works = Work::agreed()?;
    let all = measured(&mut works, rounds);
    println!("TIME: nanoseconds of processor time a field, the best of {rounds} rounds.");
    println!("judged before: the fast Rust by a plan judged beforehand. GnuCOBOL: the faster of its two moves.\n");
    table::print_head(&["best", "median"]);
    for series in &all {
        series.print(works[series.size].data.fields);
    }
    Ok(())
}

fn measured(works: &mut [Work; 3], rounds: usize) -> Vec<Series> {
    let mut all = Vec::new();
    for call in CALLS {
        for (size, work) in works.iter_mut().enumerate() {
            let sides = call.sides().iter().map(|&side| Times::new(work, side, call)).collect();
            all.push(Series { call, size, sides });
        }
    }
    for round in 0..rounds {
        for Series { call, size, sides } in &mut all {
            for k in 0..sides.len() {
                let next = (round + k) % sides.len();
                sides[next].round(&mut works[*size], *call);
            }
        }
    }
    all
}

impl Times {
    fn new(work: &mut Work, side: Side, call: Call) -> Times {
        let once = time(work, side, call, 1);
        Times { side, passes: (ROUND / once) as usize + 1, rounds: Vec::new() }
    }

    fn round(&mut self, work: &mut Work, call: Call) {
        let fields = self.passes * RECORDS * work.data.fields;
        self.rounds.push(time(work, self.side, call, self.passes) / fields as f64);
    }

    fn best(&self) -> f64 {
        self.rounds.iter().copied().fold(f64::INFINITY, f64::min)
    }
}

impl Series {
    fn of(&self, side: Side) -> Option<&Times> {
        self.sides.iter().find(|times| times.side == side)
    }

    fn best(&self, side: Side) -> Option<f64> {
        self.of(side).map(Times::best)
    }

    /// The library's time by that of a side: of the best rounds, and the median over neighbouring rounds.
    fn ratios(&self, other: Option<Side>) -> Vec<f64> {
        let (Some(library), Some(other)) = (self.of(Side::Library), other.and_then(|side| self.of(side))) else {
            return Vec::new();
        };
        let mut quotients: Vec<f64> =
            library.rounds.iter().zip(&other.rounds).map(|(own, other)| own / other).collect();
        quotients.sort_by(f64::total_cmp);
        vec![library.best() / other.best(), quotients[quotients.len() / 2]]
    }

    fn print(&self, fields: usize) {
        let cobol = table::faster_move(self.call, |side| self.best(side).unwrap_or(f64::INFINITY));
        let best = |side| self.best(side);
        let figures = [best(Side::Library), best(Side::Fast), best(Side::Inner), cobol.and_then(best)];
        table::print_line(self.call, fields, figures, [&self.ratios(Some(Side::Fast)), &self.ratios(cobol)]);
    }
}

/// Nanoseconds of so many passes.
fn time(work: &mut Work, side: Side, call: Call, passes: usize) -> f64 {
    let begin = clock::now();
    for _ in 0..passes {
        black_box(work.pass(side, call, RECORDS));
    }
    clock::now() - begin
}
