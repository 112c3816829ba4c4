//! Instructions a field, counted by valgrind's callgrind: the same in every run on the same machine, however busy it is.
//!
//! The program has callgrind run itself. That run makes each pass twice, once to bind symbols and to fill what the sides keep, and
//! once counted; callgrind writes a file for each count.

use crate::callgrind;
use crate::layouts::SIZES;
use crate::sides::{Call, Side, CALLS};
use crate::table;
use crate::work::Work;
use std::process::Command;

/// The records of a pass.
const COUNTED: usize = 256;

/// Counts and prints the table. The files of callgrind begin with this name.
pub fn print(files: &str) -> Result<(), String> {
    Work::agreed()?;
    run_counted(files)?;
    println!("INSTRUCTIONS: a field, by valgrind --tool=callgrind.\n");
    table::print_head(&["ratio"]);
    for call in CALLS {
        for fields in SIZES {
            let mut figures = Vec::new();
            for &side in call.sides() {
                let count = count_in(&format!("{files}.{}", place(fields, call, side)))?;
                figures.push((side, count as f64 / (COUNTED * fields) as f64));
            }
            print_line(call, fields, &figures);
        }
    }
    Ok(())
}

fn print_line(call: Call, fields: usize, figures: &[(Side, f64)]) {
    let of = |side: Side| figures.iter().find(|figure| figure.0 == side).map(|figure| figure.1);
    let cobol = table::faster_move(call, |side| of(side).unwrap_or(f64::INFINITY));
    let ratio = |other: Option<f64>| -> Vec<f64> {
        of(Side::Library).zip(other).map(|(own, other)| own / other).into_iter().collect()
    };
    let figures = [of(Side::Library), of(Side::Fast), of(Side::Inner), cobol.and_then(of)];
    table::print_line(call, fields, figures, [&ratio(figures[1]), &ratio(figures[3])]);
}

/// Which of the counts, from 1 on, is that of a side.
fn place(fields: usize, call: Call, side: Side) -> usize {
    let all = all_counts().position(|count| count == (fields, call, side));
    1 + all.expect("a side that makes the call")
}

/// All counts in their order.
fn all_counts() -> impl Iterator<Item = (usize, Call, Side)> {
    let calls = SIZES.into_iter().flat_map(|fields| CALLS.into_iter().map(move |call| (fields, call)));
    calls.flat_map(|(fields, call)| call.sides().iter().map(move |&side| (fields, call, side)))
}

fn run_counted(files: &str) -> Result<(), String> {
    let own = std::env::current_exe().map_err(|error| error.to_string())?;
    let output = Command::new("valgrind")
        .args(["--tool=callgrind", "--instr-atstart=no"])
        .arg(format!("--callgrind-out-file={files}"))
        .arg(own)
        .arg("count")
        .output()
        .map_err(|error| format!("valgrind: {error}"))?;
    let said = String::from_utf8_lossy(&output.stderr);
    output.status.success().then_some(()).ok_or(format!("callgrind said: {said}"))
}

/// The instructions that a file of callgrind's counts.
fn count_in(file: &str) -> Result<u64, String> {
    let text = std::fs::read_to_string(file).map_err(|error| format!("{file}: {error}"))?;
    let count = text.lines().find_map(|line| line.strip_prefix("summary: ")?.trim().parse().ok());
    count.ok_or(format!("{file} has no count"))
}

/// The run that is counted.
pub fn count() -> Result<(), String> {
    let mut works = Work::all();
    for (fields, call, side) in all_counts() {
        let work = works.iter_mut().find(|work| work.data.fields == fields).expect("a work of every size");
        work.pass(side, call, COUNTED);
        callgrind::counted(|| work.pass(side, call, COUNTED));
    }
    Ok(())
}
