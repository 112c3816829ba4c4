//! The benchmark: the compiled library, the fast Rust and GnuCOBOL on the same data, by the clock and by counted instructions.

mod callgrind;
mod clock;
mod cobol;
mod data;
mod instructions;
mod layouts;
mod random;
mod sides;
mod table;
mod times;
mod work;

use layouts::{RECORDS, SIZES};
use sides::{Side, CALLS};
use std::process::ExitCode;
use work::Work;

const USAGE: &str = "\
usage:
  bench agree                     all sides on all records
  bench random CASES              the library against the fast Rust on random cases
  bench times ROUNDS              time, if all sides agree
  bench instructions FILES        instructions, if all sides agree, by valgrind, whose files begin with this name
  bench count                     the run that is counted
  bench repeat CALL FIELDS TIMES  the library's call, so many times, for a profile; CALL is compile, 'plan read' or 'plan edit',
                                  FIELDS is 1, 4 or 32
";

fn main() -> ExitCode {
    let arguments: Vec<String> = std::env::args().skip(1).collect();
    let words: Vec<&str> = arguments.iter().map(String::as_str).collect();
    let done = match words[..] {
        ["agree"] => Some(agree()),
        ["random", cases] => positive(cases).map(random::compare),
        ["times", rounds] => positive(rounds).map(times::print),
        ["instructions", files] => Some(instructions::print(files)),
        ["count"] => Some(instructions::count()),
        ["repeat", call, fields, times] => positive(times).and_then(|times| repeat(call, fields, times)).map(Ok),
        _ => None,
    };
    match done {
        Some(Ok(())) => ExitCode::SUCCESS,
        Some(Err(message)) => {
            eprintln!("bench: {message}");
            ExitCode::FAILURE
        }
        None => {
            eprint!("{USAGE}");
            ExitCode::from(2)
        }
    }
}

fn positive(word: &str) -> Option<usize> {
    word.parse().ok().filter(|&number| number > 0)
}

fn agree() -> Result<(), String> {
    Work::agreed()?;
    println!("SIDES: all agree with the second program on {RECORDS} records of each layout.");
    Ok(())
}

/// So many of the library's calls, going round the records, counted if callgrind runs this.
fn repeat(call: &str, fields: &str, times: usize) -> Option<()> {
    let call = CALLS.into_iter().find(|known| known.name() == call)?;
    let size = SIZES.iter().position(|size| size.to_string() == fields)?;
    let work = &mut Work::all()[size];
    let passes = (0..times).step_by(RECORDS).map(|done| RECORDS.min(times - done));
    callgrind::counted(|| passes.map(|records| work.pass(Side::Library, call, records)).sum());
    Some(())
}
