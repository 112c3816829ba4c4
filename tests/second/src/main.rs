//! The command of the second program: it lists records and totals them, writes cases, answers them, and judges the answers of a library.
#![forbid(unsafe_code)]

use second::cases::Case;
use second::make::{self, random::Random};
use second::{judge, listing, sheet_of_examples, totalling};
use std::io::{self, BufRead, Read, Write};
use std::process::ExitCode;

const USAGE: &str = "\
usage:
  second list                      the lister: input on stdin, listing on stdout
  second total                     the totals program: the lister's input on stdin, refused records and totals on stdout
  second cases KIND SEED COUNT     write cases; KIND is check, edit, edit_cut, read, compile, plan_read, plan_edit, totals_add,
                                   picture (the first four), layout (the next three) or all
  second answer                    answer the cases on stdin
  second judge CASES ANSWERS [STATED]
                                   compare the answers in a file with this program's own, or with those in a third file
  second word                      copy stdin; below each line that ends in a case stands the case in words
  second sheet cases|answers       the examples of the rules and of the manuals, as cases or as stated answers
";

enum Failure {
    /// The arguments are none of the usage.
    Usage,
    Message(String),
}

impl From<io::Error> for Failure {
    fn from(error: io::Error) -> Failure {
        Failure::Message(error.to_string())
    }
}

fn main() -> ExitCode {
    let arguments: Vec<String> = std::env::args().skip(1).collect();
    let words: Vec<&str> = arguments.iter().map(String::as_str).collect();
    let done = match words[..] {
        ["list"] => through(listing),
        ["total"] => through(totalling),
        ["cases", kind, seed, count] => cases(kind, seed, count),
        ["answer"] => answer(),
        ["judge", cases, answers] => return judged(cases, answers, None),
        ["judge", cases, answers, stated] => return judged(cases, answers, Some(stated)),
        ["word"] => word(),
        ["sheet", "cases"] => sheet(|(case, _)| case.line()),
        ["sheet", "answers"] => sheet(|(_, reply)| reply.line()),
        _ => Err(Failure::Usage),
    };
    match done {
        Ok(()) => ExitCode::SUCCESS,
        Err(failure) => failed(failure),
    }
}

fn failed(failure: Failure) -> ExitCode {
    match failure {
        Failure::Usage => eprint!("{USAGE}"),
        Failure::Message(message) => eprintln!("second: {message}"),
    }
    ExitCode::from(2)
}

/// Writes what is made of the whole input.
fn through(made: impl Fn(&[u8]) -> Vec<u8>) -> Result<(), Failure> {
    let mut input = Vec::new();
    io::stdin().lock().read_to_end(&mut input)?;
    Ok(io::stdout().lock().write_all(&made(&input))?)
}

fn cases(kind: &str, seed: &str, count: &str) -> Result<(), Failure> {
    let (Ok(seed), Ok(count)) = (seed.parse(), count.parse::<u64>()) else {
        return Err(Failure::Usage);
    };
    if !make::KINDS.contains(&kind) {
        return Err(Failure::Usage);
    }
    let mut random = Random::new(seed);
    let mut out = io::BufWriter::new(io::stdout().lock());
    for _ in 0..count {
        let case = make::case(kind, &mut random).ok_or(Failure::Usage)?;
        writeln!(out, "{}", case.line())?;
    }
    Ok(out.flush()?)
}

fn answer() -> Result<(), Failure> {
    let mut out = io::BufWriter::new(io::stdout().lock());
    for line in io::stdin().lock().lines() {
        let line = line?;
        let case = Case::parse(&line).ok_or_else(|| Failure::Message(format!("no case: {line}")))?;
        writeln!(out, "{}", case.answer().line())?;
    }
    Ok(out.flush()?)
}

fn sheet(line: impl Fn(&sheet_of_examples::Stated) -> String) -> Result<(), Failure> {
    let mut out = io::BufWriter::new(io::stdout().lock());
    for stated in sheet_of_examples::stated().iter().chain(&sheet_of_examples::totals()) {
        writeln!(out, "{}", line(stated))?;
    }
    Ok(out.flush()?)
}

fn word() -> Result<(), Failure> {
    let mut out = io::BufWriter::new(io::stdout().lock());
    for line in io::stdin().lock().split(b'\n') {
        out.write_all(judge::with_words(&String::from_utf8_lossy(&line?)).as_bytes())?;
    }
    Ok(out.flush()?)
}

/// Exit 0 if all answers agree, 1 if not, 2 if the files can't be compared.
fn judged(cases: &str, answers: &str, stated: Option<&str>) -> ExitCode {
    match verdict(cases, answers, stated) {
        Ok(verdict) => {
            print!("{}", verdict.report);
            ExitCode::from(u8::from(verdict.differ > 0 || !verdict.complete))
        }
        Err(message) => failed(Failure::Message(message)),
    }
}

fn verdict(cases: &str, answers: &str, stated: Option<&str>) -> Result<judge::Verdict, String> {
    let file = |path: &str| std::fs::read_to_string(path).map_err(|error| format!("{path}: {error}"));
    match stated {
        None => judge::judge(&file(cases)?, &file(answers)?),
        Some(stated) => judge::judge_by(&file(cases)?, &file(answers)?, &file(stated)?),
    }
}
