//! The judge: holds answer lines of a library against this program's own answers, or against stated ones, and shows the differences
//! to a reader: each case and answer in words, and below it the line itself.

use crate::cases::{edit_call, Case, Reply};
use crate::collector;
use crate::layouts_and_plans::{is_plan, rebuilt_layout};
use crate::totals::Sheet;

/// At most this many differences are worded.
const WORDED: usize = 20;

/// The outcome of a comparison.
pub struct Verdict {
    pub compared: usize,
    pub differ: usize,
    /// Whether there are as many answers as cases.
    pub complete: bool,
    /// The report, ending with the line `N compared, K differ`.
    pub report: String,
}

/// Compares the answer lines with this program's own answers; Err names a case line that has not the form.
pub fn judge(cases: &str, answers: &str) -> Result<Verdict, String> {
    compare(cases, answers, |_, case| Ok(case.answer()))
}

/// Compares the answer lines with stated ones, one a case; Err names a line that has not the form.
pub fn judge_by(cases: &str, answers: &str, stated: &str) -> Result<Verdict, String> {
    let (asked, stated) = (cases.lines().count(), stated.lines().collect::<Vec<_>>());
    if asked != stated.len() {
        return Err(format!("{asked} cases but {} stated answers", stated.len()));
    }
    let no_answer = |k: usize| format!("line {k} of the stated answers is no answer: {}", stated[k - 1]);
    compare(cases, answers, |k, _| Reply::parse(stated[k - 1]).ok_or_else(|| no_answer(k)))
}

/// Compares the answer lines with what is expected of each case, counted from 1.
fn compare(
    cases: &str,
    answers: &str,
    expected: impl Fn(usize, &Case) -> Result<Reply, String>,
) -> Result<Verdict, String> {
    let (asked, given): (Vec<&str>, Vec<&str>) = (cases.lines().collect(), answers.lines().collect());
    let mut verdict = Verdict { compared: 0, differ: 0, complete: asked.len() == given.len(), report: String::new() };
    for (k, (line, got)) in (1..).zip(asked.iter().zip(&given)) {
        let case = Case::parse(line).ok_or(format!("line {k} of the cases is no case: {line}"))?;
        let expected = expected(k, &case)?;
        verdict.compared += 1;
        if expected.line() != *got {
            verdict.differ += 1;
            if verdict.differ <= WORDED {
                verdict.report += &difference(k, &case, &expected, got);
            }
        }
    }
    if !verdict.complete {
        verdict.report += &format!("{} cases but {} answers\n", asked.len(), given.len());
    }
    verdict.report += &format!("{} compared, {} differ\n", verdict.compared, verdict.differ);
    Ok(verdict)
}

/// Case, expected answer and answer: each in words, and below them the line in hexadecimal.
fn difference(k: usize, case: &Case, expected: &Reply, got: &str) -> String {
    let both = |reply: &Reply| format!("{}\n           {}", outcome(case, reply), reply.line());
    let theirs = match Reply::parse(got) {
        Some(reply) => both(&reply),
        None => format!("no answer line: {}", printable(got.as_bytes())),
    };
    let case_line = case.line();
    format!("case {k}: {}\n  {case_line}\n  expected {}\n  got      {theirs}\n", worded(case), both(expected))
}

/// The line, and below it in words the case that it ends in, if it does: a case alone, or a message with a case behind its last `: `.
pub fn with_words(line: &str) -> String {
    let case = line.rsplit(": ").next().and_then(Case::parse);
    case.map_or(format!("{line}\n"), |case| format!("{line}\n  {}\n", worded(&case)))
}

/// The case with its texts as printable characters.
pub fn worded(case: &Case) -> String {
    match case {
        Case::Check { text } => format!("check {}", printable(text)),
        Case::Edit { mode, text, m, q, out } => {
            let (call, text, into) = (edit_call(*mode), printable(text), out.len());
            format!("{call} {text} value {m}@{q} into {into} bytes {}", printable(out))
        }
        Case::Read { text, field, row } => {
            format!("read {} field {} into {} bytes {}", printable(text), printable(field), row.len(), numbers(row))
        }
        Case::Compile { layout, plan } => {
            format!("compile {} into {} bytes {plan:?}", printable(layout), plan.len())
        }
        Case::PlanRead { plan, record, row } => {
            let (by, into) = (plan_shown(plan), row.len());
            format!("plan_read by {by} record {} into {into} bytes {}", printable(record), numbers(row))
        }
        Case::PlanEdit { plan, row, record } => {
            let (by, from, into) = (plan_shown(plan), row.len(), record.len());
            format!("plan_edit by {by} row {} of {from} bytes into {into} bytes {}", numbers(row), printable(record))
        }
        Case::TotalsAdd { plan, batch, place, sheet } => {
            let (by, from, to) = (plan_shown(plan), batch.len(), sheet.len());
            let batch = printable(batch);
            format!("totals_add by {by} at {place} of {from} bytes {batch} to {to} bytes {}", sheet_shown(sheet))
        }
    }
}

fn outcome(case: &Case, reply: &Reply) -> String {
    let (number, field, length) = (reply.packed % 256, reply.packed / 256 % 256, reply.packed / 65_536);
    let memory = match case {
        Case::Check { .. } => String::new(),
        Case::Edit { .. } | Case::PlanEdit { .. } => printable(&reply.memory),
        Case::Compile { .. } => format!("{:?}", reply.memory),
        Case::Read { .. } | Case::PlanRead { .. } => numbers(&reply.memory),
        Case::TotalsAdd { .. } => sheet_shown(&reply.memory),
    };
    format!("number {number} field {field} length {length} memory {memory}")
}

/// A plan as the layout that it is of, other bytes as they are.
fn plan_shown(plan: &[u8]) -> String {
    let layout = rebuilt_layout(plan).filter(|_| is_plan(plan));
    layout.map_or_else(|| format!("{plan:?}"), |layout| format!("the plan of {}", printable(&layout)))
}

/// A row as its numbers, with the odd bytes behind them.
fn numbers(row: &[u8]) -> String {
    let odd = &row[row.len() / 8 * 8..];
    format!("{:?} and {odd:?}", collector::numbers(row))
}

/// A totals sheet by its parts, each without the zeros at its end, with the bytes behind it; a run too short for one as it is.
fn sheet_shown(run: &[u8]) -> String {
    let Some((sheet, odd)) = run.split_at_checked(collector::SHEET_BYTES) else {
        return format!("{run:?}");
    };
    let numbers = collector::numbers(sheet);
    let part = |which: usize| {
        let part = &numbers[1 + which * Sheet::PLACES..][..Sheet::PLACES];
        &part[..part.iter().rposition(|&number| number != 0).map_or(0, |last| last + 1)]
    };
    let (count, sums, least, greatest) = (numbers[0], part(0), part(1), part(2));
    format!("count {count} sums {sums:?} least {least:?} greatest {greatest:?} and {odd:?}")
}

fn printable(bytes: &[u8]) -> String {
    let shown: String = bytes.iter().flat_map(|&byte| byte.escape_ascii()).map(char::from).collect();
    format!("\"{shown}\"")
}
