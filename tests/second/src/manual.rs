//! The worked examples of IBM's OS PL/I Language Reference and of the Multics PL/I Language Specification, taken from the vectors files as
//! they stand there; nothing of them is computed.

use crate::value_to_field::Mode;

const VECTORS: [&str; 2] = [include_str!("../../vectors/manual-000.tsv"), include_str!("../../vectors/manual-001.tsv")];

/// What the document says of an example.
#[derive(Clone, PartialEq, Eq, Debug)]
pub enum Example {
    Accept {
        n: usize,
        i: usize,
        f: usize,
    },
    /// In each of the modes M at scale q edits to the field, or is SIZE where there is none.
    Edit {
        modes: &'static [Mode],
        m: i64,
        q: u64,
        field: Option<Vec<u8>>,
    },
    /// The field reads as M at scale q, or is CONVERSION where there is none.
    Read {
        field: Vec<u8>,
        value: Option<(i64, usize)>,
    },
}

/// The examples with their pictures.
pub fn examples() -> Vec<(&'static str, Example)> {
    VECTORS.iter().flat_map(|file| file.lines().skip(1)).map(example).collect()
}

fn example(line: &'static str) -> (&'static str, Example) {
    let columns: Vec<&str> = line.split('\t').collect();
    let [_, _, picture, m, q, field, remark] = columns[..] else {
        panic!("a line of other than seven columns: {line}");
    };
    let number = |word: &str| word.parse::<i64>().unwrap_or_else(|_| panic!("no number in: {line}"));
    let characters = field.replace('_', " ").into_bytes();
    let example = match remark.split(';').next() {
        Some("accept") => {
            let [n, i, f] = ["n=", "i=", "f="].map(|name| counted(remark, name));
            Example::Accept { n, i, f }
        }
        Some(how @ ("edit" | "cut" | "round")) => {
            let (modes, field) = (modes(how), (field != "SIZE").then_some(characters));
            Example::Edit { modes, m: number(m), q: number(q) as u64, field }
        }
        Some("read") => {
            let value = (m != "CONVERSION").then(|| (number(m), number(q) as usize));
            Example::Read { field: characters, value }
        }
        _ => panic!("an unknown remark: {line}"),
    };
    (picture, example)
}

/// The modes that the first word of a remark on editing names; `edit` leaves it open, where no digit is dropped.
fn modes(how: &str) -> &'static [Mode] {
    match how {
        "cut" => &[Mode::Cut],
        "round" => &[Mode::Rounding],
        _ => &Mode::BOTH,
    }
}

/// The number after a name such as `n=` in an accept remark.
fn counted(remark: &str, name: &str) -> usize {
    let word = remark.split([' ', ';']).find_map(|word| word.strip_prefix(name));
    word.and_then(|word| word.parse().ok()).unwrap_or_else(|| panic!("no {name} in: {remark}"))
}
