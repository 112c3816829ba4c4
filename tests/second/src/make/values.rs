//! Values for cases: most fit their picture, at and beside the places where a digit is gained or rounding turns.

use super::random::Random;
use crate::collector;
use crate::rules_of_shape::Picture;
use crate::text_to_symbols::Symbol;

const LIMIT: i64 = 10i64.pow(Picture::MOST_DIGITS as u32);
const MOST_SCALE: u64 = Picture::MOST_DIGITS as u64;
const EDGE_SCALES: &[u64] = &[0, 1, 2, 7, 15, 16, 17, 17, 18, 18, 18, 19, 19, 20, 255, 256, 65_536, u64::MAX];

/// A value for a picture, fitting in most cases.
pub fn for_picture(random: &mut Random, picture: &Picture) -> (i64, u64) {
    let f = picture.f() as u64;
    match random.below(20) {
        0 | 1 => at_the_edges(random),
        2 => (beyond(random, picture), f),
        3 => (magnitude(random, picture.digits.len()), scale(random)),
        4 => (-magnitude(random, picture.digits.len()), f),
        5..=7 => (fitting(random, picture), f),
        8..=10 => {
            let m = fitting(random, picture);
            rescaled(random, m, f)
        }
        _ => with_more_places(random, picture),
    }
}

/// M that fits the picture at its own scale.
pub fn fitting(random: &mut Random, picture: &Picture) -> i64 {
    let shown = shown_behind_bs(picture);
    let m = if !shown.is_empty() && random.percent(30) {
        let digits = random.pick(&shown);
        of_digits(random, digits)
    } else {
        magnitude(random, picture.digits.len())
    };
    if picture.signed() && random.percent(50) {
        -m
    } else {
        m
    }
}

/// A value of any picture, at the edges of the ranges.
pub fn at_the_edges(random: &mut Random) -> (i64, u64) {
    let power = power(random.below(Picture::MOST_DIGITS + 1));
    let m = random.pick(&[0, 1, power - 1, power, power + 1, LIMIT - 1, LIMIT, LIMIT + 1, i64::MAX]);
    let m = match random.below(12) {
        0 => i64::MIN,
        1 => i64::MIN + 1,
        2 => random.number() as i64,
        3..=6 => -m,
        _ => m,
    };
    let q = if random.percent(50) { scale(random) } else { random.pick(EDGE_SCALES) };
    (m, q)
}

/// A scale in its range, often at the ends of it.
fn scale(random: &mut Random) -> u64 {
    if random.percent(30) {
        random.pick(&[0, MOST_SCALE - 1, MOST_SCALE])
    } else {
        random.below(Picture::MOST_DIGITS + 1) as u64
    }
}

/// A number below 10 to the `digits`.
pub fn magnitude(random: &mut Random, digits: usize) -> i64 {
    let k = random.below(digits);
    let m = match random.below(12) {
        0 => 0,
        1 => 1,
        2 => power(digits) - 1,
        3 => power(k),
        4 => power(k) - 1,
        5 => power(k) + 1,
        6 => power(k) * random.between(1, 9) as i64,
        7..=9 => random.number() as i64 % power(k + 1),
        _ => random.number() as i64 % power(digits),
    };
    m.abs() % power(digits)
}

/// How many digits are shown where printing starts directly behind a B that is hidden then, for each such place; and 0 where a B is
/// hidden with everything else.
fn shown_behind_bs(picture: &Picture) -> Vec<usize> {
    let from = picture.suppression_from().unwrap_or(picture.symbols.len());
    let starts = picture.digits.iter().chain(&picture.v).copied().filter(|&start| start > from);
    let behind_b = starts.filter(|&start| picture.symbols[start - 1] == Symbol::B);
    let digits_from = |start: usize| picture.digits.iter().filter(|&&at| at >= start).count();
    let mut shown: Vec<usize> = behind_b.map(digits_from).collect();
    if picture.every_digit_suppressible() && picture.symbols.contains(&Symbol::B) {
        shown.push(0);
    }
    shown
}

/// A number of so many digits, the first of them not 0.
fn of_digits(random: &mut Random, digits: usize) -> i64 {
    match digits {
        0 => 0,
        _ => random.between(power(digits - 1) as usize, power(digits) as usize - 1) as i64,
    }
}

/// A value of more places than the picture, where there is one: of as many digits as a value may have, or of few.
fn with_more_places(random: &mut Random, picture: &Picture) -> (i64, u64) {
    let (digits, f) = (picture.digits.len(), picture.f());
    let most = Picture::MOST_DIGITS - f;
    if most == 0 {
        return (fitting(random, picture), f as u64);
    }
    let (full, any) = ((Picture::MOST_DIGITS - digits).max(1), random.between(1, most));
    let more = random.pick(&[1, 1, most.min(2), most, full, any, any]);
    let kept = about_to_carry(random, digits.min(Picture::MOST_DIGITS - more));
    let m = kept * power(more) + about_a_half(random, more);
    let negative = random.percent(if picture.signed() || kept == 0 { 50 } else { 8 });
    (if negative { -m } else { m }, (f + more) as u64)
}

/// A number of so many digits at most: 0, nines at its end, nines alone, or any.
fn about_to_carry(random: &mut Random, digits: usize) -> i64 {
    let nines = random.between(0, digits);
    match random.below(10) {
        0..=2 => 0,
        3 | 4 => power(digits) - 1,
        5 | 6 => random.between(1, power(digits - nines) as usize) as i64 * power(nines) - 1,
        _ => magnitude(random, digits),
    }
}

/// What so many places hold: a half, what stands next to it, or what begins as a half or as less, in most cases.
fn about_a_half(random: &mut Random, places: usize) -> i64 {
    let (half, tenth) = (power(places) / 2, power(places - 1));
    let behind = random.below(tenth as usize) as i64;
    match random.below(10) {
        0..=2 => half,
        3 => half + 1,
        4 | 5 => half - 1,
        6 => half + behind,
        7 => half - tenth + behind,
        8 => power(places) - 1,
        _ => random.below(power(places) as usize) as i64,
    }
}

/// One more than fits, or somewhat more.
fn beyond(random: &mut Random, picture: &Picture) -> i64 {
    let least = power(picture.digits.len());
    let m = random.pick(&[least, least + 1, least.saturating_mul(9)]);
    if random.percent(50) {
        -m
    } else {
        m
    }
}

/// A value at another scale of which the cut at scale f leaves M, or less than M where the scale is smaller than f.
fn rescaled(random: &mut Random, m: i64, f: u64) -> (i64, u64) {
    let q = scale(random);
    if q < f {
        return (m / power((f - q) as usize), q);
    }
    let factor = power((q - f) as usize);
    let any = (random.number() as i64 % factor).abs();
    let rest = random.pick(&[0, factor - 1, factor / 2, any]);
    match m.checked_mul(factor) {
        Some(grown) if grown.abs() <= LIMIT - factor => (if m < 0 { grown - rest } else { grown + rest }, q),
        _ => (m, f),
    }
}

/// A row of bytes for editing, one number a picture: all fitting in most cases, else one or two that don't or a wrong length.
pub fn row(random: &mut Random, pictures: &[Picture]) -> Vec<u8> {
    let mut numbers: Vec<i64> = pictures.iter().map(|picture| fitting(random, picture)).collect();
    if random.percent(35) {
        for _ in 0..random.between(1, 2) {
            let k = random.below(numbers.len());
            numbers[k] = match random.below(3) {
                0 => beyond(random, &pictures[k]),
                1 => random.pick(&[LIMIT, -LIMIT, LIMIT + 1, -1 - LIMIT, i64::MIN, i64::MAX, LIMIT - 1, 1 - LIMIT]),
                _ => numbers[k].wrapping_neg(),
            };
        }
    }
    let mut row = collector::bytes(&numbers);
    match random.below(50) {
        0 => row.truncate(row.len() - 1),
        1 => row.push(0),
        2 => row.truncate(row.len() - 8),
        3 => row.extend([0; 8]),
        4 => row.clear(),
        _ => {}
    }
    row
}

fn power(exponent: usize) -> i64 {
    10i64.pow(exponent as u32)
}
