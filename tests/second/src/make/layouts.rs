//! Layout texts for cases: good ones of 1 to 32 pictures, and damaged ones.

use super::pictures;
use super::random::Random;

/// A layout, accepted in about so many of a hundred.
pub fn text(random: &mut Random, accepted_percent: usize) -> Vec<u8> {
    let mut texts = good(random);
    if random.percent(accepted_percent) {
        return joined(&texts);
    }
    match random.below(12) {
        0..=5 => {
            let k = random.below(texts.len());
            texts[k] = pictures::text(random, 0);
        }
        6 => {
            let k = random.below(texts.len());
            texts[k].clear();
        }
        7 => texts.resize(random.between(32, 34), b"9".to_vec()),
        8 => return without_end(random, &joined(&texts)),
        9 => return around_the_longest(random),
        10 => return vec![b';'; random.pick(&[0, 1, 2, 31, 32, 33])],
        _ => {
            let layout = joined(&texts);
            return pictures::near_miss(random, layout);
        }
    }
    joined(&texts)
}

/// The pictures of a good layout: mostly few.
pub fn good(random: &mut Random) -> Vec<Vec<u8>> {
    let count = match random.below(20) {
        0..=11 => random.between(1, 4),
        12..=17 => random.between(1, 12),
        18 => random.between(1, 32),
        _ => 32,
    };
    (0..count).map(|_| pictures::accepted(random)).collect()
}

/// The pictures with a semicolon after each.
pub fn joined(texts: &[Vec<u8>]) -> Vec<u8> {
    texts.iter().flat_map(|text| text.iter().copied().chain([b';'])).collect()
}

/// The layout not ended by a semicolon.
fn without_end(random: &mut Random, layout: &[u8]) -> Vec<u8> {
    let mut cut = layout[..layout.len() - 1].to_vec();
    if random.percent(30) {
        cut.extend(b";9");
    }
    cut
}

/// Layouts of 4,128 bytes (32 pictures of 128) and about one byte more or less.
fn around_the_longest(random: &mut Random) -> Vec<u8> {
    let picture: Vec<u8> = b"(01)B".repeat(25).into_iter().chain(*b"999").collect();
    let mut texts = vec![picture; 32];
    let k = random.below(32);
    match random.below(4) {
        0 => texts[k].push(b'9'),
        1 => texts[k].truncate(127),
        2 => texts[k] = pictures::text(random, 0),
        _ => {}
    }
    joined(&texts)
}
