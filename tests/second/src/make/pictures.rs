//! Picture texts for cases: accepted ones of every kind, near misses, and texts at the edges of the rules.

use super::random::Random;
use crate::check;
use crate::rules_of_shape::Picture;

const SYMBOLS: &[u8] = b"9Z*V,./BS+-$TIR";
const ALPHABET: &[u8] = b"9Z*V,./BS+-$TICRD()0123456789";
const INSERTIONS: &[u8] = b",./B";

/// Texts at the edges of the rules, with a bar between them.
const EDGES: &str = "\
    9(1)DB|9(2)CR|9DBB|9CRV|CR9|9(2)B|9BDB|9D(1)B|9(01)B|9CVR|9DVB|DB9|(01)9|(09)9|(0)9|(00)9|(003)9|\
    (64)9|(65)9|()9|( 2)9|(+2)9|(1)(2)9|9(2)|(2)|(1)V9|(1)CR|(1)R|(1)DB|9(2|9)9|(2)9)|((2)9|(64)9(64)9Q|\
    (64)9(64)9|(64)9V|(63)B9|(63)B9V|(62)B9V|(61)B9CR|(62)B9CR|(61)B9VDB|(60)B9VDB|VV|V9V|S+|SCR|+DB|S$|\
    $,S|V|B|CR|DB|VCR|V$9|VS9|9V-|9-V|9V$|9VCR|$V$|V$$|VSS|S$S|$S$|$$S9|S$$9|$$9S|$$S|-$$|SS$9|$SS9|\
    SS9$|(16)$|(17)$|(18)$|(19)$|(20)$|(19)-|(20)S|(15)Z|(16)Z|(18)Z|(19)Z|(17)*|(18)*|(19)*|(15)9|(16)9|\
    (17)9|(18)9|(19)9|V(18)9|V(19)9|9V(17)9|(17)9V9|(9)9V(9)9|(9)9V(10)9|(9)ZV(9)Z|(10)*V(9)*|(10)+V(9)+|\
    (10)-V(10)-|(18)9CR|(19)ZDB|9Z|Z*|*Z|ZSS|$$Z|ZZ9VZ|ZVZ|Z9V9|9VZ|ZV9|*V*|**V9|9$9|$9$|\
    9S9|S9S|S9CR|-9DB|+9-|S9-|$$9CR|SS9CR|$$SS|++--|,ZZ|ZZ,|V.ZZ|VZZ|V,.Z|ZZZ.VZZ|$$,9|+ZZ|+++|ZV.9|\
    **B**|*CR|$*DB|ZDB|B*|*B|*B*|**BB9|*BV*|*VB*|B**BB.**V9|*BCR|*BDB|**DB|$$B$$9|$$B9|$$BB9|$B$9|$BB$|$B$|\
    $B$BV.99|$$B.99|$$.B99|$$VB$|B$$B$|$$BDB|--B9|-B-B-|++B+9V.99|S$B$|SBS|SSBBVBS|T|I|R|9T|9I|9R|T9|R99|99T9|\
    9CR|RCR|9RCR|CRR|9CRR|TCR|IDB|RDB|RDR|9VR|VRCR|(1)T|(01)I|(2)T|(02)I|(3)I|(2)R|(01)R|9(1)R|(1)RCR|TT|II|RR|\
    TI|IR|T9R|T,T|S9T|T9S|+T|T-|-9I|SST|--T|++9R|T--|ST$|$T|T$|9$R|R$9|ZT|*I|ZZV9T|$$,$$T|$$R|**T|TZ|I*|T$$|\
    Z9TZ|ZT9|ZVT|ZVZT|TVZ|*V*R|ZTVZ|TV9|9VT|VT|TV|9VTV|V,T|T.V|BTB|(15)9T|(15)ZR|(16)$T|(16)9T9|(17)9T|(18)9T|\
    T(17)9|I(18)9|(17)ZR|(18)ZR|(18)$T|(19)$T|(17)*IV|V(17)9R|V(18)9R|(64)T|(63)BT|(63)BR|(62)BTV|(63)BTV|\
    (61)BTCR|z9|9 9|9;9|t9|9Y9|F9|9E9|99K|A9|9X|9\n|9\0";

/// A text, accepted in so many of a hundred.
pub fn text(random: &mut Random, accepted_percent: usize) -> Vec<u8> {
    if random.percent(accepted_percent) {
        return accepted(random);
    }
    match random.below(13) {
        0..=4 => {
            let text = accepted(random);
            near_miss(random, text)
        }
        5..=8 => at_the_edges(random),
        9 => of_length(random),
        10 => other_end(random),
        11 => built(random, Picture::MOST_DIGITS + 1),
        _ => noise(random),
    }
}

/// An accepted text.
pub fn accepted(random: &mut Random) -> Vec<u8> {
    loop {
        let count = count(random);
        let text = if random.percent(3) { long_text(random, 128) } else { built(random, count) };
        if check(&text).number == 0 {
            return text;
        }
    }
}

/// How many digits a picture has: mostly few, often as many as it may have or one less.
fn count(random: &mut Random) -> usize {
    let most = Picture::MOST_DIGITS;
    match random.below(10) {
        0..=4 => random.between(1, 4),
        5..=7 => random.between(1, most),
        _ => random.pick(&[1, most - 1, most, most]),
    }
}

/// A text of so many digits that breaks no other rule than that on their number.
fn built(random: &mut Random, count: usize) -> Vec<u8> {
    let lead = random.pick(b"9ZZ**S+-$$");
    let drifts = b"S+-$".contains(&lead);
    let leads_signed = b"S+-".contains(&lead);
    let punched = (!leads_signed && random.percent(36)).then(|| random.pick(b"TIR"));
    let mut signs = if leads_signed || punched.is_some() { vec![b' '] } else { vec![random.pick(b"    S+-CD")] };
    signs.push(if lead != b'$' && random.percent(30) { b'$' } else { b' ' });
    let mark: &[u8] = match signs[0] {
        b'C' => b"CR",
        b'D' => b"DB",
        _ => b"",
    };
    signs.retain(|sign| b"S+-$".contains(sign));
    random.shuffle(&mut signs);
    let (mut front, back): (Vec<u8>, Vec<u8>) = signs.into_iter().partition(|_| random.percent(60));
    let start = front.len();
    front.extend(digits(random, count, lead, drifts, punched));
    let end = front.len();
    front.extend(back);
    stray_v(random, &mut front, start, end, drifts);
    let room = 64 - mark.len();
    let percent = match lead {
        b'9' => 0,
        b'Z' => 15,
        _ => 45,
    };
    if random.percent(percent) {
        hide_bs(random, &mut front, lead, room);
    }
    sprinkle(random, &mut front, room);
    let mut text = factored(random, &front);
    text.extend(mark);
    text
}

/// The digits with the first drifting symbol before them and, most times, a V among them. Where a sign is punched, a 9 is left for it.
fn digits(random: &mut Random, count: usize, lead: u8, drifts: bool, punched: Option<u8>) -> Vec<u8> {
    let v = random.percent(60).then(|| random.between(0, count));
    let mut suppressible = if lead == b'9' { 0 } else { random.between(1, count) };
    if punched.is_some() {
        suppressible = suppressible.min(count - 1).min(v.unwrap_or(count));
    } else if v.is_some_and(|v| v < suppressible) {
        suppressible = count;
    }
    let first = usize::from(drifts);
    let mut symbols = vec![lead; first + suppressible];
    symbols.resize(first + count, b'9');
    if let Some(punched) = punched {
        let (first_nine, last) = (first + suppressible, symbols.len() - 1);
        let any = random.between(first_nine, last);
        symbols[random.pick(&[first_nine, last, last, any, any])] = punched;
    }
    if let Some(v) = v {
        symbols.insert(first + v, b'V');
    }
    symbols
}

/// Lets a V that stands first or last among the digits stray among the static symbols beside them.
fn stray_v(random: &mut Random, symbols: &mut [u8], start: usize, end: usize, drifts: bool) {
    if !drifts && symbols[start] == b'V' {
        let to = random.between(0, start);
        symbols[to..=start].rotate_right(1);
    } else if symbols[end - 1] == b'V' {
        let to = random.between(end - 1, symbols.len() - 1);
        symbols[end - 1..=to].rotate_left(1);
    }
}

/// Puts runs of B among the leads, where they can be hidden: anywhere, behind the last, beside V, at times before all.
fn hide_bs(random: &mut Random, symbols: &mut Vec<u8>, lead: u8, room: usize) {
    for _ in 0..random.pick(&[1, 1, 1, 2, 3]) {
        let first = symbols.iter().position(|&s| s == lead).unwrap_or(0);
        let last = symbols.iter().rposition(|&s| s == lead).unwrap_or(0);
        let v = symbols.iter().position(|&s| s == b'V').unwrap_or(last);
        let at = match random.below(10) {
            0 => first,
            1..=3 => last + 1,
            4 => v + random.below(2),
            _ => random.between(first + 1, last + 1),
        };
        let run = random.pick(&[1, 1, 1, 2, 3]).min(room.saturating_sub(symbols.len()));
        symbols.splice(at..at, std::iter::repeat_n(b'B', run));
    }
}

/// Puts insertions anywhere: none, a few, or as many as the room takes.
fn sprinkle(random: &mut Random, symbols: &mut Vec<u8>, room: usize) {
    let free = room.saturating_sub(symbols.len());
    let count = match random.below(20) {
        0..=7 => 0,
        8..=14 => random.between(0, 4),
        15..=17 => random.between(0, 16),
        18 => random.between(0, free),
        _ => free,
    };
    let one_kind = random.percent(30).then(|| random.pick(INSERTIONS));
    for _ in 0..count.min(free) {
        let at = random.between(0, symbols.len());
        symbols.insert(at, one_kind.unwrap_or_else(|| random.pick(INSERTIONS)));
    }
}

/// The text of symbols, runs of them written with factors at random where the text stays within its bytes.
fn factored(random: &mut Random, symbols: &[u8]) -> Vec<u8> {
    let eager = random.pick(&[0, 10, 50, 90]);
    let mut text = Vec::new();
    let mut rest = symbols;
    while let Some(&symbol) = rest.first() {
        let run = rest.iter().take_while(|&&s| s == symbol).count();
        let taken = if random.percent(70) { run } else { random.between(1, run) };
        let wanted = random.percent(if taken > 1 { eager } else { eager / 10 });
        if b"VR".contains(&symbol) || !wanted {
            text.extend(std::iter::repeat_n(symbol, taken));
        } else if random.percent(30) {
            text.extend(format!("({taken:02})").bytes().chain([symbol]));
        } else {
            text.extend(format!("({taken})").bytes().chain([symbol]));
        }
        rest = &rest[taken..];
    }
    if text.len() > 126 {
        symbols.to_vec()
    } else {
        text
    }
}

/// The text with one or two bytes changed, put in, dropped or exchanged.
pub fn near_miss(random: &mut Random, mut text: Vec<u8>) -> Vec<u8> {
    for _ in 0..random.pick(&[1, 1, 1, 2]) {
        let at = random.below(text.len());
        let byte = match random.below(20) {
            0 => random.byte(),
            1..=5 => random.pick(ALPHABET),
            _ => random.pick(SYMBOLS),
        };
        match random.below(6) {
            _ if text.is_empty() => text.push(byte),
            0 | 1 => text[at] = byte,
            2 | 3 => text.insert(at, byte),
            4 => {
                text.remove(at);
            }
            _ => {
                let other = random.below(text.len());
                text.swap(at, other);
            }
        }
    }
    text
}

/// An accepted text with another end: one of those that look like a mark or a punched digit, or have a factor before it.
fn other_end(random: &mut Random) -> Vec<u8> {
    let ends = ["R", "CR", "RCR", "CRR", "T", "I", "TDB", "DBR", "(1)T", "(1)I", "(1)R", "(2)T", "(3)I", "(2)R"];
    let mut text = accepted(random);
    text.truncate(text.len() - random.below(3).min(text.len()));
    text.extend(random.pick(&ends).bytes());
    text
}

fn at_the_edges(random: &mut Random) -> Vec<u8> {
    let texts: Vec<&str> = EDGES.split('|').collect();
    random.pick(&texts).into()
}

/// A text of a length at an edge.
fn of_length(random: &mut Random) -> Vec<u8> {
    let length = random.pick(&[0, 127, 128, 129, 130]);
    match random.below(3) {
        0 => long_text(random, length),
        1 => (0..length).map(|_| random.pick(ALPHABET)).collect(),
        _ => vec![random.pick(b"9ZB"); length],
    }
}

/// A text of at most `limit` bytes and close to it, of few symbols but many factors of one.
fn long_text(random: &mut Random, limit: usize) -> Vec<u8> {
    let mut text = Vec::new();
    while text.len() + 8 < limit {
        text.extend(b"(01)");
        text.push(random.pick(INSERTIONS));
    }
    while text.len() < limit {
        text.push(b'9');
    }
    text
}

fn noise(random: &mut Random) -> Vec<u8> {
    let length = random.below(12);
    if random.percent(50) {
        random.bytes(length)
    } else {
        (0..length).map(|_| random.pick(ALPHABET)).collect()
    }
}
