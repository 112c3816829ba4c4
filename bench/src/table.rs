//! The form of both tables: a line for each call and size, with the figures of a field for each side.

use crate::sides::{Call, Side};

/// The faster of GnuCOBOL's two moves, by their figures; None if they weren't made.
pub fn faster_move(call: Call, figure: impl Fn(Side) -> f64) -> Option<Side> {
    let moves = call.sides().iter().copied().filter(|side| matches!(side, Side::Binary | Side::Display));
    moves.min_by(|&one, &other| figure(one).total_cmp(&figure(other)))
}

/// The lines above the table; the words name the ratios to each side.
pub fn print_head(words: &[&str]) {
    let width = 9 * words.len().max(2);
    print!("{:10}{:>8}{:>10}{:>11}{:>15}{:>10}", "call", "fields", "library", "fast Rust", "judged before", "GnuCOBOL");
    println!("  {:>width$}  {:>width$}", "lib / fast Rust", "lib / GnuCOBOL");
    if words.len() > 1 {
        let words: String = words.iter().map(|word| format!("{word:>9}")).collect();
        println!("{:64}  {words}  {words}", "");
    }
}

/// One line: the figures of the library, the fast Rust, the fast Rust with its plan judged beforehand and GnuCOBOL, and the
/// library's ratios to the fast Rust and to GnuCOBOL.
pub fn print_line(call: Call, fields: usize, figures: [Option<f64>; 4], ratios: [&[f64]; 2]) {
    print!("{:10}{:>8}", call.name(), fields);
    for (figure, width) in figures.into_iter().zip([10, 11, 15, 10]) {
        print!("{:>width$}", figure.map_or("-".to_string(), |figure| format!("{figure:.1}")));
    }
    for of_side in ratios {
        let words: String = of_side.iter().map(|ratio| format!("{ratio:>9.3}")).collect();
        print!("  {:>18}", if words.is_empty() { "-" } else { &words });
    }
    println!();
}
