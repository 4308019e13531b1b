//! Tables of calls that judge the file, against plain Rust that does not. Judging is timed with plain Rust behind it, so
//! that both find the caches as the library does in a call, and is taken out of the ratio.

use crate::timing;

/// Where less of a call than this is not judging, that rest is within the noise, and is not told.
const LEAST_REST: f64 = 0.05;

const GOAL: f64 = 1.0;

/// The table's head, with the names of the calls and of what they do beside judging.
pub fn head(calls: &str, rest: &str) {
    println!("| {calls} | call | judging | {rest} | plain Rust | ratio | goal |");
    println!("|---|---|---|---|---|---|---|");
}

/// A line of the table, by the times of so many calls, of as many judgings with plain Rust behind each, and of plain
/// Rust; without the last where it has nothing to do.
pub fn line(name: &str, took: &[Vec<f64>], calls: usize) {
    let [call, judged, plain @ ..] = took else {
        unreachable!("times for each call");
    };
    let plain = plain.first();
    let judging = plain.map_or(judged.clone(), |plain| less(judged, plain));
    let rest = less(call, &judging);
    let share = timing::ratio(&judging, call).clamp(0.0, 1.0);
    let micros = |took: &[f64]| {
        let each = 1e6 * timing::median(took.to_vec()) / calls as f64;
        format!("{each:.2}")
    };
    let told = 1.0 - share >= LEAST_REST;
    let ratio = plain
        .filter(|_| told)
        .map(|plain| timing::ratio(plain, &rest));
    let cells = [
        micros(call),
        format!("{:.1} %", 100.0 * share),
        if told { micros(&rest) } else { String::new() },
        plain.map(|plain| micros(plain)).unwrap_or_default(),
        ratio.map(|ratio| format!("{ratio:.2}")).unwrap_or_default(),
        ratio
            .map(|ratio| timing::goal(GOAL, ratio))
            .unwrap_or_default(),
    ];
    println!("| {name} | {} |", cells.join(" | "));
}

/// One time without another, round by round.
fn less(all: &[f64], part: &[f64]) -> Vec<f64> {
    all.iter().zip(part).map(|(all, part)| all - part).collect()
}
