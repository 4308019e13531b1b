//! Times of calls that are made in turn, and what is told of them.

use std::time::Instant;

const ROUNDS: usize = 11;

/// The times of each call, in seconds, by rounds, in each of which every call is made once. A first round, to warm up,
/// does not count; `before` is done before each call, so that all find the caches alike.
pub fn rounds<W>(
    work: &mut W,
    before: impl Fn(&mut W),
    calls: &[impl Fn(&mut W)],
) -> Vec<Vec<f64>> {
    let mut all = vec![Vec::new(); calls.len()];
    for round in 0..=ROUNDS {
        for (call, took) in calls.iter().zip(&mut all) {
            before(work);
            let start = Instant::now();
            call(work);
            let seconds = start.elapsed().as_secs_f64();
            took.extend((round > 0).then_some(seconds));
        }
    }
    all
}

pub fn median(mut values: Vec<f64>) -> f64 {
    values.sort_by(f64::total_cmp);
    values[values.len() / 2]
}

/// The median of the rounds' ratios.
pub fn ratio(other: &[f64], own: &[f64]) -> f64 {
    let ratios = other.iter().zip(own).map(|(other, own)| other / own);
    median(ratios.collect())
}

/// A goal, and whether a ratio meets it.
pub fn goal(goal: f64, ratio: f64) -> String {
    let end = if ratio >= goal { "met" } else { "missed" };
    format!("{goal:.1}, {end}")
}
