//! Plan 3 as directed sheets: every count of engines over the limit that a series can be open with
//! at every row, and both ways on from it; and the same on run-in sheets (F-2), where the first
//! engine counts by its value after running-in, and the others by what they are corrected to.

use crate::paper::{Chosen, Paper, Single};
use second::{Decision, Document, Document01};

const LIMIT: u32 = 150;

/// The value after running-in and what was measured before: at the limit, under it and over it,
/// with a coefficient below one, of one and above one. With 149 and 151 the corrected limit, L x
/// x_1 / value, is no whole number.
const RUN_IN: [(u32, u32); 8] = [
    (150, 75),
    (150, 150),
    (150, 450),
    (149, 151),
    (151, 302),
    (151, 149),
    (225, 15),
    (1, 1),
];

/// Of the last pollutant.
pub fn sheets(paper: &Paper, size: usize) -> Vec<Chosen> {
    let plain = Single {
        plan: 3,
        limit: LIMIT,
        deviation: 0,
        run_in: None,
        measurements: Vec::new(),
    };
    let run_in = RUN_IN.map(|(value, first)| Single {
        run_in: Some(value),
        measurements: vec![first],
        ..plain.clone()
    });
    let begun = run_in.into_iter().chain([plain]);
    begun
        .flat_map(|series| ways_on(paper, size, series))
        .collect()
}

fn ways_on(paper: &Paper, size: usize, begun: Single) -> Vec<Chosen> {
    let number = Document01.pollutants(size) as u8;
    let mut sheets = Vec::new();
    let rest = begun.measurements.len()..paper.last_row(3);
    let mut open = vec![begun];
    for _ in rest {
        let next: Vec<Single> = open.iter().flat_map(both_ways).collect();
        let chosen = |series| paper.chosen(series, size, number);
        sheets.extend(next.iter().map(chosen));
        let is_open = |series: &Single| paper.outcome(series).0 == Decision::Open;
        open = next.into_iter().filter(is_open).collect();
        open.sort_by_key(over);
        open.dedup_by_key(|series| over(series));
    }
    sheets
}

/// One more engine at the limit, or as near under it as a corrected one gets, or just over it.
fn both_ways(series: &Single) -> [Single; 2] {
    let highest = highest_under(series);
    [highest, highest + 1].map(|x| {
        let mut longer = series.clone();
        longer.measurements.push(x);
        longer
    })
}

/// The highest measurement that is not over the limit: with F-2 the highest whole x with "x_j x
/// value" not above "L x x_1".
fn highest_under(series: &Single) -> u32 {
    match (series.run_in, series.measurements.first()) {
        (Some(value), Some(first)) => LIMIT * first / value,
        _ => LIMIT,
    }
}

fn over(series: &Single) -> usize {
    let highest = highest_under(series);
    series.measurements.iter().filter(|&&x| x > highest).count()
}
