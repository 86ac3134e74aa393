//! Document 02, F-6, as directed sheets: series of one pollutant that stay open up to row 30 and
//! end in row 31 or 32, each under plan 2 and under plan 5, "A is 449 at 31, A and B are 3876 at
//! 32". With A above zero they lie on all sides of its rule "P <= 0 or P squared <= A squared x W":
//! P below -A root W, from there to zero, from zero to A root W, and above it. What has to be
//! answered stands beside each series; neither the paper nor an implementation is asked.

use crate::paper::{Chosen, Single};
use second::Decision::{self, Fail, Open, Pass};
use second::{Document, Document01};

const LIMIT: u32 = 2000;
/// Double and half of the limit, whose d_j add up to zero.
const IN_TURN: [u32; 2] = [4000, 1000];

/// One measurement, and what plans 2 and 5 decide.
type Answers = (u32, Decision, Decision);

/// At 31, by the first measurement; fifteen times `IN_TURN` follow it.
const AT_31: [Answers; 5] = [
    (1500, Pass, Pass),
    (1900, Open, Pass),
    (2000, Open, Pass),
    (2199, Open, Pass),
    (2200, Open, Open),
];

/// At 32, by the last measurement; fifteen times `IN_TURN` and a measurement of 4000 precede it.
/// With 1000 as the last it is sixteen times `IN_TURN`.
const AT_32: [Answers; 5] = [
    (250, Pass, Pass),
    (500, Fail, Pass),
    (1000, Fail, Pass),
    (2330, Fail, Pass),
    (2331, Fail, Fail),
];

/// Each series for each pollutant, under plan 2 and under plan 5.
pub fn sheets(size: usize) -> Vec<Chosen> {
    let at_31 = AT_31.map(|(first, plan_2, plan_5)| {
        let measurements = [vec![first], IN_TURN.repeat(15)].concat();
        (measurements, [(2, plan_2), (5, plan_5)])
    });
    let at_32 = AT_32.map(|(last, plan_2, plan_5)| {
        let measurements = [IN_TURN.repeat(15), vec![4000, last]].concat();
        (measurements, [(2, plan_2), (5, plan_5)])
    });
    let mut sheets = Vec::new();
    for number in 1..=Document01.pollutants(size) as u8 {
        for (measurements, decisions) in at_31.iter().chain(&at_32) {
            for &(plan, decision) in decisions {
                let series = Single {
                    plan,
                    limit: LIMIT,
                    deviation: 0,
                    run_in: None,
                    measurements: measurements.clone(),
                };
                sheets.push(series.with_report(size, number, decision, measurements.len()));
            }
        }
    }
    sheets
}
