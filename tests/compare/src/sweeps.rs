//! What a corpus of chosen and random sheets leaves out: every logarithm, on run-in sheets too, and
//! every cause, each through report, with the report that has to be written.

use crate::draft::{Draft, Measurements, Pollutant, LARGEST, PENDING};
use crate::paper::{Cell, Chosen, Line, Paper, Report};
use second::{Decision, Document, Document01, LONGEST_REPORT, MOST_POLLUTANTS};
use std::ops::RangeInclusive;

/// Two sheets of plan 1 with every pollutant of the size and three engines. Each pollutant stands
/// on a line of row 3: all decide on the first sheet, and none on the second.
///
/// A unit of T is 693,147,181, and a unit of t is A x 1,048,576 or |B| x 1,048,576, which is 5 or 7
/// times as much. So the deviation alone can't put every T on a line, and the third engine does it:
/// on the first sheet |T| is the least whole number that decides, and on the second, where g of the
/// third measurement is another by one, it is one unit less. The limits, the deviations, the run-in
/// values and the first two engines are the same on both. So a g of theirs that is off by one
/// changes a report: the first if |T| gets smaller by it, and the second if |T| gets larger. Should
/// a number stand in several places, its g does not cancel out: a limit's counts three times in T,
/// and no more than twice the other way; on a run-in sheet the limit's three times and that of x_1
/// twice, and the other way the run-in value's three times and each other engine's once.
pub struct LogarithmTrial {
    pub begun: Vec<Begun>,
    pub sheets: [Chosen; 2],
}

/// One pollutant of a trial, all but the third engine and the deviation.
#[derive(Clone, Copy)]
pub struct Begun {
    pub limit: u32,
    pub run_in: Option<u32>,
    pub first_two: [u32; 2],
}

/// Which trials there are: a pollutant for each m that can be measured.
#[derive(Clone, Copy)]
pub enum Sweep {
    /// Every m is a limit, and a measurement of the first two engines.
    Plain,
    /// Every m is a run-in value, and what the run-in engine measured before.
    RunIn,
}

impl Sweep {
    fn begun(self, m: u32) -> Begun {
        match self {
            Sweep::Plain => Begun {
                limit: m,
                run_in: None,
                first_two: first_two(m),
            },
            // About twice the limit, and so nearly unchanged by running-in.
            Sweep::RunIn => Begun {
                limit: m.div_ceil(2),
                run_in: Some(m),
                first_two: [neighbour(m), m],
            },
        }
    }
}

/// All trials, or one part of `step` of them.
pub fn logarithm_trials(
    paper: &Paper,
    sweep: Sweep,
    size: usize,
    step: usize,
) -> impl Iterator<Item = LogarithmTrial> {
    trials(paper, sweep, size, several(size).step_by(step))
}

/// Those of all trials that have m in a place that is gone through.
pub fn logarithm_trials_with(
    paper: &Paper,
    sweep: Sweep,
    size: usize,
    m: u32,
) -> impl Iterator<Item = LogarithmTrial> {
    let has_m = move |number| {
        let begun = sweep.begun(number);
        let measured = begun.first_two.into_iter().chain(begun.run_in);
        measured.chain([begun.limit]).any(|place| place == m)
    };
    let ranges = several(size).filter(move |numbers| numbers.clone().any(has_m));
    trials(paper, sweep, size, ranges)
}

fn trials(
    paper: &Paper,
    sweep: Sweep,
    size: usize,
    ranges: impl Iterator<Item = RangeInclusive<u32>>,
) -> impl Iterator<Item = LogarithmTrial> {
    let lines = RowThree::new(paper);
    ranges.map(move |numbers| {
        let pollutants: Vec<OnLine> = numbers.map(|m| lines.pollutant(sweep.begun(m))).collect();
        trial(size, &pollutants)
    })
}

/// As many numbers as a sheet has pollutants, one after the other. The last overlap those before.
fn several(size: usize) -> impl Iterator<Item = RangeInclusive<u32>> {
    let more = Document01.pollutants(size) as u32 - 1;
    let first = (1..=LARGEST).step_by(more as usize + 1);
    first.map(move |first| {
        let first = first.min(LARGEST - more);
        first..=first + more
    })
}

fn trial(size: usize, pollutants: &[OnLine]) -> LogarithmTrial {
    let decisions = pollutants.iter().map(|pollutant| pollutant.decision);
    LogarithmTrial {
        begun: pollutants.iter().map(|pollutant| pollutant.begun).collect(),
        sheets: [
            Chosen {
                sheet: sheet(size, pollutants, |pollutant| pollutant.deciding),
                reported: (0, decided_at_3(decisions)),
            },
            Chosen {
                sheet: sheet(size, pollutants, |pollutant| pollutant.beyond),
                reported: (0, ANOTHER_AT_3),
            },
        ],
    }
}

fn sheet(size: usize, pollutants: &[OnLine], third: fn(&OnLine) -> u32) -> Vec<u8> {
    let declared = (1..).zip(pollutants).map(|(number, on_line)| Pollutant {
        number,
        limit: on_line.begun.limit,
        deviation: on_line.deviation,
    });
    let mut draft = Draft::new(size, 1, declared.collect());
    draft.run_in = measured(pollutants, |pollutant| pollutant.begun.run_in);
    for place in 0..3 {
        let measurements = measured(pollutants, |pollutant| {
            let [first, second] = pollutant.begun.first_two;
            Some([first, second, third(pollutant)][place])
        });
        draft.test(measurements.expect("every pollutant is measured"), 0);
    }
    draft.bytes()
}

/// What is measured of each pollutant; none if there is nothing.
fn measured(pollutants: &[OnLine], x: impl Fn(&OnLine) -> Option<u32>) -> Option<Measurements> {
    let mut measurements = [0; MOST_POLLUTANTS];
    for (measurement, pollutant) in measurements.iter_mut().zip(pollutants) {
        *measurement = x(pollutant)?;
    }
    Some(measurements)
}

/// A pollutant with what three engines measure.
struct OnLine {
    begun: Begun,
    deviation: u32,
    /// The third measurement with which the pollutant decides, and how it does.
    deciding: u32,
    decision: Decision,
    /// The third measurement with which |T| is one unit less.
    beyond: u32,
}

/// Plan 1's lines in row 3.
struct RowThree {
    pass: i64,
    fail: i64,
    /// Third measurements: g rises by one from each to the next, and that of `THIRD` is in the
    /// middle.
    third: [u32; 2 * MOST_MOVED as usize + 1],
}

/// What the third engine measures, or nearly so.
const THIRD: u32 = 3_000_000;

/// How far |T| is moved from what it is with `THIRD`: less than 7.2, which is a unit of t, and by
/// one more on the second sheet.
const MOST_MOVED: i64 = 8;

impl RowThree {
    fn new(paper: &Paper) -> Self {
        let number = |line| {
            let (plan, row) = (1, 3);
            paper.number(Cell { plan, row, line }) as i64
        };
        let third = |place| {
            let wanted = Document01.g(THIRD) - MOST_MOVED + place as i64;
            let mut near = THIRD - 100..THIRD + 100;
            let found = near.find(|&m| Document01.g(m) == wanted);
            found.expect("g takes every value there")
        };
        RowThree {
            pass: number(Line::Pass),
            fail: number(Line::Fail),
            third: std::array::from_fn(third),
        }
    }

    /// By the rule "T x 693,147,181 > A x t x" 1,048,576, or with |T| and |B|. The two sides are
    /// never equal, so that the least |T| that decides is the quotient rounded down, and one more.
    fn pollutant(&self, begun: Begun) -> OnLine {
        let g = |m| Document01.g(m);
        let Begun {
            limit,
            run_in,
            first_two,
        } = begun;
        let shift = run_in.map_or(0, |value| g(value) - g(first_two[0]));
        let t = 3 * (g(limit) - shift) - first_two.map(g).iter().sum::<i64>() - g(THIRD);
        let (number, decision) = if t > 0 {
            (self.pass, Decision::Pass)
        } else {
            (self.fail, Decision::Fail)
        };
        let unit = number.abs() * 1_048_576;
        let deviation = t.abs() * 693_147_181 / unit;
        let least = deviation * unit / 693_147_181 + 1;
        OnLine {
            begun,
            deviation: deviation as u32,
            deciding: self.third_with(t, least),
            decision,
            beyond: self.third_with(t, least - 1),
        }
    }

    /// The third measurement for another |T| than with `THIRD`: the higher its g, the lower is T.
    fn third_with(&self, t: i64, wanted: i64) -> u32 {
        let moved = (t.abs() - wanted) * t.signum();
        self.third[(MOST_MOVED + moved) as usize]
    }
}

/// About twice the limit while that can be measured, and about half of it above.
fn first_two(limit: u32) -> [u32; 2] {
    if limit <= LARGEST.div_ceil(2) {
        [2 * limit - 1, LARGEST.min(2 * limit)]
    } else {
        [limit / 2, limit / 2 + 1]
    }
}

/// The number that an odd m is one less than, and an even m one more; of the largest m itself.
fn neighbour(m: u32) -> u32 {
    if m.is_multiple_of(2) {
        m - 1
    } else {
        LARGEST.min(m + 1)
    }
}

const ANOTHER_AT_3: Report = report_at_3(0, 0);
const EQUAL_CAUSE_AT_3: Report = report_at_3(2, 2);
const HELD_AT_3: Report = report_at_3(4, 5);

/// Every pollutant open.
const fn report_at_3(verdict: u8, ground: u8) -> Report {
    let mut report = [0; LONGEST_REPORT];
    report[0] = 16;
    report[1] = verdict;
    report[2] = ground;
    report[3] = 3;
    report
}

/// "Any fail in a row: the series fails there, and every other pollutant deciding in that row
/// keeps its decision. All passed: pass."
fn decided_at_3(decisions: impl Iterator<Item = Decision> + Clone) -> Report {
    let any_fails = decisions.clone().any(|decision| decision == Decision::Fail);
    let verdict = if any_fails {
        Decision::Fail
    } else {
        Decision::Pass
    };
    let mut report = report_at_3(verdict as u8, 1);
    for (place, decision) in decisions.enumerate() {
        report[4 + 2 * place] = decision as u8;
        report[5 + 2 * place] = 3;
    }
    report
}

/// Every cause, or one of `step`, twice among three vehicles, which fails them, and beside each
/// cause that differs from it in one bit, which leaves row 3 open. F-5: the last of them is none
/// that is known, and holds the series, twice too.
pub fn cause_sheets(size: usize, step: usize) -> impl Iterator<Item = Chosen> {
    let causes = (1..=PENDING).step_by(step);
    causes.flat_map(move |cause| {
        let others = (0..16).map(move |bit| cause ^ 1 << bit);
        let others = others.chain([cause]).filter(|&other| other != 0);
        others.map(move |other| {
            let report = match [cause, other] {
                causes if causes.contains(&PENDING) => HELD_AT_3,
                [one, other] if one == other => EQUAL_CAUSE_AT_3,
                _ => ANOTHER_AT_3,
            };
            vehicles(size, [cause, other], report)
        })
    })
}

/// Two gross emitters by the last pollutant, and a third vehicle, which has each place in turn.
fn vehicles(size: usize, causes: [u16; 2], report: Report) -> Chosen {
    let number = Document01.pollutants(size) as u8;
    let pollutant = Pollutant {
        number,
        limit: 1000,
        deviation: 0,
    };
    let measured = |x| -> Measurements {
        let mut measurements = [0; MOST_POLLUTANTS];
        measurements[usize::from(number) - 1] = x;
        measurements
    };
    let mut draft = Draft::new(size, 4, vec![pollutant]);
    for cause in causes {
        draft.test(measured(1501), cause);
    }
    draft.test(measured(900), 0);
    draft.engines.swap(usize::from(causes[0]) % 3, 2);
    Chosen {
        sheet: draft.bytes(),
        reported: (0, report),
    }
}
