//! What the directed sheets of the requests share that bring a kind of record: records and sheets
//! by kinds, every set of faults that a record can have, and the reports that are asked for.

use crate::draft::{run_in_record, stop_record, Draft, Pollutant, SMALL};
use crate::draft::{ENGINE, POLLUTANT, RUN_IN, SMALL_ENGINE, STOP};
use crate::paper::{measured_alone, Report, Reported};
use second::LONGEST_REPORT;

/// What is measured where nothing else is said.
pub const MEASURED: u32 = 140;

/// Of one pollutant, with so many engines at `MEASURED`.
pub fn draft(size: usize, plan: u8, number: u8, limit: u32, engines: usize) -> Draft {
    let pollutant = Pollutant {
        number,
        limit,
        deviation: deviation(plan),
    };
    let mut draft = Draft::new(size, plan, vec![pollutant]);
    for _ in 0..engines {
        draft.test(measured_alone(number, MEASURED), 0);
    }
    draft
}

/// One that plan 1 accepts.
fn deviation(plan: u8) -> u32 {
    if plan == 1 {
        500_000
    } else {
        0
    }
}

/// A record by its kind: pollutant 1 with the limit 200, an engine, a stop, a small engine or
/// run-in values; or zeros behind a kind that is none.
fn record(size: usize, plan: u8, kind: u8) -> Vec<u8> {
    match kind {
        POLLUTANT => draft(size, plan, 1, 200, 0).bytes(),
        ENGINE => draft(size, plan, 1, 200, 1).bytes().split_off(size),
        STOP => stop_record(size),
        SMALL_ENGINE => SMALL.record(size),
        RUN_IN => run_in_record(size, &measured_alone(1, MEASURED)),
        _ => {
            let mut record = vec![0; size];
            record[0] = kind;
            record
        }
    }
}

pub fn records(size: usize, plan: u8, kinds: &[u8]) -> Vec<u8> {
    let records = kinds.iter().map(|&kind| record(size, plan, kind));
    records.flatten().collect()
}

/// Some of the faults that a record can have.
#[derive(Clone, Copy)]
pub struct Faults {
    /// All of them, in the order of the refusals.
    numbers: &'static [u8],
    /// A bit for each.
    set: usize,
}

impl Faults {
    /// Every set of them.
    pub fn all(numbers: &'static [u8]) -> impl Iterator<Item = Faults> {
        (0..1 << numbers.len()).map(move |set| Faults { numbers, set })
    }

    pub fn first(self) -> Option<u8> {
        let mut numbers = self.numbers.iter().copied();
        numbers.find(|&number| self.have(number))
    }

    pub fn have(self, number: u8) -> bool {
        let place = self.numbers.iter().position(|&fault| fault == number);
        place.is_some_and(|place| self.set >> place & 1 == 1)
    }
}

/// Verdict, ground and engine, and no pollutant decided.
pub fn report(verdict: u8, ground: u8, engine: u8) -> Report {
    let mut report = [0; LONGEST_REPORT];
    report[..4].copy_from_slice(&[16, verdict, ground, engine]);
    report
}

/// "For another, the engines so far".
pub fn another_at(engines: u8) -> Reported {
    (0, report(0, 0, engines))
}

/// "A stop on an undecided series fails it at the engines tested".
pub fn stopped_at(engines: u8) -> Reported {
    (0, report(2, 3, engines))
}

/// One pollutant alone passes by a row.
pub fn pass_of(number: u8, engine: u8) -> Reported {
    let mut report = report(1, 1, engine);
    let place = 2 + 2 * usize::from(number);
    report[place..place + 2].copy_from_slice(&[1, engine]);
    (0, report)
}
