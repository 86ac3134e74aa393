//! Plan 4's own rules as directed sheets: gross emitters of equal and of different cause at every
//! place, referral, and row 3 left open (F-11); and what has to be reported of a sheet of plan 4,
//! also with pending vehicles (F-5): what comes before the statistics by the documents' words, and
//! the statistics by the paper. Neither implementation is asked.

use crate::draft::{Draft, Engine, Measurements, Pollutant, LARGEST_CAUSE, PENDING};
use crate::kinds::report;
use crate::paper::{Chosen, Paper, Report, Single, Sums};
use random::Random;
use second::{Decision, Document, Document01, MOST_POLLUTANTS};

pub const LIMIT: u32 = 1000;
const GROSS: u32 = 1501;

/// Verdict and ground.
pub type Ending = [u8; 2];

pub const ANOTHER: Ending = [0, 0];
pub const PASS: Ending = [1, 1];
const FAIL: Ending = [2, 1];
pub const EQUAL_CAUSE: Ending = [2, 2];
const REFERRED: Ending = [3, 4];
pub const HELD: Ending = [4, 5];

/// Every placing of two or three gross emitters among up to 15 vehicles, with causes equal or
/// not, over series that pass, fail or stay open otherwise; or one of so many.
pub fn sheets(paper: &Paper, size: usize, one_in: usize) -> Vec<Chosen> {
    let mut random = Random::new(0x5E41);
    let mut all = Vec::new();
    for count in 3..=15 {
        for tame in [Tame::Low, Tame::Mixed, Tame::High] {
            let series = |gross| Series { count, gross, tame };
            all.extend(placings(count, &mut random).into_iter().map(series));
        }
    }
    let some = all.iter().step_by(one_in);
    some.map(|series| chosen(paper, &series.draft(size, &mut random)))
        .collect()
}

/// Gross emitters by their places, counted from 0, and their causes.
pub type Placing = Vec<(usize, u16)>;

/// So many vehicles, with these gross emitters among them.
pub struct Series {
    pub count: usize,
    pub gross: Placing,
    pub tame: Tame,
}

/// None, one at every place, two at every two places, and a third anywhere.
fn placings(count: usize, random: &mut Random) -> Vec<Placing> {
    let mut placings = vec![vec![]];
    for first in 0..count {
        placings.push(vec![(first, 7)]);
        for second in first + 1..count {
            for causes in [[7, 7], [7, 8], [LARGEST_CAUSE; 2], [1, 257]] {
                placings.push(vec![(first, causes[0]), (second, causes[1])]);
            }
            let third = random.below(count);
            placings.push(vec![(first, 7), (second, 8), (third, 7)]);
        }
    }
    placings
}

/// What the vehicles measure that are no gross emitters.
#[derive(Clone, Copy)]
pub enum Tame {
    Low,
    Mixed,
    High,
    /// Mixed, but of several pollutants the first is even and low, and passes.
    FirstPasses,
}

/// Pollutant 1 alone, 3 alone, 2 and 4, or the last two, so that a vehicle is a gross emitter by each
/// of them alone.
fn declared(size: usize, random: &mut Random) -> Vec<u8> {
    let last = Document01.pollutants(size) as u8;
    random
        .pick(&[&[1][..], &[3], &[2, 4], &[last - 1, last]])
        .to_vec()
}

impl Series {
    pub fn draft(&self, size: usize, random: &mut Random) -> Draft {
        let pollutant = |&number: &u8| Pollutant {
            number,
            limit: LIMIT,
            deviation: 0,
        };
        let numbers = declared(size, random);
        let mut draft = Draft::new(size, 4, numbers.iter().map(pollutant).collect());
        for place in 0..self.count {
            let mut gross = self.gross.iter();
            let cause = gross.find(|(at, _)| *at == place).map(|&(_, cause)| cause);
            let mut measurements = self.tame.measurements(place, &numbers, random);
            if cause.is_some() {
                let number = usize::from(random.pick(&numbers));
                measurements[number - 1] = GROSS + random.between(0, 20);
            }
            draft.test(measurements, cause.unwrap_or(0));
        }
        draft
    }
}

impl Tame {
    fn measurements(self, place: usize, numbers: &[u8], random: &mut Random) -> Measurements {
        let mut measurements = [0; MOST_POLLUTANTS];
        for &number in numbers {
            measurements[usize::from(number) - 1] = match self {
                Tame::Low => random.between(700, 1000),
                Tame::FirstPasses if numbers.len() > 1 && number == numbers[0] => 500,
                Tame::Mixed | Tame::FirstPasses => [600, 1400][place % 2] + random.between(0, 100),
                Tame::High => random.between(1350, 1500),
            };
        }
        measurements
    }
}

pub fn chosen(paper: &Paper, draft: &Draft) -> Chosen {
    Chosen {
        sheet: draft.bytes(),
        reported: (0, answer(paper, draft)),
    }
}

/// One pollutant after the vehicles so far.
struct Standing {
    number: u8,
    sums: Sums,
    decision: Decision,
    row: usize,
}

/// What has to be reported of a sheet of plan 4 that is accepted.
pub fn answer(paper: &Paper, draft: &Draft) -> Report {
    let mut standings: Vec<Standing> = draft.pollutants.iter().map(Standing::new).collect();
    for (n, vehicle) in (1..).zip(&draft.engines) {
        for standing in &mut standings {
            standing.test(vehicle);
        }
        let causes: Vec<u16> = draft.engines[..n].iter().map(|one| one.cause).collect();
        let ending = match n {
            ..3 => None,
            _ => before_statistics(&causes).or_else(|| statistics(paper, &causes, &mut standings)),
        };
        if let Some(ending) = ending {
            return with_pairs(ending, n, &standings);
        }
    }
    with_pairs(ANOTHER, draft.engines.len(), &standings)
}

/// "In order: two gross emitters of equal cause among the first n: the series fails"; of F-5, "two
/// equal known causes still fail the series; otherwise the verdict is 4 [..] with ground 5"; "n = 15
/// and two or more gross emitters: referred to the authority". A cause of 0 is that of a vehicle
/// that is no gross emitter.
fn before_statistics(causes: &[u16]) -> Option<Ending> {
    let gross = causes.iter().copied().filter(|&cause| cause != 0);
    let (pending, mut known): (Vec<u16>, Vec<u16>) = gross.partition(|&cause| cause == PENDING);
    known.sort_unstable();
    if known.windows(2).any(|two| two[0] == two[1]) {
        Some(EQUAL_CAUSE)
    } else if !pending.is_empty() {
        Some(HELD)
    } else if causes.len() == 15 && known.len() >= 2 {
        Some(REFERRED)
    } else {
        None
    }
}

/// "Any fail in a row: the series fails there [..]. All passed: pass." F-11: "only row 3 is left
/// open for gross emitters", whichever pollutant makes a vehicle one.
fn statistics(paper: &Paper, causes: &[u16], standings: &mut [Standing]) -> Option<Ending> {
    if causes.len() == 3 && causes.iter().any(|&cause| cause != 0) {
        return None;
    }
    for standing in standings.iter_mut() {
        standing.decide(paper, causes.len());
    }
    let mut decisions = standings.iter().map(|standing| standing.decision);
    if decisions.clone().any(|decision| decision == Decision::Fail) {
        Some(FAIL)
    } else if decisions.all(|decision| decision == Decision::Pass) {
        Some(PASS)
    } else {
        None
    }
}

impl Standing {
    fn new(pollutant: &Pollutant) -> Self {
        let series = Single {
            plan: 4,
            limit: pollutant.limit,
            deviation: 0,
            run_in: None,
            measurements: Vec::new(),
        };
        Standing {
            number: pollutant.number,
            sums: Sums::none(&series),
            decision: Decision::Open,
            row: 0,
        }
    }

    fn test(&mut self, vehicle: &Engine) {
        let x = vehicle.measurements[usize::from(self.number) - 1];
        self.sums = self.sums.with(x);
    }

    /// "A pollutant that has passed is not looked at again."
    fn decide(&mut self, paper: &Paper, n: usize) {
        if self.decision == Decision::Open {
            self.decision = paper.row(4, &self.sums);
            self.row = n;
        }
    }
}

/// A pair for each pollutant that is decided.
fn with_pairs([verdict, ground]: Ending, n: usize, standings: &[Standing]) -> Report {
    let mut report = report(verdict, ground, n as u8);
    for standing in standings {
        if standing.decision != Decision::Open {
            let place = 2 + 2 * usize::from(standing.number);
            report[place] = standing.decision as u8;
            report[place + 1] = standing.row as u8;
        }
    }
    report
}
