//! "Plans" and "The series": walks the rows of a checked sheet and answers verdict, engine,
//! ground and the decision on each pollutant.

use crate::check::{check, Record, Refusal, Series, MOST_POLLUTANTS};
use crate::document::Document;

#[derive(Clone, Copy, Debug, PartialEq, Eq)]
#[repr(u8)]
pub enum Verdict {
    Another = 0,
    Pass = 1,
    Fail = 2,
    Referred = 3,
    /// F-5: "the verdict is 4, printed `held`".
    Held = 4,
}

#[derive(Clone, Copy, Debug, PartialEq, Eq)]
#[repr(u8)]
pub enum Ground {
    None = 0,
    Row = 1,
    EqualCause = 2,
    Stopped = 3,
    Referred = 4,
    /// F-5: "at that row with ground 5".
    Held = 5,
}

#[derive(Clone, Copy, Debug, PartialEq, Eq)]
#[repr(u8)]
pub enum Decision {
    Open = 0,
    Pass = 1,
    Fail = 2,
}

#[derive(Clone, Copy, Debug, PartialEq, Eq)]
pub struct Judgement {
    pub verdict: Verdict,
    /// "For another, the engines so far".
    pub engine: u8,
    pub ground: Ground,
    /// Decision and engine of each pollutant, "0 where the decision is 0", as they are of one that
    /// the size has no place for.
    pub decisions: [(Decision, u8); MOST_POLLUTANTS],
}

impl Judgement {
    /// A sheet is "decided if its verdict is then not another"; and of F-5: "A held sheet counts as
    /// undecided".
    pub fn is_decided(&self) -> bool {
        !matches!(self.verdict, Verdict::Another | Verdict::Held)
    }
}

/// How a row, a stop or the last engine ends the series.
pub type Ending = (Verdict, Ground);

/// What row n is asked about one pollutant.
pub struct Row {
    pub plan: u8,
    pub n: usize,
    /// t, the deviation in millionths.
    pub deviation: u32,
    /// D, "the sum of the d_j over n engines".
    pub d: i64,
    /// The sum of the d_j squared.
    pub squares: i64,
    /// c, "engines with x > L".
    pub c: i64,
}

/// Of one pollutant on a run-in sheet (F-2): "the first engine's" value "after running-in", and
/// x_1, what it measured before. As numbers, or as their logarithms.
#[derive(Clone, Copy)]
pub struct RunIn<T> {
    pub value: T,
    pub first: T,
}

/// What an engine measured of one pollutant, and what that is held against. As numbers, or as their
/// logarithms.
#[derive(Clone, Copy)]
pub struct Measured<T> {
    /// j, counted from 1.
    pub engine: usize,
    pub x: T,
    pub limit: T,
    /// None but on a run-in sheet.
    pub run_in: Option<RunIn<T>>,
}

/// One declared pollutant: what its measurements are held against, and the running sums over the
/// engines so far. The logarithms are 0 in plan 3, which takes none.
struct Standing {
    limit: u32,
    limit_logarithm: i64,
    run_in: Option<RunIn<u32>>,
    run_in_logarithms: Option<RunIn<i64>>,
    deviation: u32,
    decision: Decision,
    engine: u8,
    d: i64,
    squares: i64,
    c: i64,
}

type Standings = [Option<Standing>; MOST_POLLUTANTS];

/// The gross emitters among the vehicles so far, under plan 4.
pub struct GrossEmitters {
    causes: [u16; 15],
    places: [usize; 15],
    pub count: usize,
    pub equal_cause: bool,
    /// How many of them have no finding yet.
    pub pending: usize,
}

pub fn judge<D: Document + ?Sized>(
    document: &D,
    size: usize,
    sheet: &[u8],
) -> Result<Judgement, Refusal> {
    let series = check(document, size, sheet)?;
    Ok(walk(document, &series))
}

/// "Rows are walked from 3", each with the engine that makes it.
pub(crate) fn walk<D: Document + ?Sized>(document: &D, series: &Series) -> Judgement {
    let mut standings = open_standings(document, series);
    let mut gross = GrossEmitters::none();
    for (n, engine) in (1..).zip(series.engines(document)) {
        for (pollutant, standing) in standings.iter_mut().enumerate() {
            if let Some(standing) = standing {
                let x = document.measurement(engine, pollutant);
                standing.add(document, series.plan, n, x);
            }
        }
        gross.add(document, n, engine);
        if !document.is_row(n) {
            continue;
        }
        if let Some(ending) = row(document, series.plan, n, &mut standings, &gross) {
            let (ending, n) = document.ended(ending, n, series);
            return judgement(document, ending, n, &standings);
        }
    }
    let ending = document.undecided(series);
    judgement(document, ending, series.tested, &standings)
}

fn judgement<D: Document + ?Sized>(
    document: &D,
    ending: Ending,
    n: usize,
    standings: &Standings,
) -> Judgement {
    let mut decisions = [(Decision::Open, 0); MOST_POLLUTANTS];
    for (decision, standing) in decisions.iter_mut().zip(standings) {
        if let Some(standing) = standing {
            *decision = match standing.decision {
                Decision::Open => document.left_open(ending, n),
                decided => (decided, standing.engine),
            };
        }
    }
    Judgement {
        verdict: ending.0,
        engine: n as u8,
        ground: ending.1,
        decisions,
    }
}

/// One row: plan 4's gross emitters "before a row's statistics", then every open pollutant.
fn row<D: Document + ?Sized>(
    document: &D,
    plan: u8,
    n: usize,
    standings: &mut Standings,
    gross: &GrossEmitters,
) -> Option<Ending> {
    if plan != 4 {
        return statistics(document, plan, n, standings);
    }
    let before = document.before_statistics(n, gross);
    if document.is_left_open(n, gross) {
        return before;
    }
    document.row_ending(before, &mut || statistics(document, plan, n, standings))
}

/// "Any fail in a row: the series fails there [..]. All passed: pass."
fn statistics<D: Document + ?Sized>(
    document: &D,
    plan: u8,
    n: usize,
    standings: &mut Standings,
) -> Option<Ending> {
    let mut any_failed = false;
    let mut all_passed = true;
    for standing in standings.iter_mut().flatten() {
        if !document.row_goes_on(any_failed) {
            break;
        }
        standing.decide(document, plan, n);
        any_failed |= standing.decision == Decision::Fail;
        all_passed &= standing.decision == Decision::Pass;
    }
    if any_failed {
        Some((Verdict::Fail, Ground::Row))
    } else if all_passed {
        Some((Verdict::Pass, Ground::Row))
    } else {
        None
    }
}

fn open_standings<D: Document + ?Sized>(document: &D, series: &Series) -> Standings {
    std::array::from_fn(|pollutant| {
        let limit = series.limits[pollutant];
        document.is_judged(pollutant, limit).then(|| {
            let logarithm = |m| match series.plan {
                3 => 0,
                plan => document.g_under(plan, m),
            };
            let run_in = document.run_in(series, pollutant);
            Standing {
                limit,
                limit_logarithm: logarithm(limit),
                run_in,
                run_in_logarithms: run_in.map(|RunIn { value, first }| RunIn {
                    value: logarithm(value),
                    first: logarithm(first),
                }),
                deviation: series.deviations[pollutant],
                decision: Decision::Open,
                engine: 0,
                d: 0,
                squares: 0,
                c: 0,
            }
        })
    })
}

impl Standing {
    /// Adds what one engine measured to the sums that its plan needs.
    fn add<D: Document + ?Sized>(&mut self, document: &D, plan: u8, engine: usize, x: u32) {
        if !document.is_looked_at(self.decision) {
            return;
        }
        let numbers = Measured {
            engine,
            x,
            limit: self.limit,
            run_in: self.run_in,
        };
        if plan == 3 {
            self.c += i64::from(document.is_over(numbers));
        } else {
            let logarithms = Measured {
                engine,
                x: document.g_under(plan, x),
                limit: self.limit_logarithm,
                run_in: self.run_in_logarithms,
            };
            self.d += document.difference(numbers, logarithms);
            self.squares += document.difference_squared(numbers, logarithms);
        }
    }

    /// Takes what row n gives, if that is news.
    fn decide<D: Document + ?Sized>(&mut self, document: &D, plan: u8, n: usize) {
        if !document.is_looked_at(self.decision) {
            return;
        }
        let decision = document.decision(&self.row(plan, n));
        if decision != Decision::Open && decision != self.decision {
            self.decision = decision;
            self.engine = n as u8;
        }
    }

    fn row(&self, plan: u8, n: usize) -> Row {
        Row {
            plan,
            n,
            deviation: self.deviation,
            d: self.d,
            squares: self.squares,
            c: self.c,
        }
    }
}

impl GrossEmitters {
    fn none() -> Self {
        GrossEmitters {
            causes: [0; 15],
            places: [0; 15],
            count: 0,
            equal_cause: false,
            pending: 0,
        }
    }

    /// Vehicle n, checked, is a gross emitter just when its cause is not zero.
    fn add<D: Document + ?Sized>(&mut self, document: &D, n: usize, vehicle: &Record) {
        let cause = document.cause(vehicle);
        if cause != 0 {
            self.equal_cause |= document.is_equal_cause(&self.causes[..self.count], cause);
            self.pending += usize::from(document.is_pending(cause));
            self.causes[self.count] = cause;
            self.places[self.count] = n;
            self.count += 1;
        }
    }

    /// Whether vehicle n is one, which wrong readings ask for.
    pub fn has(&self, n: usize) -> bool {
        self.cause_of(n).is_some()
    }

    /// The cause of vehicle n if it is one, which wrong readings ask for.
    pub fn cause_of(&self, n: usize) -> Option<u16> {
        let mut causes = self.places.iter().zip(self.causes).take(self.count);
        let (_, cause) = causes.find(|(&place, _)| place == n)?;
        Some(cause)
    }
}
