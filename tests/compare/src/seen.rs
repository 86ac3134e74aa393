//! What the compared answers showed in records of one size: every refusal, every verdict with its
//! ground under every plan that can end so, also on run-in sheets, every pollutant passed and
//! failed and the only one by which a vehicle is a gross emitter, small engines by each clause of
//! F-1, run-in values by each of F-2 and at the ends of their range, pending vehicles by each of F-5
//! and every row held, the longest sheets; and a pair in every cell of the table of lines. What was
//! never seen was never compared.

use crate::cases::{Answer, Case};
use crate::clauses::{has, last_days, run_in_ends, Accepted, Clause, InService, Refused};
use crate::clauses::{CLAUSES, ENDS, OF_PENDING, PLACES_OF_ENDS};
use crate::corpus::{Exact, LineSeries, EXACT_IN_CELL};
use crate::draft::{plans_of_production, RUN_IN, SMALL_ENGINE};
use crate::exact::{has_series_on_line, Stand};
use crate::pairs::{Search, Sort};
use crate::paper::{Cell, Line};
use crate::refusals::OF_RECORD;
use crate::tally::{Kinds, Tally};
use second::{check, Document, Document01, Series, PLANS, UNKNOWN_DEVIATION};
use std::fmt;

/// Verdict and ground as they go together.
const ENDINGS: [(u8, u8, &str); 7] = [
    (0, 0, "another"),
    (1, 1, "pass by a row"),
    (2, 1, "fail by a row"),
    (2, 2, "fail by equal cause"),
    (2, 3, "fail by a stop"),
    (3, 4, "referred"),
    (4, 5, "held"),
];

/// As one of these.
pub fn ending_name(verdict: u8, ground: u8) -> &'static str {
    let mut endings = ENDINGS.into_iter();
    let ending = endings.find(|ending| (ending.0, ending.1) == (verdict, ground));
    ending.map_or("no ending", |(_, _, name)| name)
}

/// Equal cause, referral and pending vehicles are plan 4's, which has no stop.
fn can_end(plan: u8, ground: u8) -> bool {
    match ground {
        2 | 4 | 5 => plan == 4,
        3 => plan != 4,
        _ => true,
    }
}

/// One kind of answer.
#[derive(Clone, Copy, PartialEq, Eq, PartialOrd, Ord)]
enum Kind {
    Refusal(u8),
    Ending {
        plan: u8,
        run_in: bool,
        verdict: u8,
        ground: u8,
    },
    Decision {
        run_in: bool,
        pollutant: usize,
        decision: u8,
    },
    GrossEmitterBy {
        pollutant: usize,
    },
    HeldAt(usize),
    OfPending(&'static str),
    /// With the limit of particulates, if they are declared.
    SmallEngine {
        plan: u8,
        limit: Option<u32>,
    },
    /// Month and day.
    LastDay([u32; 2]),
    DayAfterLast([u32; 2]),
    /// Beside a small engine or without one.
    RunInBeside {
        plan: u8,
        small_engine: bool,
    },
    /// An end of the range, and its place on a run-in sheet.
    RunInEnd {
        plan: u8,
        place: &'static str,
        number: u32,
    },
    RefusedBy(Clause),
    Records(usize),
    /// Of so many without a record of this kind: not the length.
    RefusedRecord {
        without: u8,
        records: usize,
    },
    TooManyRecords(usize),
}

impl fmt::Display for Kind {
    fn fmt(&self, formatter: &mut fmt::Formatter) -> fmt::Result {
        match *self {
            Kind::Refusal(number) => write!(formatter, "refusal {number:2}"),
            Kind::Ending {
                plan,
                run_in,
                verdict,
                ground,
            } => {
                let name = ending_name(verdict, ground);
                write!(formatter, "plan {plan}, {}{name}", sheet(run_in))
            }
            Kind::Decision {
                run_in,
                pollutant,
                decision,
            } => {
                let word = ["open", "pass", "fail"][usize::from(decision)];
                write!(formatter, "{}pollutant {pollutant}, {word}", sheet(run_in))
            }
            Kind::GrossEmitterBy { pollutant } => {
                write!(formatter, "gross emitter by pollutant {pollutant} alone")
            }
            Kind::HeldAt(row) => write!(formatter, "held in row {row}"),
            Kind::OfPending(name) => write!(formatter, "{name}"),
            Kind::SmallEngine { plan, limit } => {
                write!(formatter, "plan {plan}, small engine, ")?;
                match limit {
                    Some(limit) => write!(formatter, "particulates with {limit}"),
                    None => write!(formatter, "no particulates"),
                }
            }
            Kind::LastDay([month, day]) => write!(formatter, "month {month} with day {day}"),
            Kind::DayAfterLast([month, day]) => {
                write!(formatter, "refusal 17 for day {day} of month {month}")
            }
            Kind::RunInBeside { plan, small_engine } => {
                let beside = if small_engine { "beside" } else { "without" };
                write!(
                    formatter,
                    "plan {plan}, run-in values {beside} a small engine"
                )
            }
            Kind::RunInEnd {
                plan,
                place,
                number,
            } => write!(formatter, "plan {plan}, run-in sheet, {place} of {number}"),
            Kind::RefusedBy((number, clause)) => write!(formatter, "refusal {number:2}, {clause}"),
            Kind::Records(records) => write!(formatter, "accepted with {records} records"),
            Kind::RefusedRecord { without, records } => {
                write!(
                    formatter,
                    "a record refused of {records} without kind {without}"
                )
            }
            Kind::TooManyRecords(records) => write!(formatter, "refused for {records} records"),
        }
    }
}

fn sheet(run_in: bool) -> &'static str {
    if run_in {
        "run-in sheet, "
    } else {
        ""
    }
}

/// What has to be seen in records of this size.
fn demanded(size: usize) -> Vec<Kind> {
    let mut kinds: Vec<Kind> = (1..=19).map(Kind::Refusal).collect();
    kinds.extend((1..=PLANS).flat_map(|plan| demanded_endings(plan, false)));
    for pollutant in 1..=Document01.pollutants(size) {
        for run_in in [false, true] {
            kinds.extend([1, 2].map(|decision| Kind::Decision {
                run_in,
                pollutant,
                decision,
            }));
        }
        kinds.push(Kind::GrossEmitterBy { pollutant });
    }
    kinds.extend((3..=Document01.last_row(4)).map(Kind::HeldAt));
    kinds.extend(OF_PENDING.map(|(name, _)| Kind::OfPending(name)));
    for plan in plans_of_production() {
        let limits = [None, Some(150), Some(250)];
        kinds.extend(limits.map(|limit| Kind::SmallEngine { plan, limit }));
        kinds.extend(demanded_of_run_in(plan));
    }
    kinds.extend(last_days().map(Kind::LastDay));
    kinds.extend(last_days().map(|[month, day]| Kind::DayAfterLast([month, day + 1])));
    kinds.extend(CLAUSES.map(Kind::RefusedBy));
    let most = Document01.most_records(size);
    kinds.extend([most - 1, most].map(Kind::Records));
    kinds.extend([SMALL_ENGINE, RUN_IN].map(|without| Kind::RefusedRecord {
        without,
        records: most,
    }));
    kinds.push(Kind::TooManyRecords(most + 1));
    kinds
}

fn demanded_endings(plan: u8, run_in: bool) -> impl Iterator<Item = Kind> {
    let endings = ENDINGS.into_iter();
    let endings = endings.filter(move |ending| can_end(plan, ending.1));
    endings.map(move |(verdict, ground, _)| Kind::Ending {
        plan,
        run_in,
        verdict,
        ground,
    })
}

fn demanded_of_run_in(plan: u8) -> Vec<Kind> {
    let mut kinds: Vec<Kind> = demanded_endings(plan, true).collect();
    kinds.extend([false, true].map(|small_engine| Kind::RunInBeside { plan, small_engine }));
    for place in PLACES_OF_ENDS {
        kinds.extend(ENDS.map(|number| Kind::RunInEnd {
            plan,
            place,
            number,
        }));
    }
    kinds
}

#[derive(Default)]
pub struct Seen(Kinds<Kind>);

impl Seen {
    pub fn note(&mut self, case: &Case, answer: &Answer) {
        let (number, at) = ((answer.code / 256) as u8, answer.code as usize % 256);
        if number > 0 {
            self.0.count(Kind::Refusal(number));
        }
        if let Case::Report { size, sheet, .. } = *case {
            match number {
                0 => self.note_report(size, sheet, &answer.bytes),
                1 if sheet.len().is_multiple_of(size) => {
                    self.0.count(Kind::TooManyRecords(sheet.len() / size));
                }
                _ if OF_RECORD.contains(&number) => self.note_refused(&Refused {
                    size,
                    sheet,
                    number,
                    at,
                }),
                _ => {}
            }
        }
    }

    fn note_refused(&mut self, refused: &Refused) {
        let &Refused { size, sheet, .. } = refused;
        if let Some(clause) = refused.clause() {
            self.0.count(Kind::RefusedBy(clause));
        }
        if let Some(day) = refused.day_after_last() {
            self.0.count(Kind::DayAfterLast(day));
        }
        for without in [SMALL_ENGINE, RUN_IN] {
            if !has(without, size, sheet) {
                let records = sheet.len() / size;
                self.0.count(Kind::RefusedRecord { without, records });
            }
        }
    }

    fn note_report(&mut self, size: usize, sheet: &[u8], report: &[u8]) {
        let (plan, run_in) = (sheet[2], has(RUN_IN, size, sheet));
        self.0.count(Kind::Ending {
            plan,
            run_in,
            verdict: report[1],
            ground: report[2],
        });
        for pollutant in 1..=Document01.pollutants(size) {
            let decision = report[2 + 2 * pollutant];
            self.0.count(Kind::Decision {
                run_in,
                pollutant,
                decision,
            });
        }
        self.0.count(Kind::Records(sheet.len() / size));
        if run_in {
            self.note_run_in(plan, size, sheet);
        }
        if let Some(small_engine) = Accepted::new(size, sheet) {
            self.note_small_engine(&small_engine);
        }
        if sheet[2] == 4 {
            let series = check(&Document01, size, sheet).expect("an accepted sheet");
            self.note_gross_emitters(&series);
            self.note_pending(&InService::new(size, sheet, report));
        }
    }

    fn note_small_engine(&mut self, small_engine: &Accepted) {
        let &Accepted { plan, limit, .. } = small_engine;
        self.0.count(Kind::SmallEngine { plan, limit });
        if let Some(day) = small_engine.last_day {
            self.0.count(Kind::LastDay(day));
        }
    }

    fn note_run_in(&mut self, plan: u8, size: usize, sheet: &[u8]) {
        let small_engine = has(SMALL_ENGINE, size, sheet);
        self.0.count(Kind::RunInBeside { plan, small_engine });
        for (place, number) in run_in_ends(size, sheet) {
            self.0.count(Kind::RunInEnd {
                plan,
                place,
                number,
            });
        }
    }

    fn note_gross_emitters(&mut self, series: &Series) {
        for engine in series.engines(&Document01) {
            let over = |&place: &usize| {
                Document01.is_gross(Document01.measurement(engine, place), series.limits[place])
            };
            let over: Vec<usize> = (0..series.limits.len()).filter(over).collect();
            if let [place] = over[..] {
                let pollutant = place + 1;
                self.0.count(Kind::GrossEmitterBy { pollutant });
            }
        }
    }

    fn note_pending(&mut self, sheet: &InService) {
        if let Some(row) = sheet.held_row() {
            self.0.count(Kind::HeldAt(row));
        }
        let shown = OF_PENDING.iter().filter(|(_, shows)| shows(sheet));
        shown.for_each(|(name, _)| self.0.count(Kind::OfPending(name)));
    }

    pub fn print(&self, size: usize, tally: &mut Tally) {
        self.0.print(size, demanded(size), tally);
    }
}

/// The tables of pairs, by the sort of their sheets: a dash where no series can decide.
pub fn print_pairs(series: &LineSeries, tally: &mut Tally) {
    let count = |cell, sort: Sort| {
        let search = Search { cell, sort };
        let pairs = series.pairs.iter().filter(|pair| pair.search == search);
        sort.decides(cell).then(|| vec![pairs.count()])
    };
    println!("pairs on a line (plan, row, pass, fail; = where pass and fail share the line)");
    print_table(series, 1..=PLANS, 1, tally, |cell| count(cell, Sort::Plain));
    println!("pairs on a line, on run-in sheets");
    print_table(series, plans_of_production(), 1, tally, |cell| {
        count(cell, Sort::RunIn)
    });
    println!("pairs on a line, with a gross emitter newest");
    print_table(series, [4], 1, tally, |cell| count(cell, Sort::GrossNewest));
    println!("  {} pairs, each parted in either size", series.pairs.len());
}

/// The table of series that are exact to a unit of W: how many have the last W that decides, and
/// how many one unit beyond. Then the rows with a series on the line itself, which are all that
/// have one.
pub fn print_exact(series: &LineSeries, tally: &mut Tally) {
    println!("series with the last W that decides/one unit beyond, by plan, row and line");
    print_table(series, UNKNOWN_DEVIATION, EXACT_IN_CELL, tally, |cell| {
        let stands = [Stand::Deciding, Stand::Beyond];
        Some(stands.map(|stand| count_exact(series, cell, stand)).into())
    });
    let found = |cell: &Cell| count_exact(series, *cell, Stand::OnLine) > 0;
    for plan in UNKNOWN_DEVIATION {
        for (fail, line) in [(false, "pass"), (true, "fail")] {
            let cells = series.paper.cells().into_iter();
            let cells = cells.filter(|cell| cell.plan == plan && (cell.line == Line::Fail) == fail);
            let (on_line, none): (Vec<Cell>, Vec<Cell>) = cells.partition(found);
            let rows: Vec<usize> = on_line.iter().map(|cell| cell.row).collect();
            println!("series on the {line} line itself, plan {plan}: rows {rows:?}");
            for cell in none.into_iter().filter(|cell| has_series_on_line(*cell)) {
                tally.gap(&format!("a series on the line itself, {cell:?}"));
            }
        }
    }
    print_twins(series, tally);
}

/// Every series of production that is exact to a unit of W has a twin with run-in values.
fn print_twins(series: &LineSeries, tally: &mut Tally) {
    let of_production = series.exact.iter().filter(|exact| exact.cell.plan != 4);
    let mut twins = 0;
    for exact in of_production {
        let Exact { cell, stand, .. } = exact;
        twins += exact.run_in_twins.len();
        if exact.run_in_twins.len() < exact.series.len() {
            tally.gap(&format!(
                "a run-in twin of each series, {cell:?}, {stand:?}"
            ));
        }
    }
    println!("{twins} of these series on run-in sheets too");
}

fn count_exact(series: &LineSeries, cell: Cell, stand: Stand) -> usize {
    let exact = series.exact.iter();
    let exact = exact.filter(|exact| (exact.cell, exact.stand) == (cell, stand));
    exact.map(|exact| exact.series.len()).sum()
}

/// A line for each row of the plans, with the counts of its cells, which have to be at least so
/// many where there can be any.
fn print_table(
    series: &LineSeries,
    plans: impl IntoIterator<Item = u8>,
    least: usize,
    tally: &mut Tally,
    counts: impl Fn(Cell) -> Option<Vec<usize>>,
) {
    let cells = series.paper.cells();
    let mut shown = |cell: Cell| {
        if !cells.contains(&cell) {
            return None;
        }
        let counts = counts(cell)?;
        if counts.iter().any(|&count| count < least) {
            tally.gap(&format!("{least} in {cell:?}, only {counts:?}"));
        }
        let counts: Vec<String> = counts.iter().map(usize::to_string).collect();
        Some(counts.join("/"))
    };
    for plan in plans {
        for row in 3..=series.paper.last_row(plan) {
            let lines = [Line::Pass, Line::Fail, Line::Last];
            let [pass, fail, last] = lines.map(|line| shown(Cell { plan, row, line }));
            let dash = "-".to_string();
            let (pass, fail) = match last {
                Some(last) => (last, "=".to_string()),
                None => (pass.unwrap_or(dash.clone()), fail.unwrap_or(dash)),
            };
            println!("  {plan} {row:2} {pass:>4} {fail:>4}");
        }
    }
}
