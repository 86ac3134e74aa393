//! The rows of the plans for one pollutant, without a stop, with run-in values (F-2) or without, and
//! with gross emitters of different causes (F-11) that refer no series: the table of decision
//! numbers as docs/FORMAT.md prints it, and document 01's rules in 128-bit integers.
//! It chooses the sheets that stand on a line and says what has to be answered to them, so that
//! neither implementation under test chooses what it is asked. Only g is the second
//! implementation's: the g of every m that can be measured is compared with the library's.

use crate::draft::{Draft, Measurements, Pollutant};
use crate::tally::Tally;
use second::{Column, Decision, Document, Document01, Ground, Verdict};
use second::{LONGEST_REPORT, MOST_POLLUTANTS, PLANS};

const PAGE: &str = concat!(env!("CARGO_MANIFEST_DIR"), "/../../docs/FORMAT.md");
const HEADER: &str =
    "| n | 1: A | 1: B | 2: A | 2: B | 3: pass up to | 3: fail from | 4: A | 4: B | 5: A | 5: B |";

/// The decision numbers of each plan, row 3 first.
pub struct Paper {
    plans: [Vec<Numbers>; PLANS as usize],
}

/// None where the page says "never" or "none".
struct Numbers {
    pass: Option<i128>,
    fail: Option<i128>,
}

/// One line that parts two decisions: that of the pass number or of the fail number, or in the
/// last row the one between pass and fail.
#[derive(Clone, Copy, Debug, PartialEq, Eq)]
pub enum Line {
    Pass,
    Fail,
    Last,
}

/// One cell of the table of lines.
#[derive(Clone, Copy, Debug, PartialEq, Eq)]
pub struct Cell {
    pub plan: u8,
    pub row: usize,
    pub line: Line,
}

/// A series of one pollutant, whichever it is.
#[derive(Clone)]
pub struct Single {
    pub plan: u8,
    pub limit: u32,
    pub deviation: u32,
    /// The first engine's value after running-in, on a run-in sheet.
    pub run_in: Option<u32>,
    pub measurements: Vec<u32>,
}

/// One pollutant after n engines.
#[derive(Clone, Copy)]
pub struct Sums {
    deviation: u32,
    run_in: Option<u32>,
    /// g(L), from which d_j is counted; on a run-in sheet g(L) + g(x_1) - g(value).
    level: i128,
    /// An engine is over the limit if so many times x is above this product: once x, and L; on a
    /// run-in sheet x times the value, and L x x_1.
    times: i128,
    product: i128,
    n: usize,
    /// D, and the sum of the d_j squared.
    d: i128,
    squares: i128,
    /// c, "engines with x > L".
    over: i128,
    /// "A gross emitter is a vehicle with 2x > 3L", in plan 4, and how many there are.
    thrice_limit: Option<i128>,
    gross: usize,
}

/// A report, with zeros behind one that is shorter.
pub type Report = [u8; LONGEST_REPORT];

/// What report returns, and the report; as lent where it returns a refusal.
pub type Reported = (u32, Report);

/// A sheet, and what has to be reported of it.
pub struct Chosen {
    pub sheet: Vec<u8>,
    pub reported: Reported,
}

impl Paper {
    pub fn read() -> Self {
        let page = std::fs::read_to_string(PAGE).expect("docs/FORMAT.md can be read");
        let table = page.lines().skip_while(|line| *line != HEADER).skip(2);
        let mut plans = [const { Vec::new() }; PLANS as usize];
        for (n, line) in (3..).zip(table.take_while(|line| line.starts_with('|'))) {
            let cells: Vec<&str> = line.trim_matches('|').split('|').map(str::trim).collect();
            assert_eq!(cells[0], n.to_string(), "the rows follow each other");
            let pairs = cells[1..].chunks(2);
            assert_eq!(pairs.len(), plans.len(), "two columns for each plan");
            for (plan, pair) in plans.iter_mut().zip(pairs) {
                if pair != ["", ""] {
                    assert_eq!(plan.len() + 3, n, "no row is left out");
                    let (pass, fail) = (number(pair[0]), number(pair[1]));
                    plan.push(Numbers { pass, fail });
                }
            }
        }
        let found = plans.iter().all(|plan| !plan.is_empty());
        assert!(found, "docs/FORMAT.md has the table");
        Paper { plans }
    }

    /// "The last row of each plan is the last one filled in."
    pub fn last_row(&self, plan: u8) -> usize {
        self.plans[usize::from(plan) - 1].len() + 2
    }

    fn numbers(&self, plan: u8, n: usize) -> &Numbers {
        &self.plans[usize::from(plan) - 1][n - 3]
    }

    /// The number that makes a line.
    pub fn number(&self, Cell { plan, row, line }: Cell) -> i128 {
        let numbers = self.numbers(plan, row);
        let number = match line {
            Line::Pass | Line::Last => numbers.pass,
            Line::Fail => numbers.fail,
        };
        number.expect("a line has a number")
    }

    /// Every cell that can be reached:
    /// - In the last row "what doesn't pass fails": pass and fail share one line, `Line::Last`.
    /// - Plan 3 passes only at an even n (or at 19). Its pass number is the same at n as at n - 1
    ///   for an odd n, and the count of engines over the limit never falls, so what passes at an
    ///   odd n has passed one engine sooner; at 3 no number is printed.
    /// - Plan 3 fails only at an odd n. Its fail number at an even n is one more than at n - 1, and
    ///   the count rises by at most one an engine, so what fails at an even n has failed sooner.
    pub fn cells(&self) -> Vec<Cell> {
        let mut cells = Vec::new();
        for plan in 1..=PLANS {
            let last = self.last_row(plan);
            for row in 3..last {
                let lines: &[Line] = match (plan, row % 2) {
                    (3, 0) => &[Line::Pass],
                    (3, _) => &[Line::Fail],
                    _ => &[Line::Pass, Line::Fail],
                };
                cells.extend(lines.iter().map(|&line| Cell { plan, row, line }));
            }
            let (row, line) = (last, Line::Last);
            cells.push(Cell { plan, row, line });
        }
        cells
    }

    /// "A row gives pass, fail or open; pass is tested first. In the last row, what doesn't pass
    /// fails."
    pub fn row(&self, plan: u8, sums: &Sums) -> Decision {
        assert!(sums.n < 15 || sums.gross < 2, "referral is no row's answer");
        // F-11: "only row 3 is left open for gross emitters".
        if sums.n < 3 || sums.n == 3 && sums.gross > 0 {
            return Decision::Open;
        }
        let numbers = self.numbers(plan, sums.n);
        let last = sums.n == self.last_row(plan);
        if numbers.pass.is_some_and(|a| sums.pass(plan, a)) {
            Decision::Pass
        } else if last || numbers.fail.is_some_and(|b| sums.fail(plan, b)) {
            Decision::Fail
        } else {
            Decision::Open
        }
    }

    /// The decision and the engine that brought it; open at the last engine where none did.
    pub fn outcome(&self, series: &Single) -> (Decision, usize) {
        let mut sums = Sums::none(series);
        for &x in &series.measurements {
            sums = sums.with(x);
            let decision = self.row(series.plan, &sums);
            if decision != Decision::Open {
                return (decision, sums.n);
            }
        }
        (Decision::Open, sums.n)
    }

    /// The series of this pollutant as a sheet of that size, with its report.
    pub fn chosen(&self, series: &Single, size: usize, number: u8) -> Chosen {
        let (decision, n) = self.outcome(series);
        series.with_report(size, number, decision, n)
    }

    /// The page's table against the printed columns. Of these, plan 5's alone has a fail number in
    /// the last row, which needs none.
    pub fn compare_with_printed(&self, tally: &mut Tally) {
        for plan in 1..=PLANS {
            for n in 3..=self.last_row(plan) {
                let numbers = self.numbers(plan, n);
                let printed = |column| Document01.number(plan, column, n).map(i128::from);
                let has_fail = plan == 5 || n < self.last_row(plan);
                let fail = numbers.fail.filter(|_| has_fail);
                let expected = [printed(Column::Pass), printed(Column::Fail)];
                let what = || format!("the numbers of docs/FORMAT.md, plan {plan}, row {n}");
                tally.compare(&[], what, [numbers.pass, fail], expected);
            }
            let last = Document01.last_row(plan);
            let what = || format!("the last row of docs/FORMAT.md, plan {plan}");
            tally.compare(&[], what, self.last_row(plan), last);
        }
    }
}

/// The page writes a minus as U+2212.
fn number(cell: &str) -> Option<i128> {
    match cell {
        "never" | "none" => None,
        _ => Some(cell.replace('\u{2212}', "-").parse().expect("a number")),
    }
}

impl Single {
    /// What the next engine's measurement is held against: the limit, or what a run-in engine's
    /// value would have been before, corrected as the first was.
    pub fn level(&self) -> f64 {
        let limit = f64::from(self.limit);
        match (self.run_in, self.measurements.first()) {
            (Some(value), Some(&first)) => limit * f64::from(first) / f64::from(value),
            _ => limit,
        }
    }

    pub fn bytes(&self, size: usize, number: u8) -> Vec<u8> {
        let pollutant = Pollutant {
            number,
            limit: self.limit,
            deviation: self.deviation,
        };
        let mut draft = Draft::new(size, self.plan, vec![pollutant]);
        draft.run_in = self.run_in.map(|value| measured_alone(number, value));
        for (cause, &x) in (1..).zip(&self.measurements) {
            draft.test(measured_alone(number, x), cause);
        }
        draft.bytes()
    }

    /// The sheet, with the report of a decision at row n, or of none after n engines: mark,
    /// verdict, ground, engine, a pair for each pollutant.
    pub fn with_report(&self, size: usize, number: u8, decision: Decision, n: usize) -> Chosen {
        let (verdict, ground) = match decision {
            Decision::Open => (Verdict::Another, Ground::None),
            Decision::Pass => (Verdict::Pass, Ground::Row),
            Decision::Fail => (Verdict::Fail, Ground::Row),
        };
        let mut report = [0; LONGEST_REPORT];
        report[..4].copy_from_slice(&[16, verdict as u8, ground as u8, n as u8]);
        if decision != Decision::Open {
            let place = 2 + 2 * usize::from(number);
            report[place..place + 2].copy_from_slice(&[decision as u8, n as u8]);
        }
        Chosen {
            sheet: self.bytes(size, number),
            reported: (0, report),
        }
    }
}

/// One pollutant's number, and zero for the others.
pub fn measured_alone(number: u8, x: u32) -> Measurements {
    let mut measurements = [0; MOST_POLLUTANTS];
    measurements[usize::from(number) - 1] = x;
    measurements
}

impl Sums {
    pub fn none(series: &Single) -> Self {
        Sums {
            deviation: series.deviation,
            run_in: series.run_in,
            level: logarithm(series.limit),
            times: 1,
            product: series.limit.into(),
            n: 0,
            d: 0,
            squares: 0,
            over: 0,
            thrice_limit: (series.plan == 4).then(|| 3 * i128::from(series.limit)),
            gross: 0,
        }
    }

    /// One engine more, which on a run-in sheet corrects itself and the others if it is the first.
    pub fn with(self, x: u32) -> Self {
        match self.run_in {
            Some(value) if self.n == 0 => self.corrected(value, x).with_measured(x),
            _ => self.with_measured(x),
        }
    }

    /// F-2: "Each d_j becomes g(x_j) + g(value) - g(x_1) - g(L); attributes compare x_j x value
    /// with L x x_1."
    fn corrected(self, value: u32, first: u32) -> Self {
        Sums {
            level: self.level + logarithm(first) - logarithm(value),
            times: value.into(),
            product: self.product * i128::from(first),
            ..self
        }
    }

    fn with_measured(self, x: u32) -> Self {
        let d = logarithm(x) - self.level;
        let is_gross = |line| 2 * i128::from(x) > line;
        Sums {
            n: self.n + 1,
            d: self.d + d,
            squares: self.squares + d * d,
            over: self.over + i128::from(i128::from(x) * self.times > self.product),
            gross: self.gross + usize::from(self.thrice_limit.is_some_and(is_gross)),
            ..self
        }
    }

    fn pass(&self, plan: u8, a: i128) -> bool {
        match plan {
            1 => -self.d * 693_147_181 > a * i128::from(self.deviation) * 1_048_576,
            2 | 4 | 5 => self.p() <= self.root(a),
            3 => self.over <= a,
            _ => unreachable!("the page has no plan {plan}"),
        }
    }

    fn fail(&self, plan: u8, b: i128) -> bool {
        match plan {
            1 => -self.d * 693_147_181 < b * i128::from(self.deviation) * 1_048_576,
            2 | 4 | 5 => self.p() >= self.root(b),
            3 => self.over >= b,
            _ => unreachable!("the page has no plan {plan}"),
        }
    }

    /// P, as `signed_square` of it.
    fn p(&self) -> i128 {
        signed_square(100_000 * self.d)
    }

    /// c root W, as `signed_square` of it.
    fn root(&self, c: i128) -> i128 {
        signed_square(c) * (self.n as i128 * self.squares - self.d * self.d)
    }
}

fn logarithm(m: u32) -> i128 {
    Document01.g(m).into()
}

/// The square with the sign of x. It rises with x, so it compares as x does, and of a root it is
/// a whole number.
fn signed_square(x: i128) -> i128 {
    x * x.abs()
}
