//! Pairs that stand on a line: two series that differ by 1 in one measurement, in the deviation t
//! or in the run-in value, and get different reports. They are found by bisection, for every plan,
//! every row and each of its lines that can decide there, again on run-in sheets, and in plan 4 with
//! a gross emitter newest.

use crate::draft::LARGEST;
use crate::paper::{Cell, Line, Paper, Single, Sums};
use random::Random;
use second::Decision;
use std::ops::RangeInclusive;

pub struct Pair {
    pub search: Search,
    pub series: [Single; 2],
}

/// How often a series is started anew before a cell is given up.
const ATTEMPTS: usize = 20_000;

/// Where pairs are looked for: in a cell, on sheets of one sort.
#[derive(Clone, Copy, PartialEq, Eq)]
pub struct Search {
    pub cell: Cell,
    pub sort: Sort,
}

#[derive(Clone, Copy, PartialEq, Eq)]
pub enum Sort {
    /// Without run-in values, and without gross emitters.
    Plain,
    RunIn,
    /// With a gross emitter newest, and others before it or none.
    GrossNewest,
}

/// Up to `count` pairs, by turns in each number that can be moved.
pub fn pairs(paper: &Paper, search: Search, count: usize, random: &mut Random) -> Vec<Pair> {
    let mut pairs = Vec::new();
    let knobs = search.knobs();
    for _ in 0..ATTEMPTS {
        if pairs.len() == count {
            break;
        }
        let knob = knobs[pairs.len() % knobs.len()];
        pairs.extend(find_pair(paper, search, knob, random));
    }
    pairs
}

impl Sort {
    /// Whether such a sheet can be decided on the cell's line. Plan 4 has no run-in sheets, and its
    /// row 3 is left open for gross emitters.
    ///
    /// With a gross emitter newest no series passes in rows 5 to 14. Its d is above 0. Before it,
    /// row n - 1 is open, so that the mean of the d_j is above -a s, with a the row's -A / 100,000
    /// and s root W / (n - 1). With b the a of row n, and d as low as 0, passing needs
    /// a^2 (n - 1 - b^2) > b^2 n, which no row from 5 to 13 has. Row 14 has it, but 1.5 times the
    /// limit is 0.58 octaves above it, and s had to be 20 octaves; measurements from 1 to 9,999,999
    /// lie within 24, so that s is 12 at most.
    pub fn decides(self, Cell { plan, row, line }: Cell) -> bool {
        match self {
            Sort::Plain => true,
            Sort::RunIn => plan != 4,
            Sort::GrossNewest => plan == 4 && row > 3 && (line != Line::Pass || row == 4),
        }
    }
}

impl Search {
    pub fn all_in(cell: Cell) -> impl Iterator<Item = Search> {
        let sorts = [Sort::Plain, Sort::RunIn, Sort::GrossNewest].into_iter();
        let sorts = sorts.filter(move |sort| sort.decides(cell));
        sorts.map(move |sort| Search { cell, sort })
    }

    fn knobs(self) -> &'static [Knob] {
        match (self.cell.plan, self.sort) {
            (1, Sort::RunIn) => &[Knob::Deviation, Knob::Newest, Knob::RunIn, Knob::First],
            (_, Sort::RunIn) => &[Knob::Newest, Knob::RunIn, Knob::First],
            (1, _) => &[Knob::Deviation, Knob::Newest],
            (_, _) => &[Knob::Newest],
        }
    }

    /// What the newest engine may measure: as a gross emitter, above 1.5 times the limit.
    fn newest(self, limit: u32) -> RangeInclusive<u32> {
        let line = most_of_no_gross_emitter(limit);
        match (self.sort, self.cell.plan) {
            (Sort::GrossNewest, _) => line + 1..=LARGEST,
            (_, 4) => 1..=line,
            _ => 1..=LARGEST,
        }
    }

    /// What the engines before it may measure at most. In plan 4 gross emitters stand among them
    /// before another alone, and not in the last row, which refers two; a row that one passes in
    /// has another before it, for which row 3 is left open.
    fn most_before(self, limit: u32, last_row: usize, random: &mut Random) -> u32 {
        let Cell { plan, row, line } = self.cell;
        let gross = self.sort == Sort::GrossNewest && row < last_row;
        if plan != 4 || gross && (line == Line::Pass || random.one_in(2)) {
            LARGEST
        } else {
            most_of_no_gross_emitter(limit)
        }
    }

    /// How the measurements of the engines before the newest lie.
    fn style(self, random: &mut Random) -> Style {
        if self.sort == Sort::GrossNewest && self.cell.line == Line::Pass {
            return Style::wide(random);
        }
        match self.cell.row {
            0..=6 => Style::random(random),
            _ => Style {
                centre: 0.0,
                width: random.fraction() + 0.3,
            },
        }
    }
}

fn most_of_no_gross_emitter(limit: u32) -> u32 {
    LARGEST.min(limit + limit / 2)
}

/// The decisions on the two sides of a line.
fn sides(line: Line) -> (Decision, Decision) {
    match line {
        Line::Pass => (Decision::Pass, Decision::Open),
        Line::Fail => (Decision::Fail, Decision::Open),
        Line::Last => (Decision::Pass, Decision::Fail),
    }
}

/// The number that is moved until the answer changes.
#[derive(Clone, Copy)]
enum Knob {
    /// The newest engine's measurement.
    Newest,
    Deviation,
    /// The first engine's value after running-in.
    RunIn,
    /// What the run-in engine measured before, by which all others are corrected.
    First,
}

/// A series that no row has decided, with its sums, and one engine more.
struct Trial {
    series: Single,
    before: Sums,
    newest: RangeInclusive<u32>,
}

impl Trial {
    fn turned(&self, knob: Knob, value: u32) -> Single {
        let mut series = self.series.clone();
        *knob.number(&mut series) = value;
        series
    }

    /// What the last engine's row says, if the series gets there undecided.
    fn decision(&self, paper: &Paper, knob: Knob, value: u32) -> Option<Decision> {
        match knob {
            Knob::Newest => Some(paper.row(self.series.plan, &self.before.with(value))),
            Knob::Deviation | Knob::RunIn | Knob::First => {
                let (decision, n) = paper.outcome(&self.turned(knob, value));
                (n == self.series.measurements.len()).then_some(decision)
            }
        }
    }

    /// Values to look for the two sides of a line among: those that are measured, any, and those
    /// about the present one, with which the rows before are more likely to stay open.
    fn candidates(&self, knob: Knob, random: &mut Random) -> Vec<u32> {
        let mut series = self.series.clone();
        let present = *knob.number(&mut series);
        let (least, most) = match knob {
            Knob::Deviation => (1, 4_000_000),
            Knob::Newest => (*self.newest.start(), *self.newest.end()),
            Knob::RunIn | Knob::First => (1, LARGEST),
        };
        let mut values = match knob {
            Knob::Newest => series.measurements,
            _ => vec![present],
        };
        values.retain(|&value| least <= value);
        values.extend([least, most]);
        values.extend((0..24).map(|_| random.magnitude(least, most)));
        values.extend((0..24).map(|_| random.between(least, most)));
        if matches!(knob, Knob::RunIn | Knob::First) {
            let about = |random: &mut Random| {
                let octaves = (random.fraction() * 2.0 - 1.0) * (random.fraction() * -8.0).exp2();
                let value = f64::from(present) * octaves.exp2();
                (value.round() as u32).clamp(1, most)
            };
            values.extend((0..48).map(|_| about(random)));
        }
        values
    }
}

impl Knob {
    fn number(self, series: &mut Single) -> &mut u32 {
        let number = match self {
            Knob::Newest => series.measurements.last_mut(),
            Knob::First => series.measurements.first_mut(),
            Knob::RunIn => series.run_in.as_mut(),
            Knob::Deviation => Some(&mut series.deviation),
        };
        number.expect("the series has such a number")
    }
}

fn find_pair(paper: &Paper, search: Search, knob: Knob, random: &mut Random) -> Option<Pair> {
    let trial = random_trial(paper, search, random)?;
    let (one_side, other_side) = sides(search.cell.line);
    let decision = |value| trial.decision(paper, knob, value);
    let candidates = trial.candidates(knob, random);
    let on = |side| {
        let mut candidates = candidates.iter().copied();
        candidates.find(|&value| decision(value) == Some(side))
    };
    let (inside, outside) = bisect(on(one_side)?, on(other_side)?, |value| {
        decision(value) == Some(one_side)
    });
    let series = [inside, outside].map(|value| trial.turned(knob, value));
    (decision(outside) == Some(other_side)).then_some(Pair { search, series })
}

/// Two neighbours, the first with the property and the second without.
fn bisect(mut inside: u32, mut outside: u32, holds: impl Fn(u32) -> bool) -> (u32, u32) {
    while inside.abs_diff(outside) > 1 {
        let middle = inside.midpoint(outside);
        if holds(middle) {
            inside = middle;
        } else {
            outside = middle;
        }
    }
    (inside, outside)
}

/// How the measurements of a series lie: octaves above the level that they are held against, and to
/// either side of that.
struct Style {
    centre: f64,
    width: f64,
}

impl Style {
    fn random(random: &mut Random) -> Self {
        let centre = random.fraction() * 2.0 - 0.8;
        let width = (random.fraction() * 6.0 - 5.0).exp2();
        Style { centre, width }
    }

    /// For a row that a gross emitter passes in, wide: those before it are far below the limit.
    fn wide(random: &mut Random) -> Self {
        let centre = random.fraction() * -6.0;
        let width = random.fraction() * 6.0;
        Style { centre, width }
    }

    /// Up to the most. Under plan 1 the measurements lie by the deviation.
    fn measurement(&self, series: &Single, most: u32, random: &mut Random) -> u32 {
        let octaves = match series.plan {
            1 => f64::from(series.deviation) / 1_000_000.0 * (random.fraction() * 4.0 - 2.0),
            _ => self.centre + self.width * (random.fraction() * 2.0 - 1.0),
        };
        let x = (series.level() * octaves.exp2()).round() as u32;
        x.clamp(1, most)
    }
}

/// Grows a series of one pollutant undecided up to the row, and adds any engine.
fn random_trial(paper: &Paper, search: Search, random: &mut Random) -> Option<Trial> {
    let Cell { plan, row, .. } = search.cell;
    let mut series = Single {
        plan,
        limit: random_limit(random),
        deviation: match plan {
            1 => random.magnitude(50_000, 4_000_000),
            _ => 0,
        },
        run_in: None,
        measurements: Vec::with_capacity(row),
    };
    let style = search.style(random);
    let most = search.most_before(series.limit, paper.last_row(plan), random);
    if search.sort == Sort::RunIn {
        run_in_first(&mut series, &style, random);
    }
    let mut before = series
        .measurements
        .iter()
        .fold(Sums::none(&series), |sums, &x| sums.with(x));
    for _ in series.measurements.len() + 1..row {
        let tries = std::iter::repeat_with(|| style.measurement(&series, most, random));
        let mut tries = tries.take(30);
        let x = tries.find(|&x| paper.row(plan, &before.with(x)) == Decision::Open)?;
        before = before.with(x);
        series.measurements.push(x);
    }
    let newest = search.newest(series.limit);
    let x = Style::random(random).measurement(&series, *newest.end(), random);
    series.measurements.push(x.max(*newest.start()));
    Some(Trial {
        series,
        before,
        newest,
    })
}

/// The first engine: of it the value after running-in is what counts, and it measured up to four
/// times as much before, or up to four times less.
fn run_in_first(series: &mut Single, style: &Style, random: &mut Random) {
    let value = style.measurement(series, LARGEST, random);
    let octaves = random.fraction() * 4.0 - 2.0;
    let first = (f64::from(value) * octaves.exp2()).round() as u32;
    series.run_in = Some(value);
    series.measurements.push(first.clamp(1, LARGEST));
}

fn random_limit(random: &mut Random) -> u32 {
    match random.below(4) {
        0 => random.magnitude(10, 10_000),
        _ => random.magnitude(100_000, 6_000_000),
    }
}
