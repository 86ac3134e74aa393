//! "Each d_j becomes g(x_j) + g(value) - g(x_1) - g(L); attributes compare x_j x value with L x
//! x_1": by which numbers, of which engine and which pollutant, under which plan, and for which
//! engines.

use super::{by_rule, Wrong};
use crate::check::Series;
use crate::document::{Document, Document01};
use crate::judge::{Measured, RunIn};

pub fn all() -> Vec<Wrong> {
    let mut all = numbers_taken();
    all.extend(plans_corrected());
    all.extend(differences());
    all.extend(squares());
    all.extend(products());
    all
}

/// Other numbers for the value and for x_1.
struct Taken(fn(&Series, usize) -> Option<RunIn<u32>>);

impl Document for Taken {
    fn run_in(&self, series: &Series, pollutant: usize) -> Option<RunIn<u32>> {
        (self.0)(series, pollutant)
    }
}

fn right(series: &Series, pollutant: usize) -> Option<RunIn<u32>> {
    Document01.run_in(series, pollutant)
}

/// By the engine in this place, counted from 0, in place of the first.
fn by_engine(series: &Series, pollutant: usize, place: usize) -> Option<RunIn<u32>> {
    let run_in = right(series, pollutant)?;
    match series.engines(&Document01).nth(place) {
        Some(engine) => Some(RunIn {
            first: Document01.measurement(engine, pollutant),
            ..run_in
        }),
        None => Some(run_in),
    }
}

/// The declared pollutant behind this one; behind the last the first.
fn next_declared(series: &Series, pollutant: usize) -> usize {
    let count = series.limits.len();
    let behind = (1..=count).map(|places| (pollutant + places) % count);
    let mut declared = behind.filter(|&other| series.limits[other] != 0);
    declared.next().unwrap_or(pollutant)
}

fn first_declared(series: &Series) -> usize {
    let declared = series.limits.iter().position(|&limit| limit != 0);
    declared.unwrap_or(0)
}

/// "The first engine's values after running-in", and x_1, of each pollutant its own.
fn numbers_taken() -> Vec<Wrong> {
    by_rule(
        Taken,
        "run-in values",
        [
            ("no correction", |_, _| None),
            ("the value and x_1 exchanged", |series, pollutant| {
                let RunIn { value, first } = right(series, pollutant)?;
                Some(RunIn {
                    value: first,
                    first: value,
                })
            }),
            ("the last engine for the first", |series, pollutant| {
                by_engine(series, pollutant, series.tested - 1)
            }),
            ("the second engine for the first", |series, pollutant| {
                by_engine(series, pollutant, 1)
            }),
            ("the limit for x_1", |series, pollutant| {
                Some(RunIn {
                    first: series.limits[pollutant],
                    ..right(series, pollutant)?
                })
            }),
            ("the value of the next pollutant", |series, pollutant| {
                Some(RunIn {
                    value: right(series, next_declared(series, pollutant))?.value,
                    ..right(series, pollutant)?
                })
            }),
            ("x_1 of the next pollutant", |series, pollutant| {
                Some(RunIn {
                    first: right(series, next_declared(series, pollutant))?.first,
                    ..right(series, pollutant)?
                })
            }),
            ("the first pollutant's coefficient for all", |series, _| {
                right(series, first_declared(series))
            }),
            ("only the first pollutant corrected", |series, pollutant| {
                let first = pollutant == first_declared(series);
                first.then(|| right(series, pollutant)).flatten()
            }),
            (
                "the highest pollutant not corrected",
                |series, pollutant| {
                    let highest = pollutant + 1 == usize::from(series.highest_pollutant);
                    (!highest).then(|| right(series, pollutant)).flatten()
                },
            ),
            (
                "a coefficient below one taken for one",
                |series, pollutant| {
                    right(series, pollutant).filter(|run_in| run_in.value >= run_in.first)
                },
            ),
            (
                "a coefficient above one taken for one",
                |series, pollutant| {
                    right(series, pollutant).filter(|run_in| run_in.value <= run_in.first)
                },
            ),
            ("a coefficient in whole percent", |series, pollutant| {
                let RunIn { value, first } = right(series, pollutant)?;
                let percent = 100 * u64::from(value) / u64::from(first);
                Some(RunIn {
                    value: percent.clamp(1, 9_999_999) as u32,
                    first: 100,
                })
            }),
            (
                "no correction with a small engine on the sheet",
                |series, pollutant| {
                    let alone = series.small_engines == 0;
                    alone.then(|| right(series, pollutant)).flatten()
                },
            ),
            ("no correction on a stopped sheet", |series, pollutant| {
                let goes_on = !series.stopped;
                goes_on.then(|| right(series, pollutant)).flatten()
            }),
        ],
    )
}

/// Plans that are corrected.
struct Corrected(fn(u8) -> bool);

impl Document for Corrected {
    fn run_in(&self, series: &Series, pollutant: usize) -> Option<RunIn<u32>> {
        let corrected = (self.0)(series.plan);
        corrected.then(|| right(series, pollutant)).flatten()
    }
}

/// Every plan that has run-in values.
fn plans_corrected() -> Vec<Wrong> {
    by_rule(
        Corrected,
        "run-in values",
        [
            ("plan 1 not corrected", |plan| plan != 1),
            ("plan 2 not corrected", |plan| plan != 2),
            ("plan 3 not corrected", |plan| plan != 3),
            ("plan 5 not corrected", |plan| plan != 5),
            ("plan 1 alone corrected", |plan| plan == 1),
            ("plan 3 alone corrected", |plan| plan == 3),
        ],
    )
}

/// Another d_j on a run-in sheet, by the numbers and their logarithms.
struct Difference(fn(Measured<u32>, Measured<i64>, RunIn<i64>) -> i64);

impl Document for Difference {
    fn difference(&self, numbers: Measured<u32>, logarithms: Measured<i64>) -> i64 {
        match logarithms.run_in {
            Some(run_in) => (self.0)(numbers, logarithms, run_in),
            None => Document01.difference(numbers, logarithms),
        }
    }
}

fn plain(logarithms: Measured<i64>) -> i64 {
    logarithms.x - logarithms.limit
}

/// The coefficient's logarithm.
fn shift(run_in: RunIn<i64>) -> i64 {
    run_in.value - run_in.first
}

/// The corrected measurement, with so much added before it is cut to a whole number, and its d_j.
fn of_whole(numbers: Measured<u32>, limit: i64, added: fn(u64) -> u64) -> i64 {
    let Some(RunIn { value, first }) = numbers.run_in else {
        return 0;
    };
    let [x, value, first] = [numbers.x, value, first].map(u64::from);
    let whole = (x * value + added(first)) / first;
    Document01.g(whole.clamp(1, 9_999_999) as u32) - limit
}

/// "g(x_j) + g(value) - g(x_1) - g(L)", for j = 1 too.
fn differences() -> Vec<Wrong> {
    by_rule(
        Difference,
        "d_j",
        [
            ("g(value) and g(x_1) exchanged", |_, logarithms, run_in| {
                plain(logarithms) - shift(run_in)
            }),
            (
                "d_1 not corrected",
                |_, logarithms, run_in| match logarithms.engine {
                    1 => plain(logarithms),
                    _ => plain(logarithms) + shift(run_in),
                },
            ),
            (
                "d_1 alone corrected",
                |_, logarithms, run_in| match logarithms.engine {
                    1 => plain(logarithms) + shift(run_in),
                    _ => plain(logarithms),
                },
            ),
            (
                "d_2 not corrected",
                |_, logarithms, run_in| match logarithms.engine {
                    2 => plain(logarithms),
                    _ => plain(logarithms) + shift(run_in),
                },
            ),
            (
                "corrected up to row 3 alone",
                |_, logarithms, run_in| match logarithms.engine {
                    1..=3 => plain(logarithms) + shift(run_in),
                    _ => plain(logarithms),
                },
            ),
            (
                "the last row not corrected",
                |_, logarithms, run_in| match logarithms.engine {
                    32 => plain(logarithms),
                    _ => plain(logarithms) + shift(run_in),
                },
            ),
            ("corrected twice", |_, logarithms, run_in| {
                plain(logarithms) + 2 * shift(run_in)
            }),
            ("g(x_1) not taken off", |_, logarithms, run_in| {
                plain(logarithms) + run_in.value
            }),
            ("g(value) not added", |_, logarithms, run_in| {
                plain(logarithms) - run_in.first
            }),
            (
                "the newest engine for the first",
                |_, logarithms, run_in| run_in.value - logarithms.limit,
            ),
            ("g(L) not taken off", |_, logarithms, run_in| {
                logarithms.x + shift(run_in)
            }),
            (
                "of the corrected measurement rounded down",
                |numbers, logarithms, _| of_whole(numbers, logarithms.limit, |_| 0),
            ),
            (
                "of the corrected measurement rounded to the nearest",
                |numbers, logarithms, _| of_whole(numbers, logarithms.limit, |first| first / 2),
            ),
            (
                "of the corrected measurement rounded up",
                |numbers, logarithms, _| of_whole(numbers, logarithms.limit, |first| first - 1),
            ),
        ],
    )
}

/// Another square of d_j on a run-in sheet, so that W is not that of the d_j in D.
struct Squared(fn(Measured<i64>, RunIn<i64>) -> i64);

impl Document for Squared {
    fn difference_squared(&self, numbers: Measured<u32>, logarithms: Measured<i64>) -> i64 {
        let d = match logarithms.run_in {
            Some(run_in) => (self.0)(logarithms, run_in),
            None => Document01.difference(numbers, logarithms),
        };
        d * d
    }
}

/// "W = n x (sum of d_j squared) - D squared", by the same d_j as D.
fn squares() -> Vec<Wrong> {
    by_rule(
        Squared,
        "W",
        [
            ("of d_j that are not corrected", |logarithms, _| {
                plain(logarithms)
            }),
            (
                "with d_1 not corrected",
                |logarithms, run_in| match logarithms.engine {
                    1 => plain(logarithms),
                    _ => plain(logarithms) + shift(run_in),
                },
            ),
            (
                "with g(value) and g(x_1) exchanged",
                |logarithms, run_in| plain(logarithms) - shift(run_in),
            ),
        ],
    )
}

/// Another comparison on a run-in sheet of plan 3.
struct Over(fn(Measured<u32>, RunIn<u32>) -> bool);

impl Document for Over {
    fn is_over(&self, numbers: Measured<u32>) -> bool {
        match numbers.run_in {
            Some(run_in) => (self.0)(numbers, run_in),
            None => Document01.is_over(numbers),
        }
    }
}

fn product(one: u32, other: u32) -> u64 {
    u64::from(one) * u64::from(other)
}

/// "Attributes compare x_j x value with L x x_1."
fn products() -> Vec<Wrong> {
    by_rule(
        Over,
        "plan 3",
        [
            (
                "x_j x x_1 compared with L x value",
                |Measured { x, limit, .. }, RunIn { value, first }| {
                    product(x, first) > product(limit, value)
                },
            ),
            (
                "L x value compared with x_j x x_1",
                |Measured { x, limit, .. }, RunIn { value, first }| {
                    product(limit, value) > product(x, first)
                },
            ),
            (
                "x_j x L compared with value x x_1",
                |Measured { x, limit, .. }, RunIn { value, first }| {
                    product(x, limit) > product(value, first)
                },
            ),
            (
                "a corrected engine at the limit counts",
                |Measured { x, limit, .. }, RunIn { value, first }| {
                    product(x, value) >= product(limit, first)
                },
            ),
            (
                "both products in 32 bits",
                |Measured { x, limit, .. }, RunIn { value, first }| {
                    x.wrapping_mul(value) > limit.wrapping_mul(first)
                },
            ),
            (
                "x_j x value in 32 bits",
                |Measured { x, limit, .. }, RunIn { value, first }| {
                    u64::from(x.wrapping_mul(value)) > product(limit, first)
                },
            ),
            (
                "L x x_1 in 32 bits",
                |Measured { x, limit, .. }, RunIn { value, first }| {
                    product(x, value) > limit.wrapping_mul(first).into()
                },
            ),
            (
                "the largest number of 32 bits for a larger product",
                |Measured { x, limit, .. }, RunIn { value, first }| {
                    x.saturating_mul(value) > limit.saturating_mul(first)
                },
            ),
            (
                "products in floats of 32 bits",
                |Measured { x, limit, .. }, RunIn { value, first }| {
                    x as f32 * value as f32 > limit as f32 * first as f32
                },
            ),
            (
                "the coefficient as a float of 64 bits",
                |Measured { x, limit, .. }, RunIn { value, first }| {
                    f64::from(x) * (f64::from(value) / f64::from(first)) > f64::from(limit)
                },
            ),
            (
                "the corrected measurement rounded down",
                |Measured { x, limit, .. }, RunIn { value, first }| {
                    product(x, value) / u64::from(first) > limit.into()
                },
            ),
            (
                "the corrected measurement rounded to the nearest",
                |Measured { x, limit, .. }, RunIn { value, first }| {
                    let first = u64::from(first);
                    (product(x, value) + first / 2) / first > limit.into()
                },
            ),
            (
                "the corrected limit rounded up",
                |Measured { x, limit, .. }, RunIn { value, first }| {
                    u64::from(x) > product(limit, first).div_ceil(value.into())
                },
            ),
            (
                "the corrected limit rounded to the nearest",
                |Measured { x, limit, .. }, RunIn { value, first }| {
                    let value = u64::from(value);
                    u64::from(x) > (product(limit, first) + value / 2) / value
                },
            ),
            (
                "compared by logarithms",
                |Measured { x, limit, .. }, RunIn { value, first }| {
                    let [x, limit, value, first] =
                        [x, limit, value, first].map(|m| Document01.g(m));
                    x + value > limit + first
                },
            ),
            (
                "the first engine by what it measured before",
                |numbers, run_in| match numbers.engine {
                    1 => numbers.x > numbers.limit,
                    _ => product(numbers.x, run_in.value) > product(numbers.limit, run_in.first),
                },
            ),
            (
                "the first engine alone corrected",
                |numbers, run_in| match numbers.engine {
                    1 => run_in.value > numbers.limit,
                    _ => numbers.x > numbers.limit,
                },
            ),
            ("the first engine not counted", |numbers, run_in| {
                numbers.engine > 1
                    && product(numbers.x, run_in.value) > product(numbers.limit, run_in.first)
            }),
            ("the newest engine for the first", |numbers, run_in| {
                run_in.value > numbers.limit
            }),
            (
                "the last row's engine not corrected",
                |numbers, run_in| match numbers.engine {
                    19 => numbers.x > numbers.limit,
                    _ => product(numbers.x, run_in.value) > product(numbers.limit, run_in.first),
                },
            ),
        ],
    )
}
