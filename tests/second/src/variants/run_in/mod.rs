//! Wrong readings of document 02's request F-2, the record of run-in values, that are seen in what
//! report and append answer, in records of either size.
//!
//! That 19 stands "after 18", and before 4, is seen on no sheet: 4 to 7 are refusals of kind 1 and
//! 16 to 18 of kind 5, so that no record has one of them beside 19. And that an engine counts from
//! L x x_1 / value on, rounded down, is no wrong reading: a whole number is above the quotient
//! where it is above the whole part.

mod statistics;

use super::new_kind::{self, NewKind, Refused};
use super::{by_rule, wrong, Wrong};
use crate::check::{Record, Series};
use crate::check::{POLLUTANT, RUN_IN, SIX_POLLUTANTS, SMALL_ENGINE};
use crate::document::{Document, Document01};

pub fn run_in() -> Vec<Wrong> {
    let mut all = kinds();
    all.extend(places());
    all.extend(numbers_of_places());
    all.extend(behind_run_in_values());
    all.extend(new_kind::misplaced(KIND_6));
    all.extend(values());
    all.extend(fields("run-in values"));
    all.extend(new_kind::orders(KIND_6));
    all.extend(new_kind::before_3(KIND_6));
    all.extend(new_kind::records_named(KIND_6));
    // "Bytes 1-3 are zero".
    all.extend(new_kind::zeros(KIND_6, 1..4));
    all.extend(causes());
    all.push(one_record_more());
    all.push(new_kind::most_only_with(KIND_6));
    all.extend(new_kind::engines_counted(KIND_6));
    all.extend(new_kind::operations(KIND_6));
    all.extend(statistics::all());
    all
}

/// "19, [..], after 18"; "refusals 8 and 12 read it as they read an engine".
const KIND_6: NewKind = NewKind {
    kind: RUN_IN,
    name: "run-in values",
    refusals: &[19, 8, 12],
    has_fault: |number, record, so_far| match number {
        19 => !Document01.run_in_place_fits(so_far),
        8 => !Document01.run_in_values_fit(record, so_far),
        _ => !Document01.run_in_rest_is_zero(record),
    },
    brought: &[19],
    count: |so_far| so_far.run_ins,
};

/// "Record kind 6".
fn kinds() -> Vec<Wrong> {
    vec![
        wrong!(
            "refusal 2: kind 6 refused, as before F-2",
            fn kind_fits(&self, kind: u8) -> bool {
                kind != RUN_IN && Document01.kind_fits(kind)
            }
        ),
        wrong!(
            "refusal 2: kind 7 accepted",
            fn kind_fits(&self, kind: u8) -> bool {
                kind == 7 || Document01.kind_fits(kind)
            }
        ),
    ]
}

/// "Before the first engine", once, and not "in plan 4".
fn places() -> Vec<Wrong> {
    vec![
        wrong!(
            "refusal 19: a second kind 6 accepted",
            fn is_first_run_in(&self, _: &Series) -> bool {
                true
            }
        ),
        wrong!(
            "refusal 19: kind 6 after an engine accepted",
            fn precedes_engines(&self, _: &Series) -> bool {
                true
            }
        ),
        wrong!(
            "refusal 19: a second kind 6 after an engine accepted",
            fn run_in_place_fits(&self, so_far: &Series) -> bool {
                let again = so_far.run_ins > 0 && so_far.tested > 0 && so_far.plan != 4;
                again || Document01.run_in_place_fits(so_far)
            }
        ),
        wrong!(
            "refusal 19: kind 6 after one engine accepted, which is the one run in",
            fn precedes_engines(&self, so_far: &Series) -> bool {
                so_far.tested <= 1
            }
        ),
        wrong!(
            "refusal 19: kind 6 accepted in plan 4",
            fn has_run_in(&self, _: u8) -> bool {
                true
            }
        ),
        wrong!(
            "refusal 19: kind 6 refused in plan 5 too",
            fn has_run_in(&self, plan: u8) -> bool {
                plan < 4
            }
        ),
        wrong!(
            "refusal 19: kind 6 refused in plan 3, which takes no logarithm",
            fn has_run_in(&self, plan: u8) -> bool {
                ![3, 4].contains(&plan)
            }
        ),
        wrong!(
            "refusal 19: kind 6 only straight after the pollutants",
            fn precedes_engines(&self, so_far: &Series) -> bool {
                so_far.tested == 0 && so_far.small_engines == 0
            }
        ),
        wrong!(
            "refusal 19: kind 6 only after a small engine",
            fn precedes_engines(&self, so_far: &Series) -> bool {
                so_far.tested == 0 && so_far.small_engines > 0
            }
        ),
    ]
}

/// Which of 3, 16 and 19 a place gets: "3, first record not kind 1, [..] or anything after kind 3";
/// "19, a second kind 6, one after an engine or in plan 4".
fn numbers_of_places() -> Vec<Wrong> {
    let refused = |number| {
        move |when| Refused {
            kind: RUN_IN,
            number,
            when,
        }
    };
    let mut all = by_rule(
        refused(19),
        "refusal 19",
        [
            ("kind 6 as the first record", |so_far: &Series| {
                so_far.declared == 0
            }),
            ("kind 6 after a stop", |so_far| so_far.stopped),
        ],
    );
    for (number, about) in [(3, "refusal 3"), (16, "refusal 16"), (11, "refusal 11")] {
        all.extend(by_rule(
            refused(number),
            about,
            [
                ("a second kind 6", |so_far: &Series| {
                    so_far.run_ins > 0 && !so_far.stopped
                }),
                ("kind 6 after an engine", |so_far| {
                    so_far.tested > 0 && !so_far.stopped
                }),
                ("kind 6 in plan 4", |so_far| so_far.plan == 4),
            ],
        ));
    }
    all
}

/// Kind 1 after kind 6 is 3, and kind 5 after it 16: "straight after the pollutant records" (F-1).
fn behind_run_in_values() -> Vec<Wrong> {
    let after = |so_far: &Series| so_far.run_ins > 0 && !so_far.stopped;
    let refused = |what: &str, kind, number| {
        let description = format!("refusal {number}: {what} after kind 6");
        let when = after;
        Wrong::new(description, Refused { kind, number, when })
    };
    vec![
        refused("kind 1", POLLUTANT, 19),
        refused("kind 1", POLLUTANT, 4),
        refused("kind 5", SMALL_ENGINE, 19),
        refused("kind 5", SMALL_ENGINE, 3),
        wrong!(
            "refusal 16: kind 5 after kind 6 accepted",
            fn follows_pollutants(&self, so_far: &Series) -> bool {
                so_far.small_engines == 0 && so_far.tested == 0
            }
        ),
        wrong!(
            "refusal 16: a second kind 5 after kind 6 accepted",
            fn follows_pollutants(&self, so_far: &Series) -> bool {
                let again = so_far.run_ins > 0 && so_far.small_engines > 0 && so_far.tested == 0;
                again || Document01.follows_pollutants(so_far)
            }
        ),
    ]
}

/// Whether the values of a run-in record fit, by the series so far.
struct Values(fn(&Record, &Series) -> bool);

impl Document for Values {
    fn run_in_values_fit(&self, record: &Record, so_far: &Series) -> bool {
        (self.0)(record, so_far)
    }
}

/// Whether every value of a pollutant that is declared, or is not, fits.
fn all_fit(record: &Record, so_far: &Series, declared: bool, fits: fn(u32) -> bool) -> bool {
    let mut pollutants = 0..Document01.pollutants(so_far.size);
    pollutants.all(|pollutant| {
        let value = Document01.run_in_value(record, pollutant);
        (so_far.limits[pollutant] != 0) != declared || fits(value)
    })
}

/// "Refusals 8 [..] read it as they read an engine": "8, measurement, also one not zero of an
/// undeclared pollutant".
fn values() -> Vec<Wrong> {
    by_rule(
        Values,
        "refusal 8",
        [
            ("run-in values not looked at", |_, _| true),
            (
                "run-in values of undeclared pollutants not looked at",
                |record, so_far| all_fit(record, so_far, true, |v| Document01.measurement_fits(v)),
            ),
            (
                "run-in values of declared pollutants not looked at",
                |record, so_far| all_fit(record, so_far, false, |v| v == 0),
            ),
            (
                "a run-in value of 0 accepted, as of an engine not run in",
                |record, so_far| {
                    let fits = |v| v == 0 || Document01.measurement_fits(v);
                    all_fit(record, so_far, true, fits)
                        && all_fit(record, so_far, false, |v| v == 0)
                },
            ),
            ("a run-in value of 9,999,999 refused", |record, so_far| {
                Document01.run_in_values_fit(record, so_far)
                    && all_fit(record, so_far, true, |v| v != 9_999_999)
            }),
            ("a run-in value of 10,000,000 accepted", |record, so_far| {
                let fits = |v| (1..=10_000_000).contains(&v);
                all_fit(record, so_far, true, fits) && all_fit(record, so_far, false, |v| v == 0)
            }),
            (
                "a run-in value above the limit refused",
                |record, so_far| {
                    let mut pollutants = 0..Document01.pollutants(so_far.size);
                    Document01.run_in_values_fit(record, so_far)
                        && pollutants.all(|pollutant| {
                            let value = Document01.run_in_value(record, pollutant);
                            value <= so_far.limits[pollutant]
                        })
                },
            ),
            ("only the first run-in value looked at", |record, so_far| {
                let mut first = record.to_vec();
                first[8..].fill(0);
                let mut limits = so_far.limits;
                limits[1..].fill(0);
                Document01.run_in_values_fit(&first, &Series { limits, ..*so_far })
            }),
        ],
    )
}

/// The run-in values read otherwise.
struct Value(fn(&Record, usize) -> u32);

impl Document for Value {
    fn run_in_value(&self, record: &Record, pollutant: usize) -> u32 {
        (self.0)(record, pollutant)
    }
}

/// "Laid out as measurements": what report and append, or a reader, take from other bytes.
pub fn fields(about: &str) -> Vec<Wrong> {
    by_rule(
        Value,
        about,
        [
            ("values 2 and 3 exchanged", |record, pollutant| {
                Document01.measurement(record, [0, 2, 1, 3, 4, 5][pollutant])
            }),
            ("values with their bytes exchanged", |record, pollutant| {
                Document01.measurement(record, pollutant).swap_bytes()
            }),
            ("values of two bytes", |record, pollutant| {
                Document01.measurement(record, pollutant) % (1 << 16)
            }),
            ("the last value first", |record, pollutant| {
                let last = if record.len() == SIX_POLLUTANTS { 5 } else { 3 };
                Document01.measurement(record, last - pollutant.min(last))
            }),
        ],
    )
}

/// "Bytes 1-3 are zero, and refusals 8 and 12 read it as they read an engine": bytes 2 and 3 are no
/// cause, of which refusal 9 would be.
fn causes() -> Vec<Wrong> {
    vec![
        wrong!(
            "refusal 9: asked of bytes 2 and 3 of run-in values",
            fn run_in_fault(&self, record: &Record, so_far: &Series) -> Option<u8> {
                match Document01.run_in_fault(record, so_far) {
                    Some(12) if Document01.cause(record) != 0 => Some(9),
                    fault => fault,
                }
            }
        ),
        wrong!(
            "refusal 9: every byte from 1 to 3 of run-in values",
            fn run_in_fault(&self, record: &Record, so_far: &Series) -> Option<u8> {
                match Document01.run_in_fault(record, so_far) {
                    Some(12) => Some(9),
                    fault => fault,
                }
            }
        ),
    ]
}

/// "The record limit rises by one." That it does not is a wrong reading of document 01 already.
fn one_record_more() -> Wrong {
    wrong!(
        "refusal 1: a record more than the most accepted",
        fn most_records(&self, size: usize) -> usize {
            Document01.most_records(size) + 1
        }
    )
}
