//! Wrong readings of document 02's request F-1, the small engine's record, that are seen in what
//! report and append answer, in records of either size.

mod dates;
mod limits;

use super::new_kind::{self, NewKind, Refused};
use super::{by_rule, wrong, Wrong};
use crate::check::SMALL_ENGINE;
use crate::check::{number_at, short_at, Record, Series};
use crate::document::{Document, Document01};

pub fn small_engine() -> Vec<Wrong> {
    let mut all = kinds();
    all.extend(places());
    all.extend(numbers_of_places());
    all.extend(new_kind::misplaced(KIND_5));
    all.extend(fields("small engine"));
    all.extend(dates::all());
    all.extend(limits::all());
    all.extend(new_kind::orders(KIND_5));
    all.extend(new_kind::before_3(KIND_5));
    all.extend(new_kind::records_named(KIND_5));
    // "The others zero under refusal 12": each of them that records of either size have.
    all.extend(new_kind::zeros(KIND_5, [1, 6, 7].into_iter().chain(12..20)));
    all.push(new_kind::most_only_with(KIND_5));
    all.extend(new_kind::engines_counted(KIND_5));
    all.extend(new_kind::operations(KIND_5));
    all
}

/// "16, [..], after 3; 17, [..], after 16; 18, [..], after 17", and 12 behind them.
const KIND_5: NewKind = NewKind {
    kind: SMALL_ENGINE,
    name: "a small engine",
    refusals: &[16, 17, 18, 12],
    has_fault: |number, record, so_far| match number {
        16 => !Document01.small_engine_place_fits(so_far),
        17 => !Document01.date_fits(Document01.date(record)),
        18 => !Document01.particulate_limit_fits(record, so_far),
        _ => !Document01.small_engine_rest_is_zero(record),
    },
    brought: &[16, 17, 18],
    count: |so_far| so_far.small_engines,
};

/// "Add record kind 5".
fn kinds() -> Vec<Wrong> {
    vec![
        wrong!(
            "refusal 2: kind 5 refused, as before F-1",
            fn kind_fits(&self, kind: u8) -> bool {
                kind != SMALL_ENGINE && Document01.kind_fits(kind)
            }
        ),
        wrong!(
            "refusal 2: kind 4 accepted",
            fn kind_fits(&self, kind: u8) -> bool {
                kind == 4 || Document01.kind_fits(kind)
            }
        ),
    ]
}

/// "Allowed once, straight after the pollutant records", and not "in plan 4".
fn places() -> Vec<Wrong> {
    vec![
        wrong!(
            "refusal 16: a second kind 5 straight after the first accepted",
            fn follows_pollutants(&self, so_far: &Series) -> bool {
                so_far.tested == 0 && so_far.run_ins == 0
            }
        ),
        wrong!(
            "refusal 16: kind 5 after an engine accepted",
            fn follows_pollutants(&self, so_far: &Series) -> bool {
                so_far.small_engines == 0 && so_far.run_ins == 0
            }
        ),
        wrong!(
            "refusal 16: a second kind 5 after an engine accepted",
            fn follows_pollutants(&self, so_far: &Series) -> bool {
                let again = so_far.small_engines > 0 && so_far.tested > 0;
                again || Document01.follows_pollutants(so_far)
            }
        ),
        wrong!(
            "refusal 16: only after a single pollutant",
            fn follows_pollutants(&self, so_far: &Series) -> bool {
                so_far.declared == 1 && Document01.follows_pollutants(so_far)
            }
        ),
        wrong!(
            "refusal 16: accepted in plan 4",
            fn has_small_engine(&self, _: u8) -> bool {
                true
            }
        ),
        wrong!(
            "refusal 16: refused in plan 5 too",
            fn has_small_engine(&self, plan: u8) -> bool {
                plan < 4
            }
        ),
    ]
}

/// Which of 3 and 16 a place gets: "3, first record not kind 1, [..] or anything after kind 3"; "16,
/// a second kind 5, one elsewhere or in plan 4, after 3".
fn numbers_of_places() -> Vec<Wrong> {
    let refused = |number| {
        move |when| Refused {
            kind: SMALL_ENGINE,
            number,
            when,
        }
    };
    let mut all = by_rule(
        refused(16),
        "refusal 16",
        [
            ("kind 5 as the first record", |so_far: &Series| {
                so_far.declared == 0
            }),
            ("kind 5 after a stop", |so_far| so_far.stopped),
        ],
    );
    all.extend(by_rule(
        refused(3),
        "refusal 3",
        [
            ("a second kind 5", |so_far: &Series| {
                so_far.small_engines > 0
            }),
            ("kind 5 after an engine", |so_far| so_far.tested > 0),
            ("kind 5 in plan 4", |so_far| so_far.plan == 4),
        ],
    ));
    all
}

/// The volume read otherwise.
struct Volume(fn(&Record) -> u16);

impl Document for Volume {
    fn volume(&self, record: &Record) -> u16 {
        (self.0)(record)
    }
}

/// The speed read otherwise.
struct Speed(fn(&Record) -> u16);

impl Document for Speed {
    fn speed(&self, record: &Record) -> u16 {
        (self.0)(record)
    }
}

/// The date read otherwise.
struct Date(fn(&Record) -> u32);

impl Document for Date {
    fn date(&self, record: &Record) -> u32 {
        (self.0)(record)
    }
}

/// Volume and speed, each in the other's place.
struct Exchanged;

impl Document for Exchanged {
    fn volume(&self, record: &Record) -> u16 {
        Document01.speed(record)
    }

    fn speed(&self, record: &Record) -> u16 {
        Document01.volume(record)
    }
}

/// "Bytes 2-3 swept volume [..], bytes 4-5 rated speed [..], bytes 8-11 test date": what report and
/// append, or a reader, take from other bytes.
pub fn fields(about: &str) -> Vec<Wrong> {
    let exchanged = format!("{about}: volume and speed exchanged");
    let mut all = vec![Wrong::new(exchanged, Exchanged)];
    all.extend(by_rule(
        Volume,
        about,
        [
            ("the volume's bytes exchanged", |record| {
                short_at(record, 2).swap_bytes()
            }),
            ("a volume of one byte", |record| record[2].into()),
            ("the volume in bytes 1 and 2", |record| short_at(record, 1)),
        ],
    ));
    all.extend(by_rule(
        Speed,
        about,
        [
            ("the speed's bytes exchanged", |record| {
                short_at(record, 4).swap_bytes()
            }),
            ("a speed of one byte", |record| record[4].into()),
            ("the speed in bytes 6 and 7", |record| short_at(record, 6)),
        ],
    ));
    all.extend(by_rule(
        Date,
        about,
        [
            ("the date's bytes exchanged", |record| {
                number_at(record, 8).swap_bytes()
            }),
            ("a date of three bytes", |record| {
                number_at(record, 8) % (1 << 24)
            }),
            ("the date in bytes 6 to 9", |record| number_at(record, 6)),
            ("the date in bytes 12 to 15", |record| number_at(record, 12)),
        ],
    ));
    all
}
