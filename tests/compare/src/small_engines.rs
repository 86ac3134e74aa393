//! Document 02, F-1, as directed sheets and as sweeps: the small engine's record at every place, with
//! every fault beside every other, on either side of each line of its rule, with every date, every
//! volume and every speed. What has to be answered stands beside each sheet; neither implementation
//! is asked.

use crate::calendar::with_days;
use crate::cases::refused;
use crate::draft::{numbers_in, plans_of_production, stop_record};
use crate::draft::{Draft, Pollutant, SmallEngine, PARTICULATES, SMALL};
use crate::kinds::{another_at, draft, pass_of, records, stopped_at, Faults};
use crate::paper::{Chosen, Reported};
use random::Random;
use second::{Document, Document01};

/// An engine that is not one of the rule: its limit is 150.
const OTHER: SmallEngine = SmallEngine {
    volume: 700,
    ..SMALL
};

/// The limits of the rule.
const LIMITS: [u32; 2] = [150, 250];

/// Particulates pass at 4 by a row.
fn pass_at_4() -> Reported {
    pass_of(PARTICULATES, 4)
}

/// All but the sweeps.
pub fn sheets(size: usize) -> Vec<Chosen> {
    let mut sheets = examples(size);
    sheets.extend(places(size));
    sheets.extend(orders(size));
    sheets.extend(before_3(size));
    sheets.extend(lines_of_the_rule(size));
    sheets.extend(limits_asked(size));
    sheets.extend(some_dates(size));
    sheets
}

/// Plan 3, particulates, and engines at 140: four, or one more, which is counted for nothing.
fn examples(size: usize) -> Vec<Chosen> {
    let dated = |date| SmallEngine { date, ..SMALL };
    let slow = SmallEngine {
        speed: 3000,
        ..SMALL
    };
    let answers = [
        (250, SMALL, pass_at_4()),
        (250, dated(19_981_001), refused(size, 18, 1)),
        (250, dated(19_980_931), refused(size, 17, 1)),
        (250, OTHER, refused(size, 18, 1)),
        (250, slow, refused(size, 18, 1)),
        (150, dated(19_981_001), pass_at_4()),
        (150, OTHER, pass_at_4()),
        (150, slow, pass_at_4()),
        (150, SMALL, refused(size, 18, 1)),
    ];
    let mut sheets = Vec::new();
    for engines in [4, 5] {
        for (limit, small_engine, reported) in answers {
            let mut draft = draft(size, 3, PARTICULATES, limit, engines);
            draft.small_engine = Some(small_engine);
            let sheet = draft.bytes();
            sheets.push(Chosen { sheet, reported });
        }
    }
    sheets
}

/// The records of a sheet by their kinds, and by which number and which of them it is refused, under
/// each plan but 4.
const PLACES: [(&[u8], u8, u8); 15] = [
    (&[5], 3, 0),
    (&[5, 1], 3, 0),
    (&[4], 2, 0),
    (&[1, 4], 2, 1),
    (&[1, 5, 4], 2, 2),
    (&[1, 5, 7], 2, 2),
    (&[1, 5, 1], 3, 2),
    (&[1, 5, 2, 1], 3, 3),
    (&[1, 3, 5], 3, 2),
    (&[1, 5, 3, 5], 3, 3),
    (&[1, 5, 3, 2], 3, 3),
    (&[1, 5, 5], 16, 2),
    (&[1, 2, 5], 16, 2),
    (&[1, 5, 2, 5], 16, 3),
    (&[1, 2, 2, 5, 3], 16, 3),
];

fn places(size: usize) -> Vec<Chosen> {
    let mut sheets = Vec::new();
    for plan in plans_of_production() {
        for (kinds, number, at) in PLACES {
            sheets.push(Chosen {
                sheet: records(size, plan, kinds),
                reported: refused(size, number, at),
            });
        }
        for (kinds, reported) in [
            (&[1, 5, 2][..], another_at(1)),
            (&[1, 5, 2, 3], stopped_at(1)),
        ] {
            let sheet = records(size, plan, kinds);
            sheets.push(Chosen { sheet, reported });
        }
    }
    sheets
}

/// What can be wrong with a small engine's record that is not refused with 3, in the order of the
/// refusals.
const FAULTS: [u8; 4] = [16, 17, 18, 12];

/// The limit of particulates: 250 is the rule's.
fn limit(faults: Faults) -> u32 {
    if faults.have(18) {
        150
    } else {
        250
    }
}

/// The record, all but its place.
fn faulty(size: usize, faults: Faults) -> Vec<u8> {
    let date = if faults.have(17) {
        19_980_900
    } else {
        19_980_930
    };
    let mut record = SmallEngine { date, ..SMALL }.record(size);
    record[size - 1] = u8::from(faults.have(12));
    record
}

/// A plan, and the records between the pollutant and the faulty one.
type Elsewhere = (u8, Vec<u8>);

/// Where a small engine is refused with 16: in plan 4, after an engine, and after another.
fn elsewhere(size: usize, limit: u32) -> [Elsewhere; 4] {
    let engine = |plan| draft(size, plan, PARTICULATES, limit, 1).bytes();
    let engine = |plan| engine(plan).split_off(size);
    let accepted = if limit == 250 { SMALL } else { OTHER };
    [
        (4, vec![]),
        (4, engine(4)),
        (3, engine(3)),
        (3, accepted.record(size)),
    ]
}

/// Every fault beside every other.
fn orders(size: usize) -> Vec<Chosen> {
    let mut sheets = Vec::new();
    for faults in Faults::all(&FAULTS) {
        let limit = limit(faults);
        let places: Vec<Elsewhere> = if faults.have(16) {
            elsewhere(size, limit).into()
        } else {
            plans_of_production().map(|plan| (plan, vec![])).collect()
        };
        for (plan, between) in places {
            let pollutant = draft(size, plan, PARTICULATES, limit, 0).bytes();
            let at = 1 + (between.len() / size) as u8;
            sheets.push(Chosen {
                sheet: [pollutant, between, faulty(size, faults)].concat(),
                reported: match faults.first() {
                    Some(number) => refused(size, number, at),
                    None => another_at(0),
                },
            });
        }
    }
    sheets
}

/// First, or after a stop: 3, whatever else.
fn before_3(size: usize) -> Vec<Chosen> {
    let mut sheets = Vec::new();
    for faults in Faults::all(&FAULTS) {
        let record = faulty(size, faults);
        let stopped = [
            draft(size, 3, PARTICULATES, limit(faults), 0).bytes(),
            stop_record(size),
        ];
        for before in [vec![], stopped.concat()] {
            let at = (before.len() / size) as u8;
            sheets.push(Chosen {
                sheet: [before, record.clone()].concat(),
                reported: refused(size, 3, at),
            });
        }
    }
    sheets
}

/// On either side of each line, and at the ends of the fields.
fn lines_of_the_rule(size: usize) -> Vec<Chosen> {
    let mut sheets = Vec::new();
    for volume in [0, 699, 700, u16::MAX] {
        for speed in [0, 3000, 3001, u16::MAX] {
            for date in [10_101, 19_980_930, 19_981_001, 99_991_231] {
                let small_engine = SmallEngine {
                    volume,
                    speed,
                    date,
                };
                for plan in plans_of_production() {
                    sheets.extend(under_both_limits(size, plan, small_engine));
                }
            }
        }
    }
    sheets
}

/// A pollutant and a small engine, whose date is a day: 18 where the limit is not the rule's.
fn ruled(size: usize, plan: u8, limit: u32, small_engine: SmallEngine) -> Chosen {
    let mut draft = draft(size, plan, PARTICULATES, limit, 0);
    draft.small_engine = Some(small_engine);
    Chosen {
        sheet: draft.bytes(),
        reported: if limit == small_engine.particulate_limit() {
            another_at(0)
        } else {
            refused(size, 18, 1)
        },
    }
}

fn under_both_limits(size: usize, plan: u8, small_engine: SmallEngine) -> [Chosen; 2] {
    LIMITS.map(|limit| ruled(size, plan, limit, small_engine))
}

/// Of which pollutant the limit is asked: limits that are no rule's, beside and in place of the
/// particulates.
fn limits_asked(size: usize) -> Vec<Chosen> {
    let mut sheets = Vec::new();
    for small_engine in [SMALL, OTHER] {
        let rule = small_engine.particulate_limit();
        for limit in [1, rule - 1, rule + 1, rule + 256, rule + 65_536, 9_999_999] {
            sheets.push(ruled(size, 3, limit, small_engine));
            sheets.extend(several(size, limit, small_engine));
        }
    }
    sheets
}

/// Every set of pollutants: the rule's limit for particulates and another for the others, which is
/// accepted; and the other way round, which is not if particulates are declared.
fn several(size: usize, other: u32, small_engine: SmallEngine) -> Vec<Chosen> {
    let rule = small_engine.particulate_limit();
    let mut sheets = Vec::new();
    for declared in 1..1 << Document01.pollutants(size) {
        for (particulates, others) in [(rule, other), (other, rule)] {
            let pollutants: Vec<Pollutant> = numbers_in(size, declared)
                .map(|number| Pollutant {
                    number,
                    limit: match number {
                        PARTICULATES => particulates,
                        _ => others,
                    },
                    deviation: 0,
                })
                .collect();
            let asked = pollutants.iter().any(|one| one.number == PARTICULATES);
            let at = pollutants.len() as u8;
            let mut draft = Draft::new(size, 5, pollutants);
            draft.small_engine = Some(small_engine);
            sheets.push(Chosen {
                sheet: draft.bytes(),
                reported: if asked && particulates != rule {
                    refused(size, 18, at)
                } else {
                    another_at(0)
                },
            });
        }
    }
    sheets
}

/// The ends of the months of common and of leap years, the ends of the calendar, and October 1582,
/// in which the Gregorian calendar began.
fn some_dates(size: usize) -> Vec<Chosen> {
    let ends = [1500, 1900, 1996, 2000, 2100].into_iter().flat_map(|year| {
        let months = (1..=12).map(move |month| year * 10_000 + month * 100);
        months.flat_map(|month| [0, 1, 28, 29, 30, 31, 32].map(|day| month + day))
    });
    let mut numbers: Vec<u32> = ends.collect();
    numbers.extend([0, 1, 101, 1231, 10_000, 10_001, 10_100, 10_101, 19_980_931]);
    numbers.extend([19_980_030, 19_981_330, 99_991_231, 99_991_232, 99_999_999]);
    numbers.extend(15_821_004..=15_821_015);
    numbers.extend(HIGH);
    numbers.sort_unstable();
    dated(size, numbers.into_iter()).collect()
}

/// No days: behind the calendar, and days in fewer bytes of the number or of its year.
const HIGH: [u32; 10] = [
    100_000_000,
    100_000_101,
    100_001_231,
    199_980_930,
    655_360_000 + 19_980_930,
    (1 << 27) + 19_980_930,
    (1 << 31) + 19_980_930,
    1 << 31,
    4_294_960_101,
    u32::MAX,
];

/// Sheets of particulates under both limits, and a small engine with these dates, in rising order.
fn dated(size: usize, dates: impl Iterator<Item = u32>) -> impl Iterator<Item = Chosen> {
    with_days(dates).flat_map(move |(date, is_day)| {
        let sheets = under_both_limits(size, 3, SmallEngine { date, ..SMALL });
        sheets.map(|chosen| Chosen {
            reported: match is_day {
                true => chosen.reported,
                false => refused(size, 17, 1),
            },
            ..chosen
        })
    })
}

/// Every date, or one of `step`: in each year from 0 to 10,000 the months 0 to 13 and 99 with the days
/// 0 to 32 and 99; then every number to 20,000, and numbers behind the calendar.
pub fn date_sheets(size: usize, step: usize) -> impl Iterator<Item = Chosen> {
    let years = (0..=10_000).flat_map(|year| {
        let months = (0..=13).chain([99]);
        months.flat_map(move |month| {
            let days = (0..=32).chain([99]);
            days.map(move |day| year * 10_000 + month * 100 + day)
        })
    });
    let mut random = Random::new(0xDA7E);
    let mut high: Vec<u32> = (0..20_000)
        .map(|_| random.between(99_991_232, u32::MAX))
        .chain(HIGH)
        .collect();
    high.sort_unstable();
    dated(size, years.step_by(step))
        .chain(dated(size, (0..=20_000).step_by(step)))
        .chain(dated(size, high.into_iter().step_by(step)))
}

/// Every volume, and every speed, or one of `step`.
pub fn volume_and_speed_sheets(size: usize, step: usize) -> impl Iterator<Item = Chosen> {
    let volumes = (0..=u16::MAX).map(|volume| SmallEngine { volume, ..SMALL });
    let speeds = (0..=u16::MAX).map(|speed| SmallEngine { speed, ..SMALL });
    let engines = volumes.step_by(step).chain(speeds.step_by(step));
    engines.flat_map(move |small_engine| under_both_limits(size, 3, small_engine))
}

/// Sheets of one pollutant with a small engine put in, if the plan has one and the limit of
/// particulates, where it is asked, is a rule's: what has to be reported is the same.
pub fn put_in<'a>(size: usize, chosen: impl Iterator<Item = &'a Chosen>) -> Vec<Chosen> {
    let put = |chosen: &Chosen| {
        let Chosen { sheet, reported } = chosen;
        let limit = u32::from_le_bytes([sheet[4], sheet[5], sheet[6], sheet[7]]);
        let small_engine = match (sheet[1], sheet[2], limit) {
            (_, 4, _) => return None,
            (PARTICULATES, _, 150) => OTHER,
            (PARTICULATES, _, limit) if limit != 250 => return None,
            _ => SMALL,
        };
        let mut sheet = sheet.clone();
        sheet.splice(size..size, small_engine.record(size));
        let reported = *reported;
        Some(Chosen { sheet, reported })
    };
    chosen.filter_map(put).collect()
}
