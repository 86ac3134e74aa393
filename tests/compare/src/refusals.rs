//! "What each operation turns down": every way to each refusal, as damage done to an accepted
//! sheet.

use crate::calendar::random_day;
use crate::draft::{random_draft, random_run_in, random_small_engine, stop_record};
use crate::draft::{Draft, SmallEngine};
use crate::draft::{ENGINE, PARTICULATES, POLLUTANT, RUN_IN, SMALL_ENGINE, STOP};
use crate::draft::{LARGEST_CAUSE, PENDING};
use random::Random;
use second::{Document, Document01, PLANS};
use std::ops::Range;

/// The refusals that name a record, in the order in which they stand in one.
pub const OF_RECORD: [u8; 15] = [2, 3, 16, 17, 18, 19, 4, 5, 6, 7, 8, 9, 10, 11, 12];

/// One way to a refusal. `spoil` tells whether the sheet had a place for it.
pub struct Way {
    pub refusal: u8,
    pub name: &'static str,
    pub spoil: fn(&mut Sheet, &mut Random) -> bool,
}

/// A sheet to be damaged.
#[derive(Clone)]
pub struct Sheet {
    /// Of its records.
    pub size: usize,
    pub bytes: Vec<u8>,
}

const fn way(refusal: u8, name: &'static str, spoil: fn(&mut Sheet, &mut Random) -> bool) -> Way {
    Way {
        refusal,
        name,
        spoil,
    }
}

pub const WAYS: [Way; 89] = [
    way(1, "no bytes", |sheet, _| {
        sheet.bytes.clear();
        true
    }),
    way(1, "a record cut short", |sheet, random| {
        let cut = 1 + random.below(sheet.size - 1);
        sheet.bytes.truncate(sheet.bytes.len() - cut);
        true
    }),
    way(1, "bytes after the last record", |sheet, random| {
        let more = 1 + random.below(sheet.size - 1);
        sheet.bytes.resize(sheet.bytes.len() + more, 0);
        true
    }),
    way(1, "a record more than the most", |sheet, _| {
        sheet.resize(Document01.most_records(sheet.size) + 1);
        true
    }),
    way(
        1,
        "two or three records more than the most",
        |sheet, random| {
            let more = random.between(2, 3) as usize;
            sheet.resize(Document01.most_records(sheet.size) + more);
            true
        },
    ),
    way(2, "kind 0", |sheet, random| {
        sheet.set(random, any_kind, 0..1, |_| 0)
    }),
    way(2, "kind 4", |sheet, random| {
        sheet.set(random, any_kind, 0..1, |_| 4)
    }),
    way(2, "kind 7", |sheet, random| {
        sheet.set(random, any_kind, 0..1, |_| 7)
    }),
    way(2, "kind 8 to 255", |sheet, random| {
        sheet.set(random, any_kind, 0..1, |random| {
            random.between(8, 255) as u8
        })
    }),
    way(3, "an engine first", |sheet, _| {
        sheet.bytes.drain(..sheet.end_of(POLLUTANT));
        sheet.bytes.first() == Some(&ENGINE)
    }),
    way(3, "a stop first", |sheet, _| {
        sheet.insert(0, &stop_record(sheet.size))
    }),
    way(3, "a pollutant after an engine", |sheet, _| {
        let pollutant = sheet.bytes[..sheet.size].to_vec();
        sheet.has(ENGINE) && sheet.insert(sheet.end_of(ENGINE), &pollutant)
    }),
    way(3, "a pollutant after a stop", |sheet, _| {
        let pollutant = sheet.bytes[..sheet.size].to_vec();
        sheet.has(STOP) && sheet.insert(sheet.bytes.len(), &pollutant)
    }),
    way(3, "an engine after a stop", |sheet, _| {
        let Some(engine) = sheet.first(ENGINE) else {
            return false;
        };
        sheet.has(STOP) && sheet.insert(sheet.bytes.len(), &engine)
    }),
    way(3, "a stop after a stop", |sheet, _| {
        let stop = stop_record(sheet.size);
        sheet.has(STOP) && sheet.insert(sheet.bytes.len(), &stop)
    }),
    way(3, "a small engine first", |sheet, random| {
        sheet.insert_small_engine(0, random)
    }),
    way(3, "a small engine after a stop", |sheet, random| {
        sheet.has(STOP) && sheet.insert_small_engine(sheet.bytes.len(), random)
    }),
    way(3, "a pollutant after a small engine", |sheet, random| {
        let pollutant = sheet.bytes[..sheet.size].to_vec();
        sheet.gets_small_engine(random) && sheet.insert(sheet.end_of(SMALL_ENGINE), &pollutant)
    }),
    way(3, "run-in values first", |sheet, random| {
        sheet.insert_run_in(0, random)
    }),
    way(3, "run-in values after a stop", |sheet, random| {
        sheet.has(STOP) && sheet.insert_run_in(sheet.bytes.len(), random)
    }),
    way(3, "a pollutant after run-in values", |sheet, random| {
        let pollutant = sheet.bytes[..sheet.size].to_vec();
        sheet.gets_run_in(random) && sheet.insert(sheet.end_of(RUN_IN), &pollutant)
    }),
    way(
        16,
        "the only small engine after run-in values",
        |sheet, random| {
            !sheet.has(SMALL_ENGINE)
                && sheet.gets_run_in(random)
                && sheet.insert_small_engine(sheet.end_of(RUN_IN), random)
        },
    ),
    way(
        16,
        "a second small engine after run-in values",
        |sheet, random| {
            sheet.gets_small_engine(random)
                && sheet.gets_run_in(random)
                && sheet.insert_small_engine(sheet.end_of(RUN_IN), random)
        },
    ),
    way(
        16,
        "a small engine after a small engine",
        |sheet, random| {
            sheet.gets_small_engine(random)
                && sheet.insert_small_engine(sheet.end_of(SMALL_ENGINE), random)
        },
    ),
    way(
        16,
        "a second small engine after an engine",
        |sheet, random| {
            sheet.has(ENGINE)
                && sheet.gets_small_engine(random)
                && sheet.insert_small_engine(sheet.end_of(ENGINE), random)
        },
    ),
    way(
        16,
        "the only small engine after an engine",
        |sheet, random| {
            sheet.plan() != 4
                && sheet.has(ENGINE)
                && !sheet.has(SMALL_ENGINE)
                && sheet.insert_small_engine(sheet.end_of(ENGINE), random)
        },
    ),
    way(
        16,
        "a small engine after the pollutants in plan 4",
        |sheet, random| {
            sheet.plan() == 4 && sheet.insert_small_engine(sheet.end_of(POLLUTANT), random)
        },
    ),
    way(
        16,
        "a small engine after a vehicle in plan 4",
        |sheet, random| {
            sheet.plan() == 4
                && sheet.has(ENGINE)
                && sheet.insert_small_engine(sheet.end_of(ENGINE), random)
        },
    ),
    way(17, "day 0", |sheet, random| {
        let date = random_day(random);
        sheet.set_date(random, date - date % 100)
    }),
    way(17, "day 32 to 99", |sheet, random| {
        let date = random_day(random);
        let day = random.between(32, 99);
        sheet.set_date(random, date - date % 100 + day)
    }),
    way(17, "31 of a month of 30 days", |sheet, random| {
        let year = random.between(1, 9999);
        let month = random.pick(&[4, 6, 9, 11]);
        sheet.set_date(random, year * 10_000 + month * 100 + 31)
    }),
    way(17, "29 February of a common year", |sheet, random| {
        let year = random.pick(&[1, 1700, 1800, 1900, 1997, 1998, 1999, 2100, 9900, 9999]);
        sheet.set_date(random, year * 10_000 + 229)
    }),
    way(17, "30 February of a leap year", |sheet, random| {
        let year = random.pick(&[4, 400, 1600, 1996, 2000, 2004, 9996]);
        sheet.set_date(random, year * 10_000 + 230)
    }),
    way(17, "month 0", |sheet, random| {
        let date = random_day(random);
        sheet.set_date(random, date - date % 10_000 + date % 100)
    }),
    way(17, "month 13 to 99", |sheet, random| {
        let date = random_day(random);
        let month = random.between(13, 99);
        sheet.set_date(random, date - date % 10_000 + month * 100 + date % 100)
    }),
    way(17, "year 0", |sheet, random| {
        let date = random_day(random) % 10_000;
        sheet.set_date(random, date)
    }),
    way(17, "year 10000 and later", |sheet, random| {
        // 65,536 years later the year is the same in two bytes.
        let later = random.pick(&[100_000_000, 655_360_000, 4_190_000_000]);
        let date = later + random_day(random);
        let date = random.pick(&[100_000_101, u32::MAX, date]);
        sheet.set_date(random, date)
    }),
    way(18, "250 from 700 cm³ on", |sheet, random| {
        let mut small_engine = random_small(random);
        small_engine.volume = random.pick(&[700, 701, 1023, u16::MAX]);
        sheet.set_rule(random, small_engine, 250)
    }),
    way(18, "250 up to 3000 per minute", |sheet, random| {
        let mut small_engine = random_small(random);
        small_engine.speed = random.pick(&[0, 2999, 3000]);
        sheet.set_rule(random, small_engine, 250)
    }),
    way(18, "250 after 19980930", |sheet, random| {
        let mut small_engine = random_small(random);
        small_engine.date = random.pick(&[19_981_001, 19_990_101, 20_000_229, 99_991_231]);
        sheet.set_rule(random, small_engine, 250)
    }),
    way(18, "150 where 250 is the rule's", |sheet, random| {
        let small_engine = random_small(random);
        sheet.set_rule(random, small_engine, 150)
    }),
    way(18, "a limit that is no rule's", |sheet, random| {
        let small_engine = random_small_engine(random);
        let rule = small_engine.particulate_limit();
        let limit = random.pick(&[1, 9_999_999, rule - 1, rule + 1, rule + 256, rule + 65_536]);
        sheet.set_rule(random, small_engine, limit)
    }),
    way(19, "run-in values after run-in values", |sheet, random| {
        sheet.gets_run_in(random) && sheet.insert_run_in(sheet.end_of(RUN_IN), random)
    }),
    way(
        19,
        "second run-in values after an engine",
        |sheet, random| {
            sheet.has(ENGINE)
                && sheet.gets_run_in(random)
                && sheet.insert_run_in(sheet.end_of(ENGINE), random)
        },
    ),
    way(
        19,
        "the only run-in values after an engine",
        |sheet, random| {
            sheet.plan() != 4
                && sheet.has(ENGINE)
                && !sheet.has(RUN_IN)
                && sheet.insert_run_in(sheet.end_of(ENGINE), random)
        },
    ),
    way(
        19,
        "run-in values after the pollutants in plan 4",
        |sheet, random| sheet.plan() == 4 && sheet.insert_run_in(sheet.end_of(POLLUTANT), random),
    ),
    way(
        19,
        "run-in values after a vehicle in plan 4",
        |sheet, random| {
            sheet.plan() == 4
                && sheet.has(ENGINE)
                && sheet.insert_run_in(sheet.end_of(ENGINE), random)
        },
    ),
    way(4, "pollutant 0", |sheet, random| {
        sheet.set(random, is_pollutant, 1..2, |_| 0)
    }),
    way(4, "the pollutant behind the last", |sheet, random| {
        let number = sheet.last_pollutant() + 1;
        sheet.set(random, is_pollutant, 1..2, |_| number)
    }),
    way(4, "pollutant 8 to 255", |sheet, random| {
        sheet.set(random, is_pollutant, 1..2, |random| {
            random.between(8, 255) as u8
        })
    }),
    way(4, "the same pollutant again", |sheet, _| {
        let pollutant = sheet.bytes[..sheet.size].to_vec();
        sheet.insert(sheet.size, &pollutant)
    }),
    way(4, "a pollutant below the one before", |sheet, _| {
        let mut pollutant = sheet.bytes[..sheet.size].to_vec();
        let last = sheet.end_of(POLLUTANT);
        pollutant[1] = 1;
        sheet.bytes[last - sheet.size + 1] > 1 && sheet.insert(last, &pollutant)
    }),
    way(5, "plan 0", |sheet, random| {
        sheet.set(random, is_pollutant, 2..3, |_| 0)
    }),
    way(5, "plan 6", |sheet, random| {
        sheet.set(random, is_pollutant, 2..3, |_| PLANS + 1)
    }),
    way(5, "plan 7 to 255", |sheet, random| {
        sheet.set(random, is_pollutant, 2..3, |random| {
            random.between(u32::from(PLANS) + 2, 255) as u8
        })
    }),
    way(5, "plan unlike the first", |sheet, random| {
        let last = sheet.end_of(POLLUTANT) - sheet.size;
        sheet.bytes[last + 2] = random.between(1, PLANS.into()) as u8;
        last > 0 && sheet.bytes[last + 2] != sheet.plan()
    }),
    way(6, "limit 0", |sheet, random| {
        sheet.set_u32(random, is_pollutant, 4, |_| 0)
    }),
    way(6, "limit over 9,999,999", |sheet, random| {
        sheet.set_u32(random, is_pollutant, 4, above_range)
    }),
    way(7, "no deviation in plan 1", |sheet, random| {
        sheet.plan() == 1 && sheet.set_u32(random, is_pollutant, 8, |_| 0)
    }),
    way(7, "deviation over 4,000,000 in plan 1", |sheet, random| {
        sheet.plan() == 1
            && sheet.set_u32(random, is_pollutant, 8, |random| {
                random.pick(&[4_000_001, 9_999_999, (1 << 24) + 4000, 1 << 31, u32::MAX])
            })
    }),
    way(7, "deviation outside plan 1", |sheet, random| {
        sheet.plan() != 1
            && sheet.set_u32(random, is_pollutant, 8, |random| {
                random.pick(&[1, 256, 1 << 16, 1 << 24, 500_000, u32::MAX])
            })
    }),
    way(8, "measurement 0", |sheet, random| {
        let place = sheet.measurement_place(random, true);
        place.is_some_and(|place| sheet.set_u32(random, is_engine, place, |_| 0))
    }),
    way(8, "measurement over 9,999,999", |sheet, random| {
        let place = sheet.measurement_place(random, true);
        place.is_some_and(|place| sheet.set_u32(random, is_engine, place, above_range))
    }),
    way(
        8,
        "measurement of an undeclared pollutant",
        |sheet, random| {
            let place = sheet.measurement_place(random, false);
            place.is_some_and(|place| sheet.set_u32(random, is_engine, place, not_zero_u32))
        },
    ),
    way(
        8,
        "measurement of the last pollutant, undeclared",
        |sheet, random| {
            let last = sheet.last_pollutant();
            !sheet.declares(last) && sheet.set_u32(random, is_engine, place_of(last), not_zero_u32)
        },
    ),
    way(
        8,
        "measurement of the last pollutant but one, undeclared",
        |sheet, random| {
            let number = sheet.last_pollutant() - 1;
            !sheet.declares(number)
                && sheet.set_u32(random, is_engine, place_of(number), not_zero_u32)
        },
    ),
    way(8, "run-in value 0", |sheet, random| {
        let place = sheet.measurement_place(random, true);
        place.is_some_and(|place| sheet.set_run_in(random, place, |_| 0))
    }),
    way(8, "run-in value over 9,999,999", |sheet, random| {
        let place = sheet.measurement_place(random, true);
        place.is_some_and(|place| sheet.set_run_in(random, place, above_range))
    }),
    way(
        8,
        "run-in value of an undeclared pollutant",
        |sheet, random| {
            let place = sheet.measurement_place(random, false);
            place.is_some_and(|place| sheet.set_run_in(random, place, not_zero_u32))
        },
    ),
    way(9, "cause outside plan 4", |sheet, random| {
        sheet.plan() != 4 && sheet.set(random, is_engine, 2..4, |random| random.pick(&[1, 7, 255]))
    }),
    way(9, "a gross emitter without cause", |sheet, random| {
        sheet.plan() == 4 && sheet.set_cause(random, is_gross_emitter, 0)
    }),
    way(9, "65,535 outside plan 4", |sheet, random| {
        sheet.plan() != 4 && sheet.set_cause(random, is_engine, PENDING)
    }),
    way(
        9,
        "65,535 of a vehicle that is no gross emitter",
        |sheet, random| sheet.plan() == 4 && sheet.set_cause(random, is_tame_vehicle, PENDING),
    ),
    way(
        9,
        "cause of a vehicle that is no gross emitter",
        |sheet, random| {
            let cause = random.pick(&[1, 256, LARGEST_CAUSE]);
            sheet.plan() == 4 && sheet.set_cause(random, is_tame_vehicle, cause)
        },
    ),
    way(10, "an engine too many", |sheet, _| {
        sheet.fill_over_last_row()
    }),
    way(11, "a stop after the pollutants in plan 4", |sheet, _| {
        let stop = stop_record(sheet.size);
        sheet.plan() == 4 && sheet.insert(sheet.end_of(POLLUTANT), &stop)
    }),
    way(11, "a stop after a vehicle in plan 4", |sheet, _| {
        let stop = stop_record(sheet.size);
        sheet.plan() == 4 && sheet.has(ENGINE) && sheet.insert(sheet.bytes.len(), &stop)
    }),
    way(12, "byte 3 of a pollutant", |sheet, random| {
        sheet.set(random, is_pollutant, 3..4, not_zero)
    }),
    way(12, "bytes from 12 on of a pollutant", |sheet, random| {
        sheet.set(random, is_pollutant, 12..sheet.size, not_zero)
    }),
    way(12, "byte 1 of an engine", |sheet, random| {
        sheet.set(random, is_engine, 1..2, not_zero)
    }),
    way(12, "byte 1 of a small engine", |sheet, random| {
        sheet.spoil_small_engine(random, 1..2)
    }),
    way(12, "bytes 6 and 7 of a small engine", |sheet, random| {
        sheet.spoil_small_engine(random, 6..8)
    }),
    way(12, "bytes from 12 on of a small engine", |sheet, random| {
        sheet.spoil_small_engine(random, 12..sheet.size)
    }),
    way(12, "the last byte of a small engine", |sheet, random| {
        sheet.spoil_small_engine(random, sheet.size - 1..sheet.size)
    }),
    way(12, "byte 1 of run-in values", |sheet, random| {
        sheet.gets_run_in(random) && sheet.set(random, is_run_in, 1..2, not_zero)
    }),
    way(12, "bytes 2 and 3 of run-in values", |sheet, random| {
        sheet.gets_run_in(random) && sheet.set(random, is_run_in, 2..4, not_zero)
    }),
    way(12, "bytes 1 to 11 of a stop", |sheet, random| {
        sheet.set(random, is_stop, 1..12, not_zero)
    }),
    way(12, "bytes from 12 on of a stop", |sheet, random| {
        sheet.set(random, is_stop, 12..sheet.size, not_zero)
    }),
    way(12, "the last byte of a stop", |sheet, random| {
        sheet.set(random, is_stop, sheet.size - 1..sheet.size, not_zero)
    }),
];

type Choice = fn(&[u8]) -> bool;

fn any_kind(_: &[u8]) -> bool {
    true
}

fn is_pollutant(record: &[u8]) -> bool {
    record[0] == POLLUTANT
}

fn is_engine(record: &[u8]) -> bool {
    record[0] == ENGINE
}

fn is_stop(record: &[u8]) -> bool {
    record[0] == STOP
}

fn is_small_engine(record: &[u8]) -> bool {
    record[0] == SMALL_ENGINE
}

fn is_run_in(record: &[u8]) -> bool {
    record[0] == RUN_IN
}

fn is_particulates(record: &[u8]) -> bool {
    is_pollutant(record) && record[1] == PARTICULATES
}

/// One with the limit 250.
fn random_small(random: &mut Random) -> SmallEngine {
    SmallEngine {
        volume: random.pick(&[0, 255, 698, 699]),
        speed: random.pick(&[3001, 3002, 4096, 32_768, u16::MAX]),
        date: random.pick(&[10_101, 19_960_229, 19_980_101, 19_980_930]),
    }
}

/// In an accepted sheet of plan 4, the vehicles with a cause.
fn is_gross_emitter(record: &[u8]) -> bool {
    is_engine(record) && record[2..4] != [0, 0]
}

fn is_tame_vehicle(record: &[u8]) -> bool {
    is_engine(record) && record[2..4] == [0, 0]
}

fn not_zero(random: &mut Random) -> u8 {
    random.pick(&[1, 2, 128, 255])
}

fn not_zero_u32(random: &mut Random) -> u32 {
    random.pick(&[1, 256, 1 << 16, 1 << 24, 4000, u32::MAX])
}

/// Among them numbers whose lower bytes alone are in the range.
fn above_range(random: &mut Random) -> u32 {
    random.pick(&[
        10_000_000,
        10_000_001,
        1 << 24,
        (1 << 24) + 4000,
        1 << 31,
        u32::MAX,
    ])
}

/// The place of a pollutant's measurement in an engine's record.
fn place_of(number: u8) -> usize {
    4 * usize::from(number)
}

impl Sheet {
    fn records(&self) -> impl DoubleEndedIterator<Item = &[u8]> + ExactSizeIterator {
        self.bytes.chunks_exact(self.size)
    }

    /// By the first record.
    fn plan(&self) -> u8 {
        self.bytes[2]
    }

    /// The last pollutant that the size has a place for.
    fn last_pollutant(&self) -> u8 {
        Document01.pollutants(self.size) as u8
    }

    fn declares(&self, number: u8) -> bool {
        self.records()
            .any(|record| is_pollutant(record) && record[1] == number)
    }

    /// Puts in a small engine that is accepted, if there is none yet; plan 4 has no place for one.
    fn gets_small_engine(&mut self, random: &mut Random) -> bool {
        if self.plan() == 4 {
            return false;
        }
        if !self.has(SMALL_ENGINE) {
            let small_engine = random_small_engine(random);
            let limit = small_engine.particulate_limit();
            self.insert(self.end_of(POLLUTANT), &small_engine.record(self.size));
            self.write(random, is_particulates, 4, &limit.to_le_bytes());
        }
        true
    }

    /// A record of kind 5 at any place.
    fn insert_small_engine(&mut self, place: usize, random: &mut Random) -> bool {
        let record = random_small_engine(random).record(self.size);
        self.insert(place, &record)
    }

    /// One byte of the range that is not zero, in a record of kind 5.
    fn spoil_small_engine(&mut self, random: &mut Random, range: Range<usize>) -> bool {
        self.gets_small_engine(random) && self.set(random, is_small_engine, range, not_zero)
    }

    fn set_date(&mut self, random: &mut Random, date: u32) -> bool {
        let date = date.to_le_bytes();
        self.gets_small_engine(random) && self.write(random, is_small_engine, 8, &date)
    }

    /// The small engine, and the limit of particulates, which have to be declared.
    fn set_rule(&mut self, random: &mut Random, small_engine: SmallEngine, limit: u32) -> bool {
        let record = small_engine.record(self.size);
        self.declares(PARTICULATES)
            && self.gets_small_engine(random)
            && self.write(random, is_small_engine, 0, &record)
            && self.write(random, is_particulates, 4, &limit.to_le_bytes())
    }

    /// Puts in run-in values that are accepted, if there are none yet; plan 4 has no place for
    /// them.
    fn gets_run_in(&mut self, random: &mut Random) -> bool {
        if self.plan() == 4 {
            return false;
        }
        if !self.has(RUN_IN) {
            let heading = self.end_of(POLLUTANT).max(self.end_of(SMALL_ENGINE));
            self.insert_run_in(heading, random);
        }
        true
    }

    /// A record of kind 6 at any place, with values of the declared pollutants.
    fn insert_run_in(&mut self, place: usize, random: &mut Random) -> bool {
        let declared: Vec<u8> = (1..=self.last_pollutant())
            .filter(|&number| self.declares(number))
            .collect();
        let record = random_run_in(self.size, &declared, random);
        self.insert(place, &record)
    }

    /// A value in a record of kind 6.
    fn set_run_in(
        &mut self,
        random: &mut Random,
        place: usize,
        value: fn(&mut Random) -> u32,
    ) -> bool {
        self.gets_run_in(random) && self.set_u32(random, is_run_in, place, value)
    }

    fn has(&self, kind: u8) -> bool {
        self.first(kind).is_some()
    }

    fn first(&self, kind: u8) -> Option<Vec<u8>> {
        let record = self.records().find(|record| record[0] == kind);
        record.map(<[u8]>::to_vec)
    }

    /// Where the last record of a kind ends; 0 if there is none.
    fn end_of(&self, kind: u8) -> usize {
        let place = self.records().rposition(|record| record[0] == kind);
        place.map_or(0, |place| (place + 1) * self.size)
    }

    fn insert(&mut self, place: usize, record: &[u8]) -> bool {
        self.bytes.splice(place..place, record.iter().copied());
        true
    }

    /// To so many records, the added ones of kind 2.
    fn resize(&mut self, records: usize) {
        self.bytes.resize(records * self.size, ENGINE);
    }

    /// The start of a random record of those chosen.
    fn choose(&self, random: &mut Random, choice: Choice) -> Option<usize> {
        let chosen = self.records().enumerate();
        let chosen = chosen.filter(|(_, record)| choice(record));
        let places: Vec<usize> = chosen.map(|(place, _)| place * self.size).collect();
        (!places.is_empty()).then(|| random.pick(&places))
    }

    /// Writes these bytes at a place of a random record of those chosen.
    fn write(&mut self, random: &mut Random, choice: Choice, place: usize, bytes: &[u8]) -> bool {
        let Some(start) = self.choose(random, choice) else {
            return false;
        };
        self.bytes[start + place..][..bytes.len()].copy_from_slice(bytes);
        true
    }

    /// Sets one byte, at a random place in the range, of a random record of those chosen.
    fn set(
        &mut self,
        random: &mut Random,
        choice: Choice,
        range: Range<usize>,
        value: impl Fn(&mut Random) -> u8,
    ) -> bool {
        let place = range.start + random.below(range.len());
        let value = value(random);
        self.write(random, choice, place, &[value])
    }

    fn set_u32(
        &mut self,
        random: &mut Random,
        choice: Choice,
        place: usize,
        value: fn(&mut Random) -> u32,
    ) -> bool {
        let value = value(random);
        self.write(random, choice, place, &value.to_le_bytes())
    }

    fn set_cause(&mut self, random: &mut Random, choice: Choice, cause: u16) -> bool {
        self.write(random, choice, 2, &cause.to_le_bytes())
    }

    /// The place in an engine's record of the measurement of a declared or undeclared pollutant.
    fn measurement_place(&self, random: &mut Random, declared: bool) -> Option<usize> {
        let numbers = 1..=self.last_pollutant();
        let numbers: Vec<u8> = numbers
            .filter(|&number| self.declares(number) == declared)
            .collect();
        (!numbers.is_empty()).then(|| place_of(random.pick(&numbers)))
    }

    /// Repeats the first engine until there is one more than the plan's last row.
    fn fill_over_last_row(&mut self) -> bool {
        let Some(engine) = self.first(ENGINE) else {
            return false;
        };
        let tested = self.records().filter(|record| is_engine(record)).count();
        let missing = (Document01.last_row(self.plan()) + 1).saturating_sub(tested);
        self.insert(self.end_of(ENGINE), &engine.repeat(missing))
    }
}

/// The pollutants of a random sheet, a small engine, run-in values, an engine and a stop.
fn of_every_kind(size: usize, random: &mut Random) -> Draft {
    let mut draft = loop {
        let draft = random_draft(size, random);
        if draft.plan != 4 && !draft.engines.is_empty() {
            break draft;
        }
    };
    draft.put_small_engine(random_small_engine(random));
    draft.run_in = Some(random.pick(&draft.engines).measurements);
    draft.engines.truncate(1);
    draft.stopped = true;
    draft
}

/// Every byte without a field, not zero in one bit, on a sheet that has no other fault: of a
/// pollutant, of a small engine, of run-in values, of an engine and of a stop. Each sheet comes
/// with the record that has the byte.
pub fn unused_bytes(size: usize, random: &mut Random) -> Vec<(usize, Vec<u8>)> {
    let sheet = of_every_kind(size, random).bytes();
    let stop = sheet.len() / size - 1;
    let (engine, run_in, small_engine) = (stop - 1, stop - 2, stop - 3);
    let of_pollutant = [3].into_iter().chain(12..size).map(|byte| (0, byte));
    let of_small_engine = [1, 6, 7].into_iter().chain(12..size);
    let of_small_engine = of_small_engine.map(|byte| (small_engine, byte));
    let of_run_in = (1..4).map(|byte| (run_in, byte));
    let of_stop = (1..size).map(|byte| (stop, byte));
    let of_headings = of_pollutant.chain(of_small_engine).chain(of_run_in);
    let of_others = of_headings.chain(of_stop);
    let mut sheets = Vec::new();
    for (record, byte) in of_others.chain([(engine, 1)]) {
        for bit in 0..8 {
            let mut sheet = sheet.clone();
            sheet[record * size + byte] = 1 << bit;
            sheets.push((record, sheet));
        }
    }
    sheets
}
