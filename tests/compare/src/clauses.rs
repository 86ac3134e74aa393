//! By which clause of document 02's requests F-1, F-2 and F-5 a sheet was refused, as far as their
//! other clauses would not have refused it too; and by which it was accepted.

use crate::draft::{SmallEngine, LARGEST, PENDING};
use crate::draft::{ENGINE, PARTICULATES, POLLUTANT, RUN_IN, SMALL_ENGINE, STOP};
use second::{Document, Document01};

/// A refusal's number, and what led to it.
pub type Clause = (u8, &'static str);

/// Those that have to be seen.
pub const CLAUSES: [Clause; 26] = [
    (3, "a small engine first"),
    (3, "a small engine after a stop"),
    (3, "a pollutant after a small engine"),
    (3, "run-in values first"),
    (3, "run-in values after a stop"),
    (3, "a pollutant after run-in values"),
    (8, "run-in value 0"),
    (8, "run-in value over 9,999,999"),
    (8, "run-in value of an undeclared pollutant"),
    (9, "65,535 of a vehicle that is no gross emitter"),
    (9, "65,535 outside plan 4"),
    (12, "byte 1 of run-in values"),
    (12, "byte 2 of run-in values"),
    (12, "byte 3 of run-in values"),
    (16, "after a small engine"),
    (16, "after an engine"),
    (16, "after run-in values"),
    (16, "in plan 4"),
    (18, "250, for the volume alone"),
    (18, "250, for the speed alone"),
    (18, "250, for the date alone"),
    (18, "150 where 250 is the rule's"),
    (18, "a limit of no rule"),
    (19, "after run-in values"),
    (19, "after an engine"),
    (19, "in plan 4"),
];

/// A sheet of whole records, and the one that was refused.
pub struct Refused<'a> {
    pub size: usize,
    pub sheet: &'a [u8],
    pub number: u8,
    pub at: usize,
}

impl Refused<'_> {
    pub fn clause(&self) -> Option<Clause> {
        let name = match self.number {
            3 => self.misplaced(),
            8 if self.kind(self.at) == RUN_IN => self.value_that_does_not_fit(),
            9 => self.pending_elsewhere(),
            12 if self.kind(self.at) == RUN_IN => self.byte_not_zero(),
            16 | 19 => self.elsewhere(),
            18 => self.not_the_rules(),
            _ => None,
        };
        name.map(|name| (self.number, name))
    }

    fn kind(&self, at: usize) -> u8 {
        self.sheet[at * self.size]
    }

    fn kind_before(&self) -> Option<u8> {
        self.at.checked_sub(1).map(|before| self.kind(before))
    }

    fn misplaced(&self) -> Option<&'static str> {
        match (self.kind_before(), self.kind(self.at)) {
            (None, SMALL_ENGINE) => Some("a small engine first"),
            (Some(STOP), SMALL_ENGINE) => Some("a small engine after a stop"),
            (Some(SMALL_ENGINE), POLLUTANT) => Some("a pollutant after a small engine"),
            (None, RUN_IN) => Some("run-in values first"),
            (Some(STOP), RUN_IN) => Some("run-in values after a stop"),
            (Some(RUN_IN), POLLUTANT) => Some("a pollutant after run-in values"),
            _ => None,
        }
    }

    /// Of kinds 5 and 6.
    fn elsewhere(&self) -> Option<&'static str> {
        let plan = self.sheet[2];
        let second_small_engine = self.number == 16 && self.has_before(SMALL_ENGINE);
        let engines_alone = !self.has_before(SMALL_ENGINE) && !self.has_before(RUN_IN);
        match (self.kind_before(), plan) {
            (Some(POLLUTANT), 4) => Some("in plan 4"),
            (_, 4) => None,
            (Some(SMALL_ENGINE), _) => Some("after a small engine"),
            (Some(RUN_IN), _) if !second_small_engine => Some("after run-in values"),
            (Some(ENGINE), _) if engines_alone => Some("after an engine"),
            _ => None,
        }
    }

    fn has_before(&self, kind: u8) -> bool {
        (0..self.at).any(|at| self.kind(at) == kind)
    }

    fn record(&self) -> &[u8] {
        &self.sheet[self.at * self.size..][..self.size]
    }

    /// The only one of the record.
    fn value_that_does_not_fit(&self) -> Option<&'static str> {
        let declared = |pollutant| {
            let mut records = self.sheet.chunks_exact(self.size).take(self.at);
            records.any(|record| record[..2] == [POLLUTANT, pollutant as u8 + 1])
        };
        let values = (0..Document01.pollutants(self.size)).map(|pollutant| {
            let value = Document01.measurement(self.record(), pollutant);
            match (declared(pollutant), value) {
                (true, 0) => Some("run-in value 0"),
                (true, 10_000_000..) => Some("run-in value over 9,999,999"),
                (false, 1..) => Some("run-in value of an undeclared pollutant"),
                _ => None,
            }
        });
        match values.flatten().collect::<Vec<_>>()[..] {
            [name] => Some(name),
            _ => None,
        }
    }

    /// A pending finding where there is no gross emitter.
    fn pending_elsewhere(&self) -> Option<&'static str> {
        match (Document01.cause(self.record()), self.sheet[2]) {
            (PENDING, 4) => Some("65,535 of a vehicle that is no gross emitter"),
            (PENDING, _) => Some("65,535 outside plan 4"),
            _ => None,
        }
    }

    fn byte_not_zero(&self) -> Option<&'static str> {
        match self.record()[1..4] {
            [_, 0, 0] => Some("byte 1 of run-in values"),
            [0, _, 0] => Some("byte 2 of run-in values"),
            [0, 0, _] => Some("byte 3 of run-in values"),
            _ => None,
        }
    }

    fn not_the_rules(&self) -> Option<&'static str> {
        let small_engine = small_engine(self.record());
        let met = [
            small_engine.volume < 700,
            small_engine.speed > 3000,
            small_engine.date <= 19_980_930,
        ];
        match (limit(self.size, self.sheet)?, met) {
            (250, [false, true, true]) => Some("250, for the volume alone"),
            (250, [true, false, true]) => Some("250, for the speed alone"),
            (250, [true, true, false]) => Some("250, for the date alone"),
            (150, _) => Some("150 where 250 is the rule's"),
            (250, _) => None,
            _ => Some("a limit of no rule"),
        }
    }

    /// 17 for the day behind a month's last.
    pub fn day_after_last(&self) -> Option<[u32; 2]> {
        let date = small_engine(self.record()).date;
        let behind = self.number == 17 && date > 0 && Document01.date_fits(date - 1);
        behind.then_some([date / 100 % 100, date % 100])
    }
}

/// What an accepted sheet with a small engine says.
pub struct Accepted {
    pub plan: u8,
    /// Of particulates, if they are declared.
    pub limit: Option<u32>,
    /// Month and day, if the day is the month's last.
    pub last_day: Option<[u32; 2]>,
}

impl Accepted {
    pub fn new(size: usize, sheet: &[u8]) -> Option<Self> {
        let date = small_engine(first_of(SMALL_ENGINE, size, sheet)?).date;
        let last = !Document01.date_fits(date + 1);
        Some(Accepted {
            plan: sheet[2],
            limit: limit(size, sheet),
            last_day: last.then_some([date / 100 % 100, date % 100]),
        })
    }
}

/// The last days of the months, by month and day, with both of February's.
pub fn last_days() -> impl Iterator<Item = [u32; 2]> {
    let of_year = |year| (1..=12).map(move |month| [month, Document01.days_in(year, month)]);
    of_year(1999).chain([[2, 29]])
}

fn first_of(kind: u8, size: usize, sheet: &[u8]) -> Option<&[u8]> {
    let mut records = sheet.chunks_exact(size);
    records.find(|record| record[0] == kind)
}

pub fn has(kind: u8, size: usize, sheet: &[u8]) -> bool {
    first_of(kind, size, sheet).is_some()
}

fn engines(size: usize, sheet: &[u8]) -> impl Iterator<Item = &[u8]> {
    let records = sheet.chunks_exact(size);
    records.filter(|record| record[0] == ENGINE)
}

/// The causes of the engines, in their order.
pub fn causes(size: usize, sheet: &[u8]) -> impl Iterator<Item = u16> + '_ {
    engines(size, sheet).map(|record| Document01.cause(record))
}

/// The places of an accepted run-in sheet that have an end of the range: of its limits, its values,
/// and what its first two engines measured.
pub fn run_in_ends(size: usize, sheet: &[u8]) -> Vec<(&'static str, u32)> {
    let Some(values) = first_of(RUN_IN, size, sheet) else {
        return Vec::new();
    };
    let measured = ["x_1", "x_2"].into_iter().zip(engines(size, sheet));
    let mut ends = Vec::new();
    for (name, record) in [("the value", values)].into_iter().chain(measured) {
        let numbers = (0..Document01.pollutants(size)).map(|p| Document01.measurement(record, p));
        ends.extend(numbers.map(|number| (name, number)));
    }
    let pollutants = sheet
        .chunks_exact(size)
        .filter(|record| record[0] == POLLUTANT);
    ends.extend(pollutants.map(|record| ("the limit", Document01.limit(record))));
    ends.retain(|(_, number)| ENDS.contains(number));
    ends
}

/// The ends of the range of limits and measurements.
pub const ENDS: [u32; 2] = [1, LARGEST];

/// Where `run_in_ends` looks for them.
pub const PLACES_OF_ENDS: [&str; 4] = ["the limit", "the value", "x_1", "x_2"];

/// An accepted sheet of plan 4, with what was reported of it.
pub struct InService {
    verdict: u8,
    ground: u8,
    any_passed: bool,
    /// The causes of the vehicles up to that of the verdict, and of those behind it; 0 of one that
    /// is no gross emitter.
    among: Vec<u16>,
    behind: Vec<u16>,
}

/// What a sheet can show, by its name, and whether it does.
type Shown = (&'static str, fn(&InService) -> bool);

/// What accepted sheets with pending vehicles have to show of F-5.
pub const OF_PENDING: [Shown; 10] = [
    ("another below 3 vehicles", |sheet| {
        sheet.verdict == 0 && has_pending(&sheet.among)
    }),
    ("equal cause beside a pending vehicle", |sheet| {
        sheet.ground == 2 && has_pending(&sheet.among)
    }),
    ("a pass before a pending vehicle", |sheet| {
        sheet.verdict == 1 && has_pending(&sheet.behind)
    }),
    ("a fail before a pending vehicle", |sheet| {
        sheet.verdict == 2 && has_pending(&sheet.behind)
    }),
    ("held with a pollutant passed", |sheet| {
        sheet.is_held() && sheet.any_passed
    }),
    ("held by two pending vehicles", |sheet| {
        sheet.is_held()
            && sheet
                .among
                .iter()
                .filter(|&&cause| cause == PENDING)
                .count()
                == 2
    }),
    ("held before a pending vehicle", |sheet| {
        sheet.is_held() && has_pending(&sheet.behind)
    }),
    ("held before equal causes", |sheet| {
        sheet.is_held() && has_equal(&sheet.behind)
    }),
    ("held in row 15 beside another gross emitter", |sheet| {
        let gross = sheet.among.iter().filter(|&&cause| cause != 0);
        sheet.is_held() && sheet.among.len() == 15 && gross.count() > 1
    }),
    ("held on a full sheet", |sheet| {
        sheet.is_held() && sheet.among.len() + sheet.behind.len() == 15
    }),
];

impl InService {
    pub fn new(size: usize, sheet: &[u8], report: &[u8]) -> Self {
        let mut causes: Vec<u16> = causes(size, sheet).collect();
        let behind = causes.split_off(report[3].into());
        let pairs = report[4..][..2 * Document01.pollutants(size)].chunks_exact(2);
        InService {
            verdict: report[1],
            ground: report[2],
            any_passed: pairs.into_iter().any(|pair| pair[0] == 1),
            among: causes,
            behind,
        }
    }

    fn is_held(&self) -> bool {
        self.verdict == 4
    }

    /// The row at which it is held, if it is.
    pub fn held_row(&self) -> Option<usize> {
        self.is_held().then_some(self.among.len())
    }
}

fn has_pending(causes: &[u16]) -> bool {
    causes.contains(&PENDING)
}

/// Two known causes are equal.
fn has_equal(causes: &[u16]) -> bool {
    let known = |&&cause: &&u16| cause != 0 && cause != PENDING;
    let mut known: Vec<u16> = causes.iter().filter(known).copied().collect();
    known.sort_unstable();
    known.windows(2).any(|two| two[0] == two[1])
}

fn small_engine(record: &[u8]) -> SmallEngine {
    SmallEngine {
        volume: Document01.volume(record),
        speed: Document01.speed(record),
        date: Document01.date(record),
    }
}

/// The limit of particulates.
fn limit(size: usize, sheet: &[u8]) -> Option<u32> {
    let mut records = sheet.chunks_exact(size);
    let declared = records.find(|record| record[..2] == [POLLUTANT, PARTICULATES])?;
    Some(Document01.limit(declared))
}
