//! A sheet in the making, as document 01's records describe it, F-1's with a small engine, F-2's
//! with run-in values, F-5's with pending vehicles, and F-10's with six pollutants.

use crate::calendar::random_day;
use random::Random;
use second::{judge, Document, Document01};
use second::{Judgement, Refusal, MOST_POLLUTANTS, PLANS};

pub const LARGEST: u32 = 9_999_999;

/// The kinds of a record.
pub const POLLUTANT: u8 = 1;
pub const ENGINE: u8 = 2;
pub const STOP: u8 = 3;
pub const SMALL_ENGINE: u8 = 5;
pub const RUN_IN: u8 = 6;

/// The largest cause that a finding can give.
pub const LARGEST_CAUSE: u16 = 65_534;
/// "Cause 65,535 now marks a gross emitter whose finding is pending" (F-5).
pub const PENDING: u16 = 65_535;

/// The pollutant of which a small engine's limit is asked.
pub const PARTICULATES: u8 = 4;

#[derive(Clone, Copy)]
pub struct Pollutant {
    pub number: u8,
    pub limit: u32,
    pub deviation: u32,
}

/// By pollutant number less one; a sheet of four pollutants has the first four.
pub type Measurements = [u32; MOST_POLLUTANTS];

#[derive(Clone, Copy)]
pub struct Engine {
    pub cause: u16,
    pub measurements: Measurements,
}

/// Kind 5.
#[derive(Clone, Copy)]
pub struct SmallEngine {
    pub volume: u16,
    pub speed: u16,
    pub date: u32,
}

impl SmallEngine {
    pub fn record(&self, size: usize) -> Vec<u8> {
        let mut record = vec![SMALL_ENGINE, 0];
        record.extend(self.volume.to_le_bytes());
        record.extend(self.speed.to_le_bytes());
        record.extend([0, 0]);
        record.extend(self.date.to_le_bytes());
        end_record(&mut record, size);
        record
    }

    /// "Under 700 cm³ and above 3000 per minute, the particulate limit of production is 250 through
    /// 19980930 and 150 after [..]; every other engine has 150."
    pub fn particulate_limit(&self) -> u32 {
        match self {
            SmallEngine {
                volume: ..=699,
                speed: 3001..,
                date: ..=19_980_930,
            } => 250,
            _ => 150,
        }
    }
}

/// An engine of the rule, on its last day: its limit is 250.
pub const SMALL: SmallEngine = SmallEngine {
    volume: 699,
    speed: 3001,
    date: 19_980_930,
};

#[derive(Clone)]
pub struct Draft {
    /// Of its records.
    pub size: usize,
    pub plan: u8,
    pub pollutants: Vec<Pollutant>,
    pub small_engine: Option<SmallEngine>,
    /// Kind 6: the first engine's values after running-in.
    pub run_in: Option<Measurements>,
    pub engines: Vec<Engine>,
    pub stopped: bool,
}

/// How the measurements of one pollutant lie about its limit.
#[derive(Clone, Copy)]
enum Spread {
    Near,
    Around,
    Under,
    Over,
    Anywhere,
    Equal,
    Edges,
}

const SPREADS: [Spread; 7] = [
    Spread::Near,
    Spread::Around,
    Spread::Under,
    Spread::Over,
    Spread::Anywhere,
    Spread::Equal,
    Spread::Edges,
];

impl Draft {
    pub fn new(size: usize, plan: u8, pollutants: Vec<Pollutant>) -> Self {
        Draft {
            size,
            plan,
            pollutants,
            small_engine: None,
            run_in: None,
            engines: Vec::new(),
            stopped: false,
        }
    }

    /// With the small engine's record, and its limit if particulates are declared.
    pub fn put_small_engine(&mut self, small_engine: SmallEngine) {
        self.small_engine = Some(small_engine);
        let mut pollutants = self.pollutants.iter_mut();
        if let Some(declared) = pollutants.find(|pollutant| pollutant.number == PARTICULATES) {
            declared.limit = small_engine.particulate_limit();
        }
    }

    pub fn bytes(&self) -> Vec<u8> {
        let mut sheet = Vec::with_capacity(Document01.longest_sheet(self.size));
        for pollutant in &self.pollutants {
            sheet.extend([POLLUTANT, pollutant.number, self.plan, 0]);
            sheet.extend(pollutant.limit.to_le_bytes());
            sheet.extend(pollutant.deviation.to_le_bytes());
            end_record(&mut sheet, self.size);
        }
        let small_engine = self.small_engine.iter();
        sheet.extend(small_engine.flat_map(|small_engine| small_engine.record(self.size)));
        let run_in = self.run_in.iter();
        sheet.extend(run_in.flat_map(|values| run_in_record(self.size, values)));
        for engine in &self.engines {
            sheet.extend([ENGINE, 0]);
            sheet.extend(engine.cause.to_le_bytes());
            sheet.extend(measured_bytes(self.size, &engine.measurements));
        }
        if self.stopped {
            sheet.extend(stop_record(self.size));
        }
        sheet
    }

    /// What document 01 answers.
    pub fn judged(&self) -> Result<Judgement, Refusal> {
        judge(&Document01, self.size, &self.bytes())
    }

    /// "A sheet is accepted if judging doesn't refuse it, and decided if its verdict is then not
    /// another", nor held (F-5).
    pub fn is_decided(&self) -> bool {
        self.judged().is_ok_and(|judgement| judgement.is_decided())
    }

    /// The pending vehicles, engines counted from 1.
    pub fn pending(&self) -> Vec<usize> {
        let vehicles = (1..).zip(&self.engines);
        let pending = vehicles.filter(|(_, vehicle)| vehicle.cause == PENDING);
        pending.map(|(engine, _)| engine).collect()
    }

    /// Adds an engine; under plan 4 a gross emitter gets the cause.
    pub fn test(&mut self, measurements: Measurements, cause: u16) {
        let gross = self.plan == 4 && self.is_gross_emitter(measurements);
        self.engines.push(Engine {
            cause: if gross { cause } else { 0 },
            measurements,
        });
    }

    fn is_gross_emitter(&self, measurements: Measurements) -> bool {
        self.pollutants.iter().any(|pollutant| {
            let x = measurements[usize::from(pollutant.number) - 1];
            u64::from(x) * 2 > u64::from(pollutant.limit) * 3
        })
    }
}

/// Zeros to the end of the record that is begun.
fn end_record(sheet: &mut Vec<u8>, size: usize) {
    sheet.resize(sheet.len().next_multiple_of(size), 0);
}

/// As many measurements as the size has a place for.
fn measured_bytes(size: usize, measurements: &Measurements) -> impl Iterator<Item = u8> + '_ {
    let measured = measurements.iter().take(Document01.pollutants(size));
    measured.flat_map(|x| x.to_le_bytes())
}

pub fn run_in_record(size: usize, values: &Measurements) -> Vec<u8> {
    let mut record = vec![RUN_IN, 0, 0, 0];
    record.extend(measured_bytes(size, values));
    record
}

pub fn stop_record(size: usize) -> Vec<u8> {
    let mut record = vec![STOP];
    end_record(&mut record, size);
    record
}

/// The plans under which a sheet may have a small engine and run-in values: those of production,
/// all but plan 4, in service.
pub fn plans_of_production() -> impl Iterator<Item = u8> {
    (1..=PLANS).filter(|&plan| plan != 4)
}

/// The pollutants that the size has a place for.
pub fn numbers(size: usize) -> impl Iterator<Item = u8> + Clone {
    1..=Document01.pollutants(size) as u8
}

/// A random sheet that the check accepts, or now and then one with an engine too many, or with a
/// small engine, run-in values or a stop under plan 4.
pub fn random_draft(size: usize, random: &mut Random) -> Draft {
    let plan = random.between(1, PLANS.into()) as u8;
    random_draft_under(size, plan, random)
}

pub fn random_draft_under(size: usize, plan: u8, random: &mut Random) -> Draft {
    let numbers = random_numbers(size, random);
    random_draft_of(size, plan, &numbers, random)
}

/// With these pollutants.
pub fn random_draft_of(size: usize, plan: u8, numbers: &[u8], random: &mut Random) -> Draft {
    let pollutants = numbers.iter().map(|&number| Pollutant {
        number,
        limit: random_limit(random),
        deviation: match plan {
            1 => random_deviation(random),
            _ => 0,
        },
    });
    let mut draft = Draft::new(size, plan, pollutants.collect());
    let one_in = if plan == 4 { 40 } else { 3 };
    if random.one_in(one_in) {
        draft.put_small_engine(random_small_engine(random));
    }
    let spreads: Vec<Spread> = numbers.iter().map(|_| random.pick(&SPREADS)).collect();
    if random.one_in(one_in) {
        draft.run_in = Some(random_measurements(random, &draft, &spreads));
    }
    let count = random_count(random, Document01.last_row(plan));
    let kept_open = random.one_in(4);
    for _ in 0..count {
        let tries = if kept_open { 6 } else { 1 };
        test_one(random, &mut draft, &spreads, tries);
    }
    draft.stopped = random.one_in(if plan == 4 { 40 } else { 4 });
    draft
}

/// With every pollutant, and as many engines as the plan has rows for: those of a random sheet, some
/// of them again.
pub fn full_draft(size: usize, plan: u8, random: &mut Random) -> Draft {
    let all: Vec<u8> = numbers(size).collect();
    let mut draft = loop {
        let draft = random_draft_of(size, plan, &all, random);
        if !draft.engines.is_empty() {
            break draft;
        }
    };
    let last = Document01.last_row(plan);
    while draft.engines.len() < last {
        draft.engines.push(random.pick(&draft.engines));
    }
    draft.engines.truncate(last);
    draft
}

/// Adds one engine; with several tries, the first that does not decide the sheet if there is one.
fn test_one(random: &mut Random, draft: &mut Draft, spreads: &[Spread], tries: usize) {
    for left in (0..tries).rev() {
        let measurements = random_measurements(random, draft, spreads);
        let cause = random_cause(random);
        draft.test(measurements, cause);
        if left == 0 || !draft.is_decided() {
            return;
        }
        draft.engines.pop();
    }
}

/// The pollutants of a set: number 1 is its lowest bit.
pub fn numbers_in(size: usize, set: u32) -> impl Iterator<Item = u8> {
    numbers(size).filter(move |number| set >> (number - 1) & 1 == 1)
}

/// One pollutant alone, or any of them.
fn random_numbers(size: usize, random: &mut Random) -> Vec<u8> {
    let pollutants = Document01.pollutants(size);
    let declared = if random.one_in(3) {
        1 << random.below(pollutants)
    } else {
        random.between(1, (1 << pollutants) - 1)
    };
    numbers_in(size, declared).collect()
}

/// On either side of each of the rule's lines, the ends of the fields, or anything.
pub fn random_small_engine(random: &mut Random) -> SmallEngine {
    let short = |random: &mut Random, line: u16| match random.below(4) {
        0 => random.pick(&[0, u16::MAX]),
        1 => random.between(0, u16::MAX.into()) as u16,
        _ => random.between((line - 2).into(), (line + 2).into()) as u16,
    };
    SmallEngine {
        volume: short(random, 700),
        speed: short(random, 3000),
        date: random_day(random),
    }
}

/// A record of kind 6 with values of these pollutants: ends of the range, or anything in it.
pub fn random_run_in(size: usize, numbers: &[u8], random: &mut Random) -> Vec<u8> {
    let mut values = [0; MOST_POLLUTANTS];
    for number in numbers {
        values[usize::from(*number) - 1] = match random.below(4) {
            0 => random.pick(&[1, LARGEST]),
            _ => random.magnitude(1, LARGEST),
        };
    }
    run_in_record(size, &values)
}

fn random_limit(random: &mut Random) -> u32 {
    match random.below(8) {
        0 => random.pick(&[1, 2, 3, LARGEST - 1, LARGEST]),
        1 => random.between(1, 20),
        2 | 3 => random.magnitude(100, 20_000),
        _ => random.magnitude(20_000, LARGEST),
    }
}

fn random_deviation(random: &mut Random) -> u32 {
    match random.below(8) {
        0 => random.pick(&[1, 2, 3_999_999, 4_000_000]),
        1 => random.magnitude(1, 4_000_000),
        _ => random.magnitude(20_000, 4_000_000),
    }
}

fn random_count(random: &mut Random, last: usize) -> usize {
    match random.below(8) {
        0 => last,
        1 => random.below(5),
        2 if random.one_in(4) => last + 1,
        _ => random.below(last + 1),
    }
}

fn random_cause(random: &mut Random) -> u16 {
    match random.below(8) {
        0 => PENDING,
        1 | 2 => random.pick(&[1, 255, 256, LARGEST_CAUSE]),
        3 | 4 => random.between(1, 3) as u16,
        _ => random_finding(random),
    }
}

/// Any that can be entered.
pub fn random_finding(random: &mut Random) -> u16 {
    random.between(1, LARGEST_CAUSE.into()) as u16
}

fn random_measurements(random: &mut Random, draft: &Draft, spreads: &[Spread]) -> Measurements {
    let mut measurements = [0; MOST_POLLUTANTS];
    let tame = draft.plan == 4 && !random.one_in(6);
    for (pollutant, &spread) in draft.pollutants.iter().zip(spreads) {
        let x = random_measurement(random, pollutant.limit, spread);
        let most = pollutant.limit + pollutant.limit / 2;
        measurements[usize::from(pollutant.number) - 1] = if tame { x.min(most) } else { x };
    }
    measurements
}

fn random_measurement(random: &mut Random, limit: u32, spread: Spread) -> u32 {
    let scaled = |octaves: f64| (f64::from(limit) * octaves.exp2()).round() as u32;
    let offset = random.fraction();
    let x = match spread {
        Spread::Near => scaled(offset * 0.2 - 0.1),
        Spread::Around => scaled(offset * 3.0 - 1.5),
        Spread::Under => scaled(offset * -1.2 + 0.2),
        Spread::Over => scaled(offset * 1.2 - 0.2),
        Spread::Anywhere => random.magnitude(1, LARGEST),
        Spread::Equal => scaled(0.3),
        Spread::Edges => random_edge(random, limit),
    };
    x.clamp(1, LARGEST)
}

/// Values beside a limit, beside the gross emitter's line, and the ends of the range.
fn random_edge(random: &mut Random, limit: u32) -> u32 {
    let gross = limit + limit / 2;
    let edges = [
        limit - 1,
        limit,
        limit + 1,
        gross - 1,
        gross,
        gross + 1,
        1,
        LARGEST,
    ];
    random.pick(&edges)
}
