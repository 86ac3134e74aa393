//! Records and sheets of either size, for the documents' cases. Each test file takes what it needs.

#![allow(dead_code)]

use second::{append, judge, Document, Document01, SIZES};
use second::{Decision, Ground, Judgement, Refusal, Verdict};

/// What memory holds before a call.
pub const UNWRITTEN: u8 = 0xA5;

/// Kind 1.
pub fn pollutant(size: usize, number: u8, plan: u8, limit: u32, deviation: u32) -> Vec<u8> {
    let mut record = vec![1, number, plan, 0];
    record.extend(limit.to_le_bytes());
    record.extend(deviation.to_le_bytes());
    record.resize(size, 0);
    record
}

/// Kind 2, with pollutants and what was measured of them.
pub fn engine(size: usize, cause: u16, measured: &[(usize, u32)]) -> Vec<u8> {
    let mut record = vec![2, 0];
    record.extend(cause.to_le_bytes());
    record.resize(size, 0);
    for &(number, x) in measured {
        record[4 * number..4 * number + 4].copy_from_slice(&x.to_le_bytes());
    }
    record
}

/// Kind 3.
pub fn stop(size: usize) -> Vec<u8> {
    let mut record = vec![3];
    record.resize(size, 0);
    record
}

/// Kind 5.
pub fn small_engine(size: usize, volume: u16, speed: u16, date: u32) -> Vec<u8> {
    let mut record = vec![5, 0];
    record.extend(volume.to_le_bytes());
    record.extend(speed.to_le_bytes());
    record.extend([0, 0]);
    record.extend(date.to_le_bytes());
    record.resize(size, 0);
    record
}

/// Kind 6, with pollutants and their values after running-in.
pub fn run_in(size: usize, values: &[(usize, u32)]) -> Vec<u8> {
    let mut record = engine(size, 0, values);
    record[0] = 6;
    record
}

/// The fullest sheet of plan 1 with these pollutants: a small engine, run-in values, 32 engines and
/// a stop. The limits are 150, which is the rule's for an engine of 700 cm³, and so is all that is
/// measured.
pub fn fullest(size: usize, numbers: &[u8]) -> Vec<u8> {
    let measured: Vec<(usize, u32)> = numbers.iter().map(|&n| (n.into(), 150)).collect();
    let mut sheet = Vec::new();
    for &number in numbers {
        sheet.extend(pollutant(size, number, 1, 150, 4_000_000));
    }
    sheet.extend(small_engine(size, 700, 3001, 19_980_930));
    sheet.extend(run_in(size, &measured));
    sheet.extend(engine(size, 0, &measured).repeat(32));
    sheet.extend(stop(size));
    sheet
}

pub fn refused<T>(number: u8, record: u8) -> Result<T, Refusal> {
    Err(Refusal { number, record })
}

/// The answer; on success the record stands behind the sheet, and else nothing was written.
pub fn appended(size: usize, sheet: &[u8], record: &[u8]) -> Result<(), Refusal> {
    let mut buffer = [sheet, &vec![UNWRITTEN; size + 1]].concat();
    let before = buffer.clone();
    let answer = append(&Document01, size, &mut buffer, sheet.len(), record);
    let after = match answer {
        Ok(()) => [sheet, record, &[UNWRITTEN]].concat(),
        Err(_) => before,
    };
    assert_eq!(buffer, after);
    answer
}

/// One sheet in records of each size.
pub type Sheets = [Vec<u8>; 2];

/// The answer to both sheets.
pub fn judged(document: &impl Document, sheets: &Sheets) -> Result<Judgement, Refusal> {
    let [four, six] = [0, 1].map(|place| judge(document, SIZES[place], &sheets[place]));
    assert_eq!(four, six);
    four
}

/// Verdict, engine and ground, and the decision on the only pollutant.
pub type Answer = (Verdict, u8, Ground, (Decision, u8));

/// An answer with the pollutant open.
fn open(verdict: Verdict, n: u8, ground: Ground) -> Answer {
    (verdict, n, ground, (Decision::Open, 0))
}

pub fn another(n: u8) -> Answer {
    open(Verdict::Another, n, Ground::None)
}

pub fn equal_cause(n: u8) -> Answer {
    open(Verdict::Fail, n, Ground::EqualCause)
}

pub fn referred(n: u8) -> Answer {
    open(Verdict::Referred, n, Ground::Referred)
}

pub fn held(n: u8) -> Answer {
    open(Verdict::Held, n, Ground::Held)
}

/// A vehicle of plan 4, by what it measured and its cause.
pub type Vehicle = (u32, u16);

/// Plan 4, and one pollutant with the limit 1000.
pub fn vehicles_of(size: usize, number: usize, vehicles: &[Vehicle]) -> Vec<u8> {
    let mut sheet = pollutant(size, number as u8, 4, 1000, 0);
    for &(x, cause) in vehicles {
        sheet.extend(engine(size, cause, &[(number, x)]));
    }
    sheet
}

/// The answer to such a sheet, the same for each pollutant of each size.
pub fn in_service(vehicles: &[Vehicle]) -> Answer {
    let mut answers = Vec::new();
    for size in SIZES {
        for number in 1..=Document01.pollutants(size) {
            let sheet = vehicles_of(size, number, vehicles);
            let judgement = judge(&Document01, size, &sheet).expect("an accepted sheet");
            answers.push(answer(&judgement, number));
        }
    }
    answers.dedup();
    assert_eq!(answers.len(), 1, "{vehicles:?}");
    answers[0]
}

fn answer(judgement: &Judgement, number: usize) -> Answer {
    let Judgement {
        verdict,
        engine,
        ground,
        decisions,
    } = *judgement;
    (verdict, engine, ground, decisions[number - 1])
}

/// One record of each kind. Pollutant 1 has the limit 200, and all that is measured is 200.
fn of_kind(size: usize, plan: u8, kind: u8) -> Vec<u8> {
    match kind {
        1 => pollutant(size, 1, plan, 200, u32::from(plan == 1)),
        2 => engine(size, 0, &[(1, 200)]),
        3 => stop(size),
        5 => small_engine(size, 699, 3001, 19_980_930),
        6 => run_in(size, &[(1, 200)]),
        _ => [vec![kind], vec![0; size - 1]].concat(),
    }
}

/// The answer to the sheet with records of these kinds.
pub fn kinds(plan: u8, kinds: &[u8]) -> Result<Judgement, Refusal> {
    let sheet = |size| {
        let records = kinds.iter().map(|&kind| of_kind(size, plan, kind));
        records.flatten().collect()
    };
    judged(&Document01, &SIZES.map(sheet))
}
