//! Document 02, F-2, as directed sheets: records of every kind in every order, run-in values with
//! every fault beside every other, and in and out of their range; and the correction, of each
//! pollutant by its own values, by exact products, and at the ends of the range. What has to be
//! answered stands beside each sheet, or is said by the paper; neither implementation is asked.

use crate::cases::refused;
use crate::draft::{numbers, numbers_in, plans_of_production, run_in_record};
use crate::draft::{Draft, Measurements, Pollutant, LARGEST};
use crate::draft::{ENGINE, POLLUTANT, RUN_IN, SMALL_ENGINE, STOP};
use crate::kinds::{another_at, pass_of, records, report, stopped_at, Faults, MEASURED};
use crate::paper::{measured_alone, Chosen, Paper, Reported, Single};
use random::Random;
use second::{Document, Document01, MOST_POLLUTANTS, PLANS};

pub fn sheets(paper: &Paper, size: usize) -> Vec<Chosen> {
    let mut sheets = places(size);
    sheets.extend(examples(size));
    sheets.extend(orders(size));
    sheets.extend(before_3(size));
    sheets.extend(values(size));
    sheets.extend(several_pollutants(size));
    let series = products().into_iter().chain(ends_of_the_range(paper));
    let by_turns = series.zip(numbers(size).cycle());
    sheets.extend(by_turns.map(|(series, number)| paper.chosen(&series, size, number)));
    sheets
}

/// One pollutant under plan 3.
fn counted(limit: u32, value: u32, measurements: &[u32]) -> Single {
    Single {
        plan: 3,
        limit,
        deviation: 0,
        run_in: Some(value),
        measurements: measurements.to_vec(),
    }
}

/// One pollutant with the limit 4000 under plan 1, run in to 2000, and three engines at 4000.
fn known(deviation: u32) -> Single {
    Single {
        plan: 1,
        limit: 4000,
        deviation,
        run_in: Some(2000),
        measurements: vec![4000; 3],
    }
}

/// Series that stand on a line, and one that lower measurements make worse, as the first engine's
/// falls by which the others are corrected: each for every pollutant.
fn examples(size: usize) -> Vec<Chosen> {
    let pass = |n| move |number| pass_of(number, n);
    let another = |n| move |_| another_at(n);
    let answers: [(Single, &dyn Fn(u8) -> Reported); 6] = [
        (counted(100, 90, &[100, 110, 111, 111]), &pass(4)),
        (counted(100, 90, &[100, 110, 111, 112]), &another(4)),
        (counted(1, 1, &[2, 1, 1, 2]), &pass(4)),
        (counted(1, 1, &[1, 1, 1, 2]), &another(4)),
        (known(625_020), &pass(3)),
        (known(625_021), &another(3)),
    ];
    let mut sheets = Vec::new();
    for (series, reported) in answers {
        for number in numbers(size) {
            sheets.push(Chosen {
                sheet: series.bytes(size, number),
                reported: reported(number),
            });
        }
    }
    sheets
}

/// Kinds of records, and one that is none; the sheet of one pollutant alone comes first.
const KINDS: [u8; 6] = [POLLUTANT, ENGINE, STOP, SMALL_ENGINE, RUN_IN, 7];

/// Every sequence of up to four kinds, under every plan, but for those with a row to decide. A
/// second pollutant is pollutant 1 again, and refused for that if it has the right place.
fn places(size: usize) -> Vec<Chosen> {
    let mut sequences: Vec<Vec<u8>> = vec![vec![]];
    let mut sheets = Vec::new();
    for _ in 0..4 {
        let longer = |kinds: &Vec<u8>| KINDS.map(|kind| [&kinds[..], &[kind]].concat());
        sequences = sequences.iter().flat_map(longer).collect();
        let undecided = sequences.iter().filter(|kinds| engines_in(kinds) < 3);
        for kinds in undecided {
            for plan in 1..=PLANS {
                sheets.push(Chosen {
                    sheet: records(size, plan, kinds),
                    reported: answer(size, plan, kinds),
                });
            }
        }
    }
    sheets
}

/// The first record that has no place behind those before it, or how an undecided series ends.
fn answer(size: usize, plan: u8, kinds: &[u8]) -> Reported {
    let mut faults = kinds.iter().enumerate();
    let fault = faults.find_map(|(at, &kind)| Some((fault(plan, &kinds[..at], kind)?, at)));
    let engines = engines_in(kinds);
    match fault {
        Some((number, at)) => refused(size, number, at as u8),
        None if kinds.contains(&STOP) => stopped_at(engines),
        None => another_at(engines),
    }
}

fn engines_in(kinds: &[u8]) -> u8 {
    kinds.iter().filter(|&&kind| kind == ENGINE).count() as u8
}

/// By the kinds before it. The order of an accepted sheet is 1, 5, 6, 2, 3.
fn fault(plan: u8, before: &[u8], kind: u8) -> Option<u8> {
    let has = |kind| before.contains(&kind);
    let in_service = plan == 4;
    match kind {
        7 => Some(2),
        _ if has(STOP) => Some(3),
        POLLUTANT if before.is_empty() => None,
        _ if before.is_empty() => Some(3),
        POLLUTANT if before.iter().any(|&kind| kind != POLLUTANT) => Some(3),
        POLLUTANT => Some(4),
        SMALL_ENGINE if in_service || before.iter().any(|&kind| kind != POLLUTANT) => Some(16),
        RUN_IN if in_service || has(RUN_IN) || has(ENGINE) => Some(19),
        STOP if in_service => Some(11),
        _ => None,
    }
}

/// What can be wrong with run-in values that are not refused with 3, in the order of the refusals.
const FAULTS: [u8; 3] = [19, 8, 12];

/// The values of pollutants 1 and 2, of which the first alone is declared, that are refused with 8.
const OUT_OF_RANGE: [[u32; 2]; 5] = [
    [0, 0],
    [LARGEST + 1, 0],
    [u32::MAX, 0],
    [MEASURED, 1],
    [MEASURED, 1 << 24],
];

/// Every record with these faults, all but its place.
fn faulty(size: usize, faults: Faults) -> Vec<Vec<u8>> {
    let out_of_range: &[[u32; 2]] = match faults.have(8) {
        true => &OUT_OF_RANGE,
        false => &[[MEASURED, 0]],
    };
    let bytes = if faults.have(12) { 1..4 } else { 0..1 };
    let mut all = Vec::new();
    for &[one, two] in out_of_range {
        for byte in bytes.clone() {
            let mut values = measured_alone(1, one);
            values[1] = two;
            let mut record = run_in_record(size, &values);
            record[byte] |= if faults.have(12) { 128 } else { 0 };
            all.push(record);
        }
    }
    all
}

/// A plan, and the kinds of the records before the faulty one.
type Before = (u8, &'static [u8]);

/// Where run-in values are refused with 19: in plan 4, after an engine, and after others.
const ELSEWHERE: [Before; 7] = [
    (4, &[1]),
    (4, &[1, 2]),
    (1, &[1, 2]),
    (2, &[1, 6]),
    (3, &[1, 5, 6]),
    (5, &[1, 6, 2]),
    (3, &[1, 5, 2, 2]),
];

/// Where they are not.
const HERE: [Before; 6] = [
    (1, &[1]),
    (2, &[1]),
    (3, &[1]),
    (5, &[1]),
    (2, &[1, 5]),
    (3, &[1, 5]),
];

/// Every fault beside every other.
fn orders(size: usize) -> Vec<Chosen> {
    let mut sheets = Vec::new();
    for faults in Faults::all(&FAULTS) {
        let places: &[Before] = if faults.have(19) { &ELSEWHERE } else { &HERE };
        for &(plan, before) in places {
            let reported = match faults.first() {
                Some(number) => refused(size, number, before.len() as u8),
                None => another_at(0),
            };
            for record in faulty(size, faults) {
                sheets.push(Chosen {
                    sheet: [records(size, plan, before), record].concat(),
                    reported,
                });
            }
        }
    }
    sheets
}

/// First, or after a stop: 3, whatever else.
fn before_3(size: usize) -> Vec<Chosen> {
    let mut sheets = Vec::new();
    for faults in Faults::all(&FAULTS) {
        for record in faulty(size, faults) {
            for before in [&[][..], &[1, 3], &[1, 6, 3], &[1, 2, 3]] {
                sheets.push(Chosen {
                    sheet: [records(size, 3, before), record.clone()].concat(),
                    reported: refused(size, 3, before.len() as u8),
                });
            }
        }
    }
    sheets
}

/// Every set of pollutants with a value of each in the range, and with one value that is not: zero
/// or too high of a pollutant that is declared, and not zero of one that is not.
fn values(size: usize) -> Vec<Chosen> {
    let mut sheets = Vec::new();
    for declared in 1..1 << Document01.pollutants(size) {
        let pollutant = |number| Pollutant {
            number,
            limit: 200,
            deviation: 0,
        };
        let pollutants: Vec<Pollutant> = numbers_in(size, declared).map(pollutant).collect();
        let at = pollutants.len() as u8;
        let mut values = [0; MOST_POLLUTANTS];
        for number in numbers_in(size, declared) {
            values[usize::from(number) - 1] = [1, LARGEST][usize::from(number) % 2];
        }
        let mut push = |values: Measurements, reported| {
            let mut draft = Draft::new(size, 5, pollutants.clone());
            draft.run_in = Some(values);
            let sheet = draft.bytes();
            sheets.push(Chosen { sheet, reported });
        };
        push(values, another_at(0));
        for number in numbers(size) {
            let place = usize::from(number) - 1;
            let wrong: &[u32] = match values[place] {
                0 => &[1, 256, 1 << 16, 1 << 24],
                _ => &[0, LARGEST + 1, 1 << 24, u32::MAX],
            };
            for &value in wrong {
                let mut values = values;
                values[place] = value;
                push(values, refused(size, 8, at));
            }
        }
    }
    sheets
}

/// Two series of a pollutant: the first passes at its last engine, and the second is open there.
fn on_either_side(plan: u8, number: u8) -> [Single; 2] {
    let p = u32::from(number);
    let first = 1000 * (p + 3);
    match plan {
        1 => [625_020, 625_021].map(|deviation| Single {
            limit: 4000 * p,
            run_in: Some(2000 * p),
            measurements: vec![first; 3],
            ..known(deviation)
        }),
        3 => {
            let (limit, value, first) = (100, 90 - p, 100 + 10 * p);
            let highest = limit * first / value;
            [highest, highest + 1].map(|x| counted(limit, value, &[first, highest, highest, x]))
        }
        _ => [first, first / 2].map(|x| Single {
            plan,
            limit: 4000 * p,
            deviation: 0,
            run_in: Some(4000 * p),
            measurements: vec![first, first, x],
        }),
    }
}

/// Each pollutant by its own values: every set of pollutants, each of which passes by itself, and
/// then one of them, which is open. Their values, what the first engine measured and the
/// coefficients all differ.
fn several_pollutants(size: usize) -> Vec<Chosen> {
    let mut sheets = Vec::new();
    for plan in plans_of_production() {
        for declared in 1..1 << Document01.pollutants(size) {
            let open = numbers_in(size, declared).map(Some).chain([None]);
            for open in open {
                let series: Vec<(u8, Single)> = numbers_in(size, declared)
                    .map(|number| {
                        let [passing, beyond] = on_either_side(plan, number);
                        let series = if open == Some(number) {
                            beyond
                        } else {
                            passing
                        };
                        (number, series)
                    })
                    .collect();
                sheets.push(joined(size, plan, &series, open));
            }
        }
    }
    sheets
}

/// Series of several pollutants on one sheet, which pass at the last engine but for the open one.
fn joined(size: usize, plan: u8, series: &[(u8, Single)], open: Option<u8>) -> Chosen {
    let pollutants = series.iter().map(|(number, series)| Pollutant {
        number: *number,
        limit: series.limit,
        deviation: series.deviation,
    });
    let mut draft = Draft::new(size, plan, pollutants.collect());
    let measured = |x: &dyn Fn(&Single) -> u32| {
        let mut measurements = [0; MOST_POLLUTANTS];
        for (number, series) in series {
            measurements[usize::from(*number) - 1] = x(series);
        }
        measurements
    };
    draft.run_in = Some(measured(&|series| series.run_in.expect("a run-in series")));
    let engines = series[0].1.measurements.len();
    for engine in 0..engines {
        draft.test(measured(&|series| series.measurements[engine]), 0);
    }
    let n = engines as u8;
    let mut report = match open {
        Some(_) => report(0, 0, n),
        None => report(1, 1, n),
    };
    let passing = series.iter().map(|(number, _)| *number);
    for number in passing.filter(|&number| open != Some(number)) {
        let place = 2 + 2 * usize::from(number);
        report[place..place + 2].copy_from_slice(&[1, n]);
    }
    Chosen {
        sheet: draft.bytes(),
        reported: (0, report),
    }
}

/// Series of plan 3 with equal products, "x_j x value" and "L x x_1", and with each of the four
/// numbers one less and one more: of products a b and c d, and a c and b d.
fn products() -> Vec<Single> {
    let mut random = Random::new(0xF2);
    let mut all = Vec::new();
    for _ in 0..300 {
        let most = random.pick(&[10, 100, 1000, 3162]);
        let [a, b, c, d] = [0; 4].map(|_| random.between(1, most));
        all.extend(about([a * c, c * d, b * d, a * b]));
    }
    all.extend(about([3_333_333, 3_333_333, LARGEST, LARGEST]));
    all.extend(about([LARGEST; 4]));
    all.extend(about([1; 4]));
    // L x x_1 is 2^32, and is 0 in 32 bits; and x_j x value is.
    all.extend(about([1 << 16, 1, 1 << 16, LARGEST]));
    all.extend(about([LARGEST, 1 << 16, 1, 1 << 16]));
    all
}

/// The limit, the value, the first engine and the others; and each one less and one more, as far as
/// it is in the range.
fn about(numbers: [u32; 4]) -> Vec<Single> {
    let mut all = vec![numbers];
    for place in 0..4 {
        for moved in [numbers[place] - 1, numbers[place] + 1] {
            let mut numbers = numbers;
            numbers[place] = moved;
            all.push(numbers);
        }
    }
    let in_range = |numbers: &[u32; 4]| numbers.iter().all(|m| (1..=LARGEST).contains(m));
    let series = |[limit, value, first, x]: [u32; 4]| counted(limit, value, &[first, x, x, x]);
    all.into_iter().filter(in_range).map(series).collect()
}

/// Values at the ends of the range, and beside them.
const ENDS: [u32; 4] = [1, 2, LARGEST - 1, LARGEST];

/// Every limit, value and first engine at an end, and the others at one end or at two by turns: as
/// long as a series can be, so that the sums get as far as they can.
fn ends_of_the_range(paper: &Paper) -> Vec<Single> {
    let mut all = Vec::new();
    for plan in plans_of_production() {
        let others = paper.last_row(plan) - 1;
        for set in 0..4usize.pow(5) {
            let [limit, value, first, x, y] = [0, 2, 4, 6, 8].map(|digit| ENDS[set >> digit & 3]);
            let by_turns = [x, y].into_iter().cycle().take(others);
            all.push(Single {
                plan,
                limit,
                deviation: if plan == 1 { 4_000_000 } else { 0 },
                run_in: Some(value),
                measurements: [first].into_iter().chain(by_turns).collect(),
            });
        }
    }
    all
}

/// Sheets of one pollutant with run-in values put in that are what the first engine measured
/// before, if the plan has them and the sheet has none: what has to be reported is the same.
pub fn put_in<'a>(size: usize, chosen: impl Iterator<Item = &'a Chosen>) -> Vec<Chosen> {
    let put = |chosen: &Chosen| {
        let Chosen { sheet, reported } = chosen;
        let first = sheet.get(size..2 * size)?;
        if sheet[2] == 4 || first[0] != ENGINE {
            return None;
        }
        let mut values = first.to_vec();
        values[0] = RUN_IN;
        let mut sheet = sheet.clone();
        sheet.splice(size..size, values);
        let reported = *reported;
        Some(Chosen { sheet, reported })
    };
    chosen.filter_map(put).collect()
}
