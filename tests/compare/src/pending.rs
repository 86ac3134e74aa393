//! Document 02, F-5, as directed sheets: pending vehicles at every place, alone, in twos and in
//! threes, with known causes equal and not before them and behind the row that is held, below row 3,
//! behind a decision and behind a pollutant that has passed, on full sheets and on shorter ones;
//! refusal 9 about 65,534 and 65,535, and every refusal behind a row that is held. What has to be
//! answered stands beside each sheet, or is said by `service`; neither implementation is asked.

use crate::cases::refused;
use crate::draft::{numbers, Draft, Engine, LARGEST_CAUSE, PENDING};
use crate::draft::{POLLUTANT, RUN_IN, SMALL_ENGINE, STOP};
use crate::kinds::{another_at, draft, pass_of, records, report};
use crate::paper::{measured_alone, Chosen, Paper};
use crate::service::{self, Ending, Placing, Series, Tame, LIMIT};
use crate::service::{ANOTHER, EQUAL_CAUSE, HELD, PASS};
use random::Random;
use second::PLANS;

/// Of the placings, all or one of so many.
pub fn sheets(paper: &Paper, size: usize, one_in: usize) -> Vec<Chosen> {
    let drafts = drafts(size, one_in);
    let mut sheets = examples(size);
    sheets.extend(causes(size));
    sheets.extend(known_causes(size));
    sheets.extend(faults_behind(size));
    sheets.extend(drafts.map(|draft| service::chosen(paper, &draft)));
    sheets
}

/// A vehicle by what it measured and its cause.
type Vehicle = (u32, u16);

const P: u16 = PENDING;

/// A few vehicles for each of the request's sentences, with what has to be answered, for every
/// pollutant.
fn examples(size: usize) -> Vec<Chosen> {
    let mut mixed: Vec<Vehicle> = [(600, 0), (1400, 0)].repeat(7);
    mixed[0] = (1600, 7);
    mixed.push((1600, P));
    let answers: [(&[Vehicle], Ending, u8); 20] = [
        (&[(1600, P), (900, 0), (900, 0)], HELD, 3),
        (&[(900, 0), (1600, P), (900, 0)], HELD, 3),
        (&[(900, 0), (900, 0), (1600, P)], HELD, 3),
        (&[(1600, P), (900, 0)], ANOTHER, 2),
        (&[(1600, P)], ANOTHER, 1),
        (&[(1600, P), (1600, P)], ANOTHER, 2),
        (&[(1600, 7), (1600, 7), (1600, P)], EQUAL_CAUSE, 3),
        (&[(1600, 7), (1600, P), (1600, 7)], EQUAL_CAUSE, 3),
        (&[(1600, P), (1600, 7), (1600, 7)], EQUAL_CAUSE, 3),
        (&[(1600, P), (1600, P), (900, 0)], HELD, 3),
        (&[(1600, P), (1600, P), (1600, P)], HELD, 3),
        (&[(1600, P), (1600, 7), (1600, 8)], HELD, 3),
        (&[(500, 0), (500, 0), (500, 0), (1600, P)], PASS, 3),
        (&[(1600, 7), (1600, 7), (900, 0), (1600, P)], EQUAL_CAUSE, 3),
        (
            &[(1600, P), (900, 0), (900, 0), (1600, 7), (1600, 7)],
            HELD,
            3,
        ),
        (&[(1600, P), (900, 0), (900, 0), (1600, P)], HELD, 3),
        (&[(1501, 1), (20, 0), (20, 0), (1501, P)], HELD, 4),
        (&[(1501, 1), (1501, 2), (1501, 3), (1501, P)], HELD, 4),
        (&[(1501, 1), (20, 0), (20, 0), (20, 0), (1501, P)], PASS, 4),
        (&mixed, HELD, 15),
    ];
    let mut sheets = Vec::new();
    for (vehicles, ending, row) in answers {
        for number in numbers(size) {
            let [verdict, ground] = ending;
            sheets.push(Chosen {
                sheet: draft_of(size, number, vehicles).bytes(),
                reported: match ending {
                    PASS => pass_of(number, row),
                    _ => (0, report(verdict, ground, row)),
                },
            });
        }
    }
    sheets
}

/// Of one pollutant.
fn draft_of(size: usize, number: u8, vehicles: &[Vehicle]) -> Draft {
    let mut draft = draft(size, 4, number, LIMIT, 0);
    for &(x, cause) in vehicles {
        draft.test(measured_alone(number, x), cause);
    }
    draft
}

/// Full sheets with a pending vehicle: the first, which holds the series, and the last, behind a
/// pass.
pub fn full_drafts(size: usize) -> [Draft; 2] {
    let held = [&[(1600, P)][..], &[(900, 0); 14]].concat();
    let passed = [&[(500, 0); 14][..], &[(1600, P)]].concat();
    [held, passed].map(|vehicles| draft_of(size, 1, &vehicles))
}

/// "Refusal 9 admits it there": of a vehicle at 1500, which is no gross emitter, and of one at 1501,
/// under every plan, as the first and as the second.
fn causes(size: usize) -> Vec<Chosen> {
    let mut sheets = Vec::new();
    for (plan, number) in (1..=PLANS).flat_map(|plan| numbers(size).map(move |n| (plan, n))) {
        for cause in [0, 1, LARGEST_CAUSE - 1, LARGEST_CAUSE, PENDING] {
            for (x, before) in [(1500, 0), (1501, 0), (1500, 1), (1501, 1)] {
                let mut draft = draft(size, plan, number, LIMIT, before);
                draft.engines.push(Engine {
                    cause,
                    measurements: measured_alone(number, x),
                });
                let tested = draft.engines.len() as u8;
                let gross = plan == 4 && x == 1501;
                sheets.push(Chosen {
                    sheet: draft.bytes(),
                    reported: match gross == (cause != 0) {
                        true => another_at(tested),
                        false => refused(size, 9, tested),
                    },
                });
            }
        }
    }
    sheets
}

/// Known causes that have some of the bits of 65,535, or all but one: they leave row 3 open.
fn known_causes(size: usize) -> Vec<Chosen> {
    let by_bytes = [255, 511, 32_767, 32_768, 65_280];
    let by_bits = (0..16).map(|bit| PENDING ^ 1 << bit);
    let known = |cause| Chosen {
        sheet: draft_of(size, 1, &[(900, 0), (1600, cause), (900, 0)]).bytes(),
        reported: another_at(3),
    };
    by_bytes.into_iter().chain(by_bits).map(known).collect()
}

/// Behind the row that is held every record is checked.
fn faults_behind(size: usize) -> Vec<Chosen> {
    let held = draft_of(size, 1, &[(1600, P), (900, 0), (900, 0)]);
    let vehicle = |x, cause| {
        let mut longer = held.clone();
        longer.engines.push(Engine {
            cause,
            measurements: measured_alone(1, x),
        });
        longer.bytes()
    };
    let other = |kind| [held.bytes(), records(size, 4, &[kind])].concat();
    let mut with_byte_1 = vehicle(900, 0);
    with_byte_1[4 * size + 1] = 1;
    let behind_four = [
        (2, other(7)),
        (3, other(POLLUTANT)),
        (16, other(SMALL_ENGINE)),
        (19, other(RUN_IN)),
        (8, vehicle(0, 0)),
        (9, vehicle(900, P)),
        (9, vehicle(900, 7)),
        (9, vehicle(1600, 0)),
        (11, other(STOP)),
        (12, with_byte_1),
    ];
    let [mut full, _] = full_drafts(size);
    full.engines.push(full.engines[1]);
    let faults = behind_four.map(|(number, sheet)| (number, 4, sheet));
    let faults = faults.into_iter().chain([(10, 16, full.bytes())]);
    faults
        .map(|(number, at, sheet)| Chosen {
            sheet,
            reported: refused(size, number, at),
        })
        .collect()
}

/// Each placing over series that pass, fail or stay open otherwise, and over series of which one
/// pollutant passes; cut behind the last gross emitter, and full. All of these, or one of so many.
pub fn drafts(size: usize, one_in: usize) -> impl Iterator<Item = Draft> {
    let mut all = Vec::new();
    for gross in placings() {
        let last = gross.iter().map(|(place, _)| place + 1).max();
        for tame in [Tame::Low, Tame::Mixed, Tame::High, Tame::FirstPasses] {
            all.extend([last.unwrap_or(0), 15].map(|count| Series {
                count,
                gross: gross.clone(),
                tame,
            }));
        }
    }
    let mut random = Random::new(0xF5);
    let some = all.into_iter().step_by(one_in);
    some.map(move |series| series.draft(size, &mut random))
}

fn placings() -> Vec<Placing> {
    let mut placings = vec![(0..15).map(|place| (place, PENDING)).collect()];
    for first in 0..15 {
        placings.push(vec![(first, PENDING)]);
        for second in first + 1..15 {
            let placing = |causes: [u16; 2]| vec![(first, causes[0]), (second, causes[1])];
            placings.extend(TWO.map(placing));
        }
    }
    placings.extend(placings_of_three());
    placings
}

const TWO: [[u16; 2]; 3] = [[P, P], [P, 7], [7, P]];

/// Among the first vehicles and the last, with every pattern of causes.
fn placings_of_three() -> Vec<Placing> {
    const PLACES: [usize; 7] = [0, 1, 2, 3, 8, 13, 14];
    let mut placings = Vec::new();
    for (at, &first) in PLACES.iter().enumerate() {
        for (behind, &second) in PLACES.iter().enumerate().skip(at + 1) {
            for &third in &PLACES[behind + 1..] {
                let places = [first, second, third];
                placings.extend(THREE.map(|causes| places.into_iter().zip(causes).collect()));
            }
        }
    }
    placings
}

const THREE: [[u16; 3]; 10] = [
    [P, 7, 7],
    [7, P, 7],
    [7, 7, P],
    [P, 7, 8],
    [7, P, 8],
    [7, 8, P],
    [P, P, 7],
    [P, 7, P],
    [7, P, P],
    [P, P, P],
];
