//! Document 02, F-5: "Testing on while a cause is sought", with vehicles whose finding is pending,
//! and the operation that enters it.

mod records;

use records::{another, appended, engine, equal_cause, held, in_service, pollutant, referred};
use records::{refused, vehicles_of, Answer, Vehicle, UNWRITTEN};
use second::{evidence, finding, judge, lines, report};
use second::{Decision, Document01, Ground, Refusal, Verdict, SIZES};

/// "Cause 65,535 now marks a gross emitter whose finding is pending".
const P: u16 = 65_535;

const PASS_AT_3: Answer = (Verdict::Pass, 3, Ground::Row, (Decision::Pass, 3));

/// A pending vehicle among three.
const HELD: [Vehicle; 3] = [(1600, P), (900, 0), (900, 0)];

/// Beside a known cause.
const BESIDE_SEVEN: [Vehicle; 3] = [(1600, P), (900, 0), (1600, 7)];

/// "At the first row with a pending vehicle among its engines [..] the verdict is 4": there is no
/// row below 3.
#[test]
fn first_row() {
    assert_eq!(in_service(&HELD), held(3));
    assert_eq!(in_service(&HELD[..2]), another(2));
    assert_eq!(in_service(&HELD[..1]), another(1));
    let mixed = [(600, 0), (1400, 0)].repeat(8);
    for place in 0..15 {
        let mut vehicles = mixed[..15].to_vec();
        vehicles[place] = (1600, P);
        let row = place.max(2) + 1;
        for count in row..=15 {
            assert_eq!(in_service(&vehicles[..count]), held(row as u8), "{place}");
        }
    }
}

/// "Two equal known causes still fail the series", and two pending vehicles are none.
#[test]
fn equal_causes() {
    let three = |causes: [u16; 3]| in_service(&causes.map(|cause| (1600, cause)));
    for causes in [[7, 7, P], [7, P, 7], [P, 7, 7]] {
        assert_eq!(three(causes), equal_cause(3));
    }
    for causes in [[7, 8, P], [7, P, P], [P, P, 7], [P, P, P]] {
        assert_eq!(three(causes), held(3));
    }
}

/// Vehicles behind the row are counted for nothing: not equal causes, not two gross emitters at 15,
/// and not the statistics.
#[test]
fn behind_the_row() {
    let behind = [[(1600, 7), (1600, 7)], [(1600, 7), (1600, P)], [(1, 0); 2]];
    for behind in behind {
        assert_eq!(in_service(&[&HELD[..], &behind].concat()), held(3));
    }
    let full = [&HELD[..], &[(1600, 7)], &[(900, 0); 11]].concat();
    assert_eq!(in_service(&full), held(3));
}

/// A series that a row decides is not held behind it.
#[test]
fn behind_the_decision() {
    let mut vehicles = vec![(500, 0), (500, 0), (500, 0), (1600, P)];
    assert_eq!(in_service(&vehicles), PASS_AT_3);
    vehicles.splice(..3, [(1600, 7), (1600, 7), (900, 0)]);
    assert_eq!(in_service(&vehicles), equal_cause(3));
}

/// Held comes before referral: one vehicle of two whose finding is pending, newest at 15.
#[test]
fn before_referral() {
    let mut vehicles = [(600, 0), (1400, 0)].repeat(7);
    vehicles[0] = (1600, 7);
    vehicles.push((1600, P));
    assert_eq!(in_service(&vehicles), held(15));
    vehicles[14] = (1600, 8);
    assert_eq!(in_service(&vehicles), referred(15));
    vehicles[14] = (1600, 7);
    assert_eq!(in_service(&vehicles), equal_cause(15));
}

/// "Open pollutants stay open", and one that has passed keeps that. Report, evidence and lines.
#[test]
fn what_is_answered() {
    for size in SIZES {
        let mut sheet = pollutant(size, 1, 4, 1000, 0);
        sheet.extend(pollutant(size, 3, 4, 1000, 0));
        for x in [600, 1400, 600] {
            sheet.extend(engine(size, 0, &[(1, x), (3, 500)]));
        }
        sheet.extend(engine(size, P, &[(1, 1600), (3, 500)]));
        sheet.extend(engine(size, 0, &[(1, 600), (3, 500)]));
        let mut output = [UNWRITTEN; 28];
        let reported = report(&Document01, size, &sheet, &mut output[..size]);
        assert_eq!(reported, Ok(()));
        assert_eq!(output[..10], [16, 4, 5, 4, 0, 0, 0, 0, 1, 3]);
        assert_eq!(evidence(&Document01, size, &sheet), Ok(&sheet[..]));
        if size == 20 {
            assert_eq!(lines(&Document01, &sheet), "held 4 5\n1 open 0\n3 pass 3\n");
        }
    }
}

/// "A held sheet counts as undecided".
#[test]
fn undecided() {
    let is_decided = |vehicles: &[Vehicle]| {
        let judgement = judge(&Document01, 20, &vehicles_of(20, 1, vehicles));
        judgement.expect("an accepted sheet").is_decided()
    };
    assert!(!is_decided(&HELD));
    assert!(!is_decided(&HELD[..2]));
    assert!(is_decided(&[(500, 0); 3]));
}

/// "Refusal 9 admits it there": for a gross emitter, and in plan 4 alone.
#[test]
fn refusal_9() {
    for size in SIZES {
        for plan in 1..=5 {
            for (x, cause, accepted) in [
                (1500, P, false),
                (1501, P, plan == 4),
                (1501, P - 1, plan == 4),
                (1501, 0, plan != 4),
                (1500, 0, true),
            ] {
                let mut sheet = pollutant(size, 1, plan, 1000, u32::from(plan == 1));
                sheet.extend(engine(size, cause, &[(1, x)]));
                let judged = judge(&Document01, size, &sheet);
                let expected = if accepted { Ok(()) } else { refused(9, 1) };
                assert_eq!(judged.map(|_| ()), expected, "plan {plan}, {x}, {cause}");
            }
        }
    }
}

/// What the operation answers, and the sheet after it.
fn entered(size: usize, sheet: &[u8], engine: u32, value: u32) -> (Result<(), Refusal>, Vec<u8>) {
    let mut sheet = sheet.to_vec();
    let answer = finding(&Document01, size, &mut sheet, engine, value);
    (answer, sheet)
}

/// The finding is entered into the vehicles of each pollutant of each size, and gives these.
fn gives(vehicles: &[Vehicle], engine: u32, value: u32, after: &[Vehicle]) {
    for size in SIZES {
        for number in [1, 4] {
            let sheet = vehicles_of(size, number, vehicles);
            let expected = vehicles_of(size, number, after);
            assert_eq!(entered(size, &sheet, engine, value), (Ok(()), expected));
        }
    }
}

/// The finding is turned away, with record 0, and nothing is written.
fn turned_away(vehicles: &[Vehicle], engine: u32, value: u32, number: u8) {
    for size in SIZES {
        let sheet = vehicles_of(size, 1, vehicles);
        let expected = (refused(number, 0), sheet.clone());
        assert_eq!(entered(size, &sheet, engine, value), expected);
    }
}

/// "A new operation enters the finding and changes only that record's two cause bytes."
#[test]
fn findings() {
    for (value, answer) in [(7, equal_cause(3)), (8, another(3))] {
        let known = [(1600, value), (900, 0), (1600, 7)];
        gives(&BESIDE_SEVEN, 1, value.into(), &known);
        assert_eq!(in_service(&known), answer);
    }
    for value in [1, 255, 256, 0x1234, 65_534] {
        gives(&HELD, 1, value.into(), &[(1600, value), (900, 0), (900, 0)]);
    }
}

/// "23, no pending vehicle at that engine, counted from 1".
#[test]
fn no_pending_vehicle() {
    for engine in [0, 2, 3, 4, 255, 256, 257, 65_537, 1 << 31, u32::MAX] {
        turned_away(&BESIDE_SEVEN, engine, 7, 23);
    }
    turned_away(&[], 1, 7, 23);
}

/// "24, finding not 1 to 65,534, after 23".
#[test]
fn no_finding() {
    for value in [0, 65_535, 65_536, 65_543, 131_071, 1 << 31, u32::MAX] {
        turned_away(&BESIDE_SEVEN, 1, value, 24);
        turned_away(&BESIDE_SEVEN, 3, value, 23);
    }
}

/// "The sheet's own number; then 23", and F-10: "30, [..] before every other".
#[test]
fn own_refusals() {
    for size in SIZES {
        let mut sheet = vehicles_of(size, 1, &HELD);
        for no_size in [0, 19, 24, size + 256, (1 << 32) + size, usize::MAX] {
            let expected = (refused(30, 0), sheet.clone());
            assert_eq!(entered(no_size, &sheet, 0, 0), expected);
        }
        assert_eq!(entered(size, &[], 0, 0), (refused(1, 0), vec![]));
        sheet[2 * size + 1] = 1;
        for (engine, value) in [(1, 7), (0, 0), (1, 65_535)] {
            let expected = (refused(12, 2), sheet.clone());
            assert_eq!(entered(size, &sheet, engine, value), expected);
        }
    }
}

/// A finding behind the decision, behind the held row and below row 3.
#[test]
fn any_pending_vehicle() {
    let passed = [(500, 0), (500, 0), (500, 0)];
    let [behind, after] = [P, 7].map(|cause| [&passed[..], &[(1600, cause)]].concat());
    gives(&behind, 4, 7, &after);
    assert_eq!(in_service(&after), PASS_AT_3);
    let [behind, after] = [P, 7].map(|cause| [&HELD[..], &[(1600, cause)]].concat());
    gives(&behind, 4, 7, &after);
    assert_eq!(in_service(&after), held(3));
    gives(&HELD[..1], 1, 7, &[(1600, 7)]);
}

/// Several findings, in every order: the series is held until the last is known, and the sheet is
/// the same in the end.
#[test]
fn several_findings() {
    let vehicles = |causes: [u16; 3]| causes.map(|cause| (1600, cause));
    let orders = [
        [0, 1, 2],
        [0, 2, 1],
        [1, 0, 2],
        [1, 2, 0],
        [2, 0, 1],
        [2, 1, 0],
    ];
    for order in orders {
        let mut causes = [P; 3];
        for place in order {
            let before = vehicles(causes);
            assert_eq!(in_service(&before), held(3));
            let cause = place as u16 + 5;
            causes[place] = cause;
            gives(&before, place as u32 + 1, cause.into(), &vehicles(causes));
        }
        assert_eq!(causes, [5, 6, 7]);
        assert_eq!(in_service(&vehicles(causes)), another(3));
    }
}

/// A finding that is the cause of another vehicle fails the series while a third is pending.
#[test]
fn equal_finding() {
    let [before, after] = [P, 7].map(|cause| [(1600, cause), (1600, P), (1600, 7)]);
    assert_eq!(in_service(&before), held(3));
    gives(&before, 1, 7, &after);
    assert_eq!(in_service(&after), equal_cause(3));
}

/// "Vehicles may be appended meanwhile", pending ones too, up to the last row.
#[test]
fn appending() {
    for size in SIZES {
        let sheet = vehicles_of(size, 1, &HELD);
        for vehicle in [(1600, P), (1600, 7), (900, 0)] {
            let longer = vehicles_of(size, 1, &[vehicle]);
            assert_eq!(appended(size, &sheet, &longer[size..]), Ok(()));
        }
        let refused_cause = engine(size, P, &[(1, 900)]);
        assert_eq!(appended(size, &sheet, &refused_cause), refused(9, 4));
        let full = [&HELD[..], &[(900, 0); 12]].concat();
        let full = vehicles_of(size, 1, &full);
        let one_more = engine(size, 0, &[(1, 900)]);
        assert_eq!(appended(size, &full, &one_more), refused(10, 16));
    }
}

/// "A verdict other than held is the same under every finding that could follow", here of two
/// pending vehicles behind three equal ones, and beside two equal causes.
#[test]
fn the_same_under_every_finding() {
    for one in [1, 7, 8, 65_534, P] {
        for other in [1, 7, 8, 65_534, P] {
            let vehicles = [(500, 0), (500, 0), (500, 0), (1600, one), (1600, other)];
            assert_eq!(in_service(&vehicles), PASS_AT_3);
            let vehicles = [(1600, 7), (1600, 7), (1600, one), (1600, other)];
            assert_eq!(in_service(&vehicles), equal_cause(3));
            assert_eq!(in_service(&[(1600, one), (1600, other)]), another(2));
        }
    }
}
