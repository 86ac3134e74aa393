//! Document 01's own cases: "Series that stand on a line", and its printed example; and of
//! document 02 those of F-6, the corrected sheet, and of F-9, the finer logarithm. Each series is
//! judged in records of both sizes; F-10: "All answers for pollutants 1 to 4 stay equal".

mod records;

use records::{engine, judged, pollutant, stop, Sheets};
use second::variants::SixteenSteps;
use second::{append, evidence, judge, lines};
use second::{Column, Decision, Document, Document01, Ground, Refusal, Verdict};
use second::{FOUR_POLLUTANTS, SIZES};

/// A sheet of pollutant 1 alone; a vehicle is a cause and a measurement.
fn sheet(plan: u8, limit: u32, deviation: u32, vehicles: &[(u16, u32)]) -> Sheets {
    SIZES.map(|size| {
        let mut sheet = pollutant(size, 1, plan, limit, deviation);
        for &(cause, measurement) in vehicles {
            sheet.extend(engine(size, cause, &[(1, measurement)]));
        }
        sheet
    })
}

fn stopped(sheets: Sheets) -> Sheets {
    let [four, six] = sheets;
    let [stop_of_four, stop_of_six] = SIZES.map(stop);
    [[four, stop_of_four].concat(), [six, stop_of_six].concat()]
}

fn verdict(sheets: &Sheets) -> (Verdict, u8, Ground) {
    verdict_by(&Document01, sheets)
}

fn verdict_by(document: &impl Document, sheets: &Sheets) -> (Verdict, u8, Ground) {
    let judgement = judged(document, sheets).expect("accepted");
    (judgement.verdict, judgement.engine, judgement.ground)
}

fn refusal(sheets: &Sheets) -> (u8, u8) {
    let Refusal { number, record } = judged(&Document01, sheets).expect_err("refused");
    (number, record)
}

const ANOTHER_AT_3: (Verdict, u8, Ground) = (Verdict::Another, 3, Ground::None);
const PASS_AT_3: (Verdict, u8, Ground) = (Verdict::Pass, 3, Ground::Row);
const FAIL_AT_3: (Verdict, u8, Ground) = (Verdict::Fail, 3, Ground::Row);

/// F-9: "The starred values of g are worked out anew".
#[test]
fn logarithms() {
    let values = [
        (0, 0),
        (1, 0),
        (2, 1_048_576),
        (3, 1_661_953),
        (1000, 10_449_882),
        (9_999_999, 24_383_058),
        (10_000_000, 0),
    ];
    for (m, g) in values {
        assert_eq!(Document01.g(m), g);
    }
}

/// F-9: "Two analysts found different readings with equal logarithms." Three engines above the
/// limit passed as if they stood at it.
#[test]
fn different_readings() {
    let values = [(9_000_000, 24_223_671), (9_000_010, 24_223_673)];
    for (m, g) in values {
        assert_eq!(Document01.g(m), g);
        assert_eq!(SixteenSteps.g(m), 16 * 1_513_979);
    }
    let above = sheet(2, 9_000_000, 0, &[(0, 9_000_010); 3]);
    assert_eq!(verdict(&above), FAIL_AT_3);
    assert_eq!(verdict_by(&SixteenSteps, &above), PASS_AT_3);
}

/// F-9: "The other starred cases must come out unchanged", here and below.
#[test]
fn plan_1() {
    let three = |x, t| verdict(&sheet(1, 4000, t, &[(0, x); 3]));
    assert_eq!(three(2000, 625_020), PASS_AT_3);
    assert_eq!(three(2000, 625_021), ANOTHER_AT_3);
    assert_eq!(three(8000, 440_186), FAIL_AT_3);
    assert_eq!(three(8000, 440_187), ANOTHER_AT_3);
}

#[test]
fn plan_2() {
    let three = |x: [u32; 3]| verdict(&sheet(2, 4000, 0, &x.map(|x| (0, x))));
    assert_eq!(three([4000, 4000, 4000]), PASS_AT_3);
    assert_eq!(three([4000, 4000, 2000]), ANOTHER_AT_3);
    assert_eq!(three([8000, 8000, 8000]), FAIL_AT_3);
    assert_eq!(three([8000, 8000, 16000]), ANOTHER_AT_3);
}

#[test]
fn plan_4() {
    assert!(judged(&Document01, &sheet(4, 1000, 0, &[(0, 1500)])).is_ok());
    assert_eq!(refusal(&sheet(4, 1000, 0, &[(7, 1500)])), (9, 1));
    assert!(judged(&Document01, &sheet(4, 1000, 0, &[(7, 1501)])).is_ok());
    assert_eq!(refusal(&sheet(4, 1000, 0, &[(0, 1501)])), (9, 1));
    let three = |causes: [u16; 2]| {
        verdict(&sheet(
            4,
            1000,
            0,
            &[(causes[0], 2000), (causes[1], 2000), (0, 900)],
        ))
    };
    assert_eq!(three([7, 7]), (Verdict::Fail, 3, Ground::EqualCause));
    assert_eq!(three([7, 8]), ANOTHER_AT_3);
}

/// So many times 4000 and 1000, which are double and half of the limit 2000.
fn in_turn(times: usize) -> Vec<u32> {
    [4000, 1000].repeat(times)
}

/// Of a sheet with limit 2000 and these measurements.
fn verdict_of(plan: u8, measurements: &[u32]) -> (Verdict, u8, Ground) {
    let vehicles: Vec<(u16, u32)> = measurements.iter().map(|&x| (0, x)).collect();
    verdict(&sheet(plan, 2000, 0, &vehicles))
}

const PASS_AT_31: (Verdict, u8, Ground) = (Verdict::Pass, 31, Ground::Row);
const ANOTHER_AT_31: (Verdict, u8, Ground) = (Verdict::Another, 31, Ground::None);
const PASS_AT_32: (Verdict, u8, Ground) = (Verdict::Pass, 32, Ground::Row);
const FAIL_AT_32: (Verdict, u8, Ground) = (Verdict::Fail, 32, Ground::Row);

/// F-6: "A is 449 at 31, A and B are 3876 at 32 [..], otherwise as plan 2".
#[test]
fn plan_5_numbers() {
    let [plan_2, plan_5] = [2, 5].map(|plan| {
        move |n| [Column::Pass, Column::Fail].map(|column| Document01.number(plan, column, n))
    });
    for n in 3..=30 {
        assert_eq!(plan_5(n), plan_2(n), "row {n}");
    }
    assert_eq!(plan_2(31), [Some(-449), Some(5629)]);
    assert_eq!(plan_5(31), [Some(449), Some(5629)]);
    assert_eq!(plan_5(32), [Some(3876), Some(3876)]);
    assert_eq!(plan_5(33), [None, None]);
}

#[test]
fn plan_5_row_31() {
    let first_then_in_turn = |plan, x| verdict_of(plan, &[vec![x], in_turn(15)].concat());
    for x in [1900, 2000, 2199] {
        assert_eq!(first_then_in_turn(2, x), ANOTHER_AT_31, "{x}");
        assert_eq!(first_then_in_turn(5, x), PASS_AT_31, "{x}");
    }
    for plan in [2, 5] {
        assert_eq!(first_then_in_turn(plan, 1500), PASS_AT_31);
        assert_eq!(first_then_in_turn(plan, 2200), ANOTHER_AT_31);
    }
}

#[test]
fn plan_5_row_32() {
    let in_turn_then_last = |plan, x| verdict_of(plan, &[in_turn(15), vec![4000, x]].concat());
    for x in [500, 1000, 2330] {
        assert_eq!(in_turn_then_last(2, x), FAIL_AT_32, "{x}");
        assert_eq!(in_turn_then_last(5, x), PASS_AT_32, "{x}");
    }
    for plan in [2, 5] {
        assert_eq!(in_turn_then_last(plan, 250), PASS_AT_32);
        assert_eq!(in_turn_then_last(plan, 2331), FAIL_AT_32);
    }
}

/// "Refusal 5 admits plan 5", and the others are plan 2's.
#[test]
fn plan_5_refusals() {
    let two_plans = |one, other| {
        let both = |size| [(1, one), (2, other)].map(|(n, plan)| pollutant(size, n, plan, 2000, 0));
        SIZES.map(|size| both(size).concat())
    };
    assert_eq!(refusal(&sheet(6, 2000, 0, &[])), (5, 0));
    assert_eq!(refusal(&two_plans(2, 5)), (5, 1));
    assert_eq!(refusal(&two_plans(5, 2)), (5, 1));
    assert_eq!(refusal(&sheet(5, 2000, 1, &[])), (7, 0));
    assert_eq!(refusal(&sheet(5, 2000, 0, &[(7, 4000)])), (9, 1));
    assert_eq!(refusal(&sheet(5, 2000, 0, &[(0, 2000); 33])), (10, 33));
}

#[test]
fn plan_5_stopped() {
    let sheets = stopped(sheet(5, 2000, 0, &[(0, 4000), (0, 1000)]));
    assert_eq!(verdict(&sheets), (Verdict::Fail, 2, Ground::Stopped));
}

#[test]
fn no_engine() {
    let sheets = sheet(1, 4000, 1, &[]);
    assert_eq!(verdict(&sheets), (Verdict::Another, 0, Ground::None));
    let sheets = stopped(sheets);
    assert_eq!(verdict(&sheets), (Verdict::Fail, 0, Ground::Stopped));
    for (size, sheet) in SIZES.into_iter().zip(&sheets) {
        assert_eq!(evidence(&Document01, size, sheet), Ok(&sheet[..]));
    }
}

#[test]
fn printed_example() {
    for size in SIZES {
        let mut buffer = vec![0; 6 * size];
        buffer[..size].copy_from_slice(&pollutant(size, 4, 3, 150, 0));
        for place in 1..6 {
            let record = engine(size, 0, &[(4, 140)]);
            let added = append(&Document01, size, &mut buffer, place * size, &record);
            assert_eq!(added, Ok(()));
        }
        assert_eq!(
            evidence(&Document01, size, &buffer),
            Ok(&buffer[..5 * size])
        );
        assert_eq!(
            judge(&Document01, size, &buffer).map(|judgement| judgement.decisions[3]),
            Ok((Decision::Pass, 4))
        );
    }
}

/// F-10: "`verdict` reads 20-byte sheets."
#[test]
fn printed_lines() {
    let mut sheet = pollutant(FOUR_POLLUTANTS, 4, 3, 150, 0);
    sheet.extend(engine(FOUR_POLLUTANTS, 0, &[(4, 140)]).repeat(4));
    assert_eq!(lines(&Document01, &sheet), "pass 4 1\n4 pass 4\n");
    sheet.extend([9; FOUR_POLLUTANTS]);
    assert_eq!(lines(&Document01, &sheet), "refused 2 5\n");
    let mut of_six = sheet;
    of_six.resize(28, 0);
    assert_eq!(lines(&Document01, &of_six), "refused 1 0\n");
}
