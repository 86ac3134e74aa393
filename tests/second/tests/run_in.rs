//! Document 02, F-2: kind 6, the first engine's values after running-in, and the correction of all
//! engines by them. Each sheet is judged in records of both sizes.

mod records;

use records::{appended, engine, fullest, judged, kinds, pollutant, refused};
use records::{run_in, small_engine, stop, UNWRITTEN};
use second::{convert, evidence, judge, lines, report};
use second::{Decision, Document, Document01};
use second::{Ground, Judgement, Reader, Refusal, Step, Verdict};
use second::{FOUR_POLLUTANTS, SIX_POLLUTANTS, SIZES};

/// The ends of the range.
const ENDS: [u32; 2] = [1, 9_999_999];

/// The plans that have run-in values.
const PLANS: [u8; 4] = [1, 2, 3, 5];

/// Pollutant 1 alone, its value after running-in, and what the engines measure.
#[derive(Clone, Copy)]
struct RunInSheet<'a> {
    plan: u8,
    limit: u32,
    deviation: u32,
    value: u32,
    engines: &'a [u32],
}

impl RunInSheet<'_> {
    fn bytes(&self, size: usize) -> Vec<u8> {
        let mut sheet = pollutant(size, 1, self.plan, self.limit, self.deviation);
        sheet.extend(run_in(size, &[(1, self.value)]));
        for &x in self.engines {
            sheet.extend(engine(size, 0, &[(1, x)]));
        }
        sheet
    }

    fn judged(&self) -> Result<Judgement, Refusal> {
        judged(&Document01, &SIZES.map(|size| self.bytes(size)))
    }

    fn verdict(&self) -> (Verdict, u8, Ground) {
        let judgement = self.judged().expect("accepted");
        (judgement.verdict, judgement.engine, judgement.ground)
    }
}

fn another(engines: u8) -> (Verdict, u8, Ground) {
    (Verdict::Another, engines, Ground::None)
}

fn pass(engine: u8) -> (Verdict, u8, Ground) {
    (Verdict::Pass, engine, Ground::Row)
}

fn fail(engine: u8) -> (Verdict, u8, Ground) {
    (Verdict::Fail, engine, Ground::Row)
}

/// Plan 3, limit 100, run-in value 90: an engine counts from 112 on, where x_1 is 100.
const EXAMPLE: RunInSheet = RunInSheet {
    plan: 3,
    limit: 100,
    deviation: 0,
    value: 90,
    engines: &[100, 110, 111, 111],
};

#[test]
fn plan_3() {
    assert_eq!(EXAMPLE.verdict(), pass(4));
    let over = RunInSheet {
        engines: &[100, 110, 111, 112],
        ..EXAMPLE
    };
    assert_eq!(over.verdict(), another(4));
}

/// "x_j x value with L x x_1": the products are exact, and equal ones do not count.
#[test]
fn plan_3_products() {
    let over = |limit, value, first, x| {
        let sheet = RunInSheet {
            limit,
            value,
            engines: &[first, x, x, x, x],
            ..EXAMPLE
        };
        sheet.verdict() != pass(4)
    };
    // 9,999,999 = 3,333,333 x 3, and 9,999,998 = 4,999,999 x 2.
    let equal = [
        [100, 90, 90, 100],
        [150, 50, 100, 300],
        [6, 4, 10, 15],
        [3_333_333, 3_333_333, 9_999_999, 9_999_999],
        [4_999_999, 4_999_999, 9_999_998, 9_999_998],
        [9_999_999, 9_999_999, 9_999_999, 9_999_999],
        [1, 1, 1, 1],
    ];
    for [limit, value, first, x] in equal {
        assert_eq!(
            u64::from(x) * u64::from(value),
            u64::from(limit) * u64::from(first)
        );
        assert!(!over(limit, value, first, x), "{limit} {value} {first} {x}");
        if x < ENDS[1] {
            assert!(over(limit, value, first, x + 1));
        }
        if first > 1 && value <= limit {
            assert!(over(limit, value, first - 1, x));
        }
    }
}

#[test]
fn plan_1() {
    let three_at_4000 = |deviation| RunInSheet {
        plan: 1,
        limit: 4000,
        deviation,
        value: 2000,
        engines: &[4000; 3],
    };
    assert_eq!(three_at_4000(625_020).verdict(), pass(3));
    assert_eq!(three_at_4000(625_021).verdict(), another(3));
    let doubled = |deviation| RunInSheet {
        value: 8000,
        ..three_at_4000(deviation)
    };
    assert_eq!(doubled(440_186).verdict(), fail(3));
    assert_eq!(doubled(440_187).verdict(), another(3));
}

/// Document 01's series of plan 2, each measurement twice as high and halved by running-in.
#[test]
fn plans_2_and_5() {
    for plan in [2, 5] {
        let three = |engines: [u32; 3]| {
            let sheet = RunInSheet {
                plan,
                limit: 4000,
                deviation: 0,
                value: engines[0],
                engines: &engines.map(|x| 2 * x),
            };
            sheet.verdict()
        };
        assert_eq!(three([4000, 4000, 4000]), pass(3));
        assert_eq!(three([4000, 4000, 2000]), another(3));
        assert_eq!(three([8000, 8000, 8000]), fail(3));
        assert_eq!(three([8000, 8000, 16000]), another(3));
    }
}

/// A value one above the limit can have the limit's logarithm, and so D = 0.
#[test]
fn values_beside_the_limit() {
    let three = |value| {
        let sheet = RunInSheet {
            plan: 2,
            limit: 9_000_000,
            deviation: 0,
            value,
            engines: &[5_000_000; 3],
        };
        sheet.verdict()
    };
    assert_eq!(Document01.g(9_000_001), Document01.g(9_000_000));
    assert_eq!(three(9_000_001), pass(3));
    assert_eq!(three(9_000_002), fail(3));
}

/// "g(x_j) + g(value) - g(x_1) - g(L)" for the first engine too: of it the value alone is left.
#[test]
fn the_first_engine() {
    let open = |value, first, deviation| {
        RunInSheet {
            plan: 1,
            limit: 4000,
            deviation,
            value,
            engines: &[first, first, first],
        }
        .verdict()
    };
    for first in [1, 2000, 4000, 5_000_000, 9_999_999] {
        assert_eq!(open(2000, first, 625_020), pass(3), "{first}");
        assert_eq!(open(2000, first, 625_021), another(3), "{first}");
    }
    for (value, over) in [(100, false), (101, true)] {
        for first in [1, 100, 9_999_999] {
            let sheet = RunInSheet {
                value,
                engines: &[first; 3],
                ..EXAMPLE
            };
            let asked = if over { fail(3) } else { another(3) };
            assert_eq!(sheet.verdict(), asked, "{value} and {first}");
        }
    }
}

/// With a value equal to what the first engine measured before, nothing changes.
#[test]
fn a_coefficient_of_one() {
    for plan in PLANS {
        let deviation = if plan == 1 { 300_000 } else { 0 };
        for engines in [
            [90, 80, 70],
            [150, 149, 151],
            [9_999_999, 1, 2],
            [400, 401, 402],
        ] {
            let limit = 150;
            let with = RunInSheet {
                plan,
                limit,
                deviation,
                value: engines[0],
                engines: &engines,
            };
            let without = SIZES.map(|size| {
                let mut sheet = with.bytes(size);
                sheet.drain(size..2 * size);
                sheet
            });
            assert_eq!(with.judged(), judged(&Document01, &without));
        }
    }
}

/// Each pollutant has a coefficient of its own.
#[test]
fn several_pollutants() {
    for size in SIZES {
        let count = Document01.pollutants(size);
        let each = |x: fn(u32) -> u32| -> Vec<(usize, u32)> {
            (1..=count).map(|p| (p, x(p as u32))).collect()
        };
        let judged = |last: &[(usize, u32)]| {
            let mut sheet = Vec::new();
            for number in 1..=count as u8 {
                sheet.extend(pollutant(size, number, 3, 100 * u32::from(number), 0));
            }
            sheet.extend(run_in(size, &each(|p| 90 * p)));
            for x in [|p| 100 * p, |p| 110 * p, |p| 111 * p] {
                sheet.extend(engine(size, 0, &each(x)));
            }
            sheet.extend(engine(size, 0, last));
            judge(&Document01, size, &sheet).expect("accepted")
        };
        let at_limits = each(|p| 1000 * p / 9);
        assert_eq!(judged(&at_limits).verdict, Verdict::Pass);
        for over in 0..count {
            let mut last = at_limits.clone();
            last[over].1 += 1;
            let Judgement {
                verdict, decisions, ..
            } = judged(&last);
            assert_eq!(verdict, Verdict::Another);
            for (pollutant, decision) in decisions[..count].iter().enumerate() {
                let asked = match pollutant == over {
                    true => (Decision::Open, 0),
                    false => (Decision::Pass, 4),
                };
                assert_eq!(*decision, asked);
            }
        }
    }
}

/// The ends of the range for the limit, the value, the first engine and the others, in full series:
/// |d_j| gets to twice the largest logarithm.
#[test]
fn ends_of_the_range() {
    for plan in PLANS {
        let full = |limit, value, first, x| {
            let mut engines = vec![x; Document01.last_row(plan)];
            engines[0] = first;
            let sheet = RunInSheet {
                plan,
                limit,
                deviation: if plan == 1 { 4_000_000 } else { 0 },
                value,
                engines: &engines,
            };
            sheet.verdict().0
        };
        let [low, high] = ENDS;
        for first in ENDS {
            assert_eq!(full(high, low, first, first), Verdict::Pass);
            assert_eq!(full(low, high, first, first), Verdict::Fail);
        }
        // The other engines are then 14 decimal orders above the limit, or below it.
        assert_eq!(full(low, high, low, high), Verdict::Fail);
        assert_eq!(full(high, low, high, low), Verdict::Pass);
    }
}

/// "A stop on an undecided series fails it at the engines tested, also below 3", and a sheet may
/// end with the run-in values.
#[test]
fn no_engine() {
    for plan in PLANS {
        let sheet = RunInSheet {
            plan,
            deviation: u32::from(plan == 1),
            engines: &[],
            ..EXAMPLE
        };
        assert_eq!(sheet.verdict(), another(0));
        let stopped = SIZES.map(|size| [sheet.bytes(size), stop(size)].concat());
        let judgement = judged(&Document01, &stopped).expect("accepted");
        let ending = (judgement.verdict, judgement.engine, judgement.ground);
        assert_eq!(ending, (Verdict::Fail, 0, Ground::Stopped));
        for (size, stopped) in SIZES.into_iter().zip(&stopped) {
            assert_eq!(evidence(&Document01, size, stopped), Ok(&stopped[..]));
        }
    }
}

/// "Lowering keeps its meaning there if the first engine's zero-hour values are the same in both
/// sheets": where its value falls, the others are corrected by more.
#[test]
fn lowering() {
    let limit_of_1 = |engines| RunInSheet {
        limit: 1,
        value: 1,
        engines,
        ..EXAMPLE
    };
    assert_eq!(limit_of_1(&[2, 1, 1, 2]).verdict(), pass(4));
    assert_eq!(limit_of_1(&[1, 1, 1, 2]).verdict(), another(4));
    // The value after running-in is a measurement too: lower it, and the sheet passes.
    let sheet = RunInSheet {
        value: 91,
        engines: &[100, 110, 110, 110],
        ..EXAMPLE
    };
    assert_eq!(sheet.verdict(), another(4));
    assert_eq!(RunInSheet { value: 90, ..sheet }.verdict(), pass(4));
}

/// `verdict` prints no line for run-in values.
#[test]
fn printed_lines() {
    let sheet = EXAMPLE.bytes(FOUR_POLLUTANTS);
    assert_eq!(lines(&Document01, &sheet), "pass 4 1\n1 pass 4\n");
    let second = [&sheet[..40], &sheet[20..]].concat();
    assert_eq!(lines(&Document01, &second), "refused 19 2\n");
}

/// "Before the first engine": after the pollutants, and behind a kind 5 if there is one.
#[test]
fn places() {
    for plan in PLANS {
        for (records, number, at) in [
            (&[6][..], 3, 0),
            (&[6, 1], 3, 0),
            (&[6, 6], 3, 0),
            (&[1, 6, 1], 3, 2),
            (&[1, 5, 6, 1], 3, 3),
            (&[1, 3, 6], 3, 2),
            (&[1, 6, 3, 6], 3, 3),
            (&[1, 2, 3, 6], 3, 3),
            (&[1, 6, 5], 16, 2),
            (&[1, 5, 6, 5], 16, 3),
            (&[1, 6, 2, 5], 16, 3),
            (&[1, 6, 6], 19, 2),
            (&[1, 5, 6, 6], 19, 3),
            (&[1, 2, 6], 19, 2),
            (&[1, 6, 2, 6], 19, 3),
            (&[1, 5, 2, 6], 19, 3),
            (&[1, 2, 2, 6, 3], 19, 3),
            (&[7], 2, 0),
            (&[1, 7], 2, 1),
            (&[1, 6, 7], 2, 2),
            (&[1, 6, 4], 2, 2),
        ] {
            assert_eq!(kinds(plan, records), refused(number, at), "{records:?}");
        }
        for (records, engines, ground) in [
            (&[1, 6][..], 0, Ground::None),
            (&[1, 5, 6], 0, Ground::None),
            (&[1, 6, 2], 1, Ground::None),
            (&[1, 5, 6, 2], 1, Ground::None),
            (&[1, 6, 3], 0, Ground::Stopped),
            (&[1, 5, 6, 3], 0, Ground::Stopped),
            (&[1, 6, 2, 2, 3], 2, Ground::Stopped),
        ] {
            let judgement = kinds(plan, records).expect("accepted");
            assert_eq!((judgement.engine, judgement.ground), (engines, ground));
        }
    }
}

/// "19, [..] or in plan 4".
#[test]
fn plan_4() {
    assert_eq!(kinds(4, &[1, 6]), refused(19, 1));
    assert_eq!(kinds(4, &[1, 2, 6]), refused(19, 2));
    assert_eq!(kinds(4, &[1, 6, 6]), refused(19, 1));
    assert_eq!(kinds(4, &[1, 5, 6]), refused(16, 1));
    assert_eq!(kinds(4, &[6]), refused(3, 0));
}

/// 19 behind 3, then 8, then 12.
#[test]
fn order_of_refusals() {
    for size in SIZES {
        let faulty = |value: u32, byte| {
            let mut record = run_in(size, &[(1, value)]);
            record[byte] += 1;
            record
        };
        let judged = |before: &[u8], record: Vec<u8>| {
            let sheet = [&pollutant(size, 1, 3, 100, 0), before, &record].concat();
            judge(&Document01, size, &sheet).map(|judgement| judgement.engine)
        };
        for byte in 1..4 {
            assert_eq!(judged(&stop(size), faulty(0, byte)), refused(3, 2));
            let engine = engine(size, 0, &[(1, 90)]);
            assert_eq!(judged(&engine, faulty(0, byte)), refused(19, 2));
            let run_in = run_in(size, &[(1, 90)]);
            assert_eq!(judged(&run_in, faulty(0, byte)), refused(19, 2));
            assert_eq!(judged(&[], faulty(0, byte)), refused(8, 1));
            assert_eq!(judged(&[], faulty(10_000_000, byte)), refused(8, 1));
            assert_eq!(judged(&[], faulty(90, byte)), refused(12, 1));
        }
        assert_eq!(judged(&[], run_in(size, &[(1, 90)])), Ok(0));
    }
}

/// "Refusals 8 and 12 read it as they read an engine".
#[test]
fn values() {
    for size in SIZES {
        let last = Document01.pollutants(size);
        let declared = |number: usize| pollutant(size, number as u8, 2, 100, 0);
        for number in 1..=last {
            let judged = |values: &[(usize, u32)]| {
                let sheet = [declared(number), run_in(size, values)].concat();
                judge(&Document01, size, &sheet).map(|judgement| judgement.engine)
            };
            for value in [1, 2, 100, 101, 9_999_998, 9_999_999] {
                assert_eq!(judged(&[(number, value)]), Ok(0));
            }
            for value in [0, 10_000_000, 1 << 24, 1 << 31, u32::MAX] {
                assert_eq!(judged(&[(number, value)]), refused(8, 1));
            }
            for other in (1..=last).filter(|&other| other != number) {
                for value in [1, 256, 1 << 16, 1 << 24] {
                    assert_eq!(judged(&[(number, 90), (other, value)]), refused(8, 1));
                }
            }
        }
    }
}

/// "The record limit rises by one." Without kind 6 so many are refused by a record, never 1.
#[test]
fn most_records() {
    for (size, numbers) in SIZES
        .into_iter()
        .zip([&[1, 2, 3, 4][..], &[1, 2, 3, 4, 5, 6]])
    {
        let fullest = fullest(size, numbers);
        assert_eq!(
            fullest.len(),
            [780, 1148][usize::from(size == SIX_POLLUTANTS)]
        );
        assert!(judge(&Document01, size, &fullest).is_ok());
        let longer = [&fullest[..], &stop(size)].concat();
        assert_eq!(judge(&Document01, size, &longer), refused(1, 0));
        let mut without = fullest.clone();
        let values = (numbers.len() + 1) * size;
        without.drain(values..values + size);
        let last = (fullest.len() / size) as u8 - 1;
        let two_stops = [&without[..], &stop(size)].concat();
        assert_eq!(judge(&Document01, size, &two_stops), refused(3, last));
    }
}

/// "Through the deciding engine's record": that of the run-in values is one of those before it.
#[test]
fn evidence_of_a_run_in_sheet() {
    for size in SIZES {
        let four = EXAMPLE.bytes(size);
        let five = [&four[..], &engine(size, 0, &[(1, 100)])].concat();
        assert_eq!(evidence(&Document01, size, &four), Ok(&four[..]));
        assert_eq!(evidence(&Document01, size, &five), Ok(&four[..]));
        let open = &four[..5 * size];
        assert_eq!(evidence(&Document01, size, open), Ok(open));
        let mut with_both = five.clone();
        with_both.splice(size..size, small_engine(size, 0, 0, 10_101));
        let through = &with_both[..7 * size];
        assert_eq!(evidence(&Document01, size, &with_both), Ok(through));
    }
}

/// "A sheet's new refusals stand with 1 to 12 in append": for the joined sheet, and for the sheet
/// there, even if there is no room for the record in a sheet.
#[test]
fn append_run_in_values() {
    for size in SIZES {
        let values = run_in(size, &[(1, 90)]);
        let append_to = |before: &[u8], record: &[u8]| {
            let sheet = [&pollutant(size, 1, 3, 100, 0), before].concat();
            appended(size, &sheet, record)
        };
        let engine = engine(size, 0, &[(1, 90)]);
        assert_eq!(append_to(&[], &values), Ok(()));
        assert_eq!(append_to(&values, &engine), Ok(()));
        assert_eq!(append_to(&values, &values), refused(19, 2));
        assert_eq!(append_to(&engine, &values), refused(19, 2));
        assert_eq!(append_to(&stop(size), &values), refused(3, 2));
        assert_eq!(append_to(&[], &run_in(size, &[(1, 0)])), refused(8, 1));
        assert_eq!(appended(size, &[], &values), refused(3, 0));
        let twice = [&values[..], &values].concat();
        for added in [engine.clone(), stop(size), vec![9; size]] {
            assert_eq!(append_to(&twice, &added), refused(19, 2));
        }
        let mut full = [&pollutant(size, 1, 3, 100, 0)[..], &twice].concat();
        full.resize(Document01.longest_sheet(size), 0);
        assert_eq!(appended(size, &full, &stop(size)), refused(19, 2));
    }
}

/// "Report: 15, [..]; then as judge."
#[test]
fn report_of_a_run_in_sheet() {
    for size in SIZES {
        let sheet = EXAMPLE.bytes(size);
        let second = [&sheet[..2 * size], &sheet[size..]].concat();
        let mut output = vec![UNWRITTEN; size];
        let mut reported =
            |sheet: &[u8], room| report(&Document01, size, sheet, &mut output[..room]);
        assert_eq!(reported(&second, size - 1), refused(15, 0));
        assert_eq!(reported(&second, size), refused(19, 2));
        assert_eq!(reported(&sheet, size), Ok(()));
        let mut expected = vec![0; size];
        expected[..6].copy_from_slice(&[16, 1, 1, 4, 1, 4]);
        assert_eq!(output, expected);
    }
}

/// F-10: "Other fields keep their bytes", "added bytes zero".
#[test]
fn convert_run_in_values() {
    for (size, other) in [
        (FOUR_POLLUTANTS, SIX_POLLUTANTS),
        (SIX_POLLUTANTS, FOUR_POLLUTANTS),
    ] {
        let mut output = vec![UNWRITTEN; 6 * other];
        let sheet = EXAMPLE.bytes(size);
        assert_eq!(convert(&Document01, size, &sheet, &mut output), Ok(()));
        assert_eq!(output, EXAMPLE.bytes(other));
        let second = [&sheet[..2 * size], &sheet[size..]].concat();
        assert_eq!(convert(&Document01, size, &second, &mut []), refused(19, 2));
    }
}

/// A reader hands out what stands there, whether it fits or not.
#[test]
fn read_run_in_values() {
    for size in SIZES {
        let mut sheet = EXAMPLE.bytes(size);
        let values = run_in(size, &[(1, 0), (3, u32::MAX)]);
        sheet.splice(size..2 * size, values);
        sheet[size + 1..size + 4].fill(7);
        let mut reader = Reader::new(&Document01, size, &sheet);
        reader.move_on();
        let values = [0, 0, u32::MAX, 0, 0, 0];
        assert_eq!((reader.left(), reader.step()), (5, Step::RunIn { values }));
    }
}

/// Without kind 6 an engine counts by what it measured: three of the four are then over the limit.
#[test]
fn without_run_in_values() {
    let sheets = SIZES.map(|size| {
        let mut sheet = EXAMPLE.bytes(size);
        sheet.drain(size..2 * size);
        sheet
    });
    let judgement = judged(&Document01, &sheets).expect("accepted");
    let ending = (judgement.verdict, judgement.engine, judgement.ground);
    assert_eq!(ending, another(4));
}
