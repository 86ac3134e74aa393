//! Document 02, F-1: kind 5, the small engine's record, and the particulate limit that depends on it.
//! Each sheet is judged in records of both sizes.

mod records;

use records::{appended, engine, fullest, judged, kinds, pollutant, refused, small_engine, stop};
use records::{Sheets, UNWRITTEN};
use second::{convert, evidence, judge, lines, report};
use second::{Decision, Document, Document01};
use second::{Ground, Judgement, Reader, Refusal, Step, Verdict};
use second::{FOUR_POLLUTANTS, SIX_POLLUTANTS, SIZES};

/// The rule's last day with the limit 250.
const LAST_DAY: u32 = 19_980_930;

/// Volume, speed and date.
type SmallEngine = (u16, u16, u32);

/// An engine of the rule on its last day: its limit is 250.
const SMALL: SmallEngine = (699, 3001, LAST_DAY);
/// Another engine: its limit is 150.
const OTHER: SmallEngine = (700, 3001, LAST_DAY);

fn record(size: usize, (volume, speed, date): SmallEngine) -> Vec<u8> {
    small_engine(size, volume, speed, date)
}

/// Plan 3, particulates with this limit, a small engine, and four engines at 140.
fn four_engines(size: usize, limit: u32, small_engine: SmallEngine) -> Vec<u8> {
    let mut sheet = pollutant(size, 4, 3, limit, 0);
    sheet.extend(record(size, small_engine));
    sheet.extend(engine(size, 0, &[(4, 140)]).repeat(4));
    sheet
}

fn answer(limit: u32, small_engine: SmallEngine) -> Result<Judgement, Refusal> {
    judged(
        &Document01,
        &SIZES.map(|size| four_engines(size, limit, small_engine)),
    )
}

/// What `verdict` prints as "pass 4 1" and "4 pass 4".
fn pass_at_4() -> Result<Judgement, Refusal> {
    let mut decisions = [(Decision::Open, 0); 6];
    decisions[3] = (Decision::Pass, 4);
    Ok(Judgement {
        verdict: Verdict::Pass,
        engine: 4,
        ground: Ground::Row,
        decisions,
    })
}

/// No engine yet: another at 0.
fn accepted() -> Result<Judgement, Refusal> {
    Ok(Judgement {
        verdict: Verdict::Another,
        engine: 0,
        ground: Ground::None,
        decisions: [(Decision::Open, 0); 6],
    })
}

/// One pollutant of this plan and limit, and a small engine.
fn declared(plan: u8, number: u8, limit: u32, small_engine: SmallEngine) -> Sheets {
    let deviation = u32::from(plan == 1);
    SIZES.map(|size| {
        let pollutant = pollutant(size, number, plan, limit, deviation);
        [pollutant, record(size, small_engine)].concat()
    })
}

#[test]
fn examples() {
    assert_eq!(answer(250, SMALL), pass_at_4());
    assert_eq!(answer(250, (699, 3001, 19_981_001)), refused(18, 1));
    assert_eq!(answer(250, (699, 3001, 19_980_931)), refused(17, 1));
    assert_eq!(answer(250, OTHER), refused(18, 1));
}

/// `verdict` prints no line for a small engine.
#[test]
fn printed_lines() {
    let printed = |small_engine| {
        let sheet = four_engines(FOUR_POLLUTANTS, 250, small_engine);
        lines(&Document01, &sheet)
    };
    assert_eq!(printed(SMALL), "pass 4 1\n4 pass 4\n");
    assert_eq!(printed((699, 3001, 19_981_001)), "refused 18 1\n");
    assert_eq!(printed((699, 3001, 19_980_931)), "refused 17 1\n");
    assert_eq!(printed(OTHER), "refused 18 1\n");
}

/// "Under 700 cm³ and above 3000 per minute, the particulate limit of production is 250 through
/// 19980930 and 150 after [..]; every other engine has 150." Volume and speed have no range.
#[test]
fn limits_of_the_rule() {
    for (volume, under) in [(0, true), (699, true), (700, false), (u16::MAX, false)] {
        for (speed, above) in [(0, false), (3000, false), (3001, true), (u16::MAX, true)] {
            for (date, through) in [(10_101, true), (LAST_DAY, true), (19_981_001, false)] {
                let rule = if under && above && through { 250 } else { 150 };
                let small_engine = (volume, speed, date);
                for limit in [1, 149, 150, 151, 249, 250, 251, 400, 9_999_999] {
                    let accepted = answer(limit, small_engine).map(|_| ());
                    let asked = if limit == rule {
                        Ok(())
                    } else {
                        refused(18, 1)
                    };
                    assert_eq!(accepted, asked, "{small_engine:?} with {limit}");
                }
            }
        }
    }
}

/// "A declared particulate limit": without pollutant 4 nothing is asked.
#[test]
fn without_particulates() {
    for small_engine in [SMALL, OTHER, (0, 0, 10_101)] {
        for limit in [1, 150, 250, 9_999_999] {
            for number in [1, 2, 3] {
                let sheets = declared(2, number, limit, small_engine);
                assert_eq!(judged(&Document01, &sheets), accepted());
            }
            for number in [5, 6] {
                let [_, sheet] = declared(2, number, limit, small_engine);
                assert_eq!(judge(&Document01, SIX_POLLUTANTS, &sheet), accepted());
            }
        }
    }
}

/// Of several pollutants the limit of particulates alone is asked.
#[test]
fn beside_other_pollutants() {
    let sheet = |size, limits: &[(u8, u32)]| {
        let mut sheet = Vec::new();
        for &(number, limit) in limits {
            sheet.extend(pollutant(size, number, 5, limit, 0));
        }
        sheet.extend(record(size, SMALL));
        sheet
    };
    let three = |[one, three, four]: [u32; 3]| {
        judged(
            &Document01,
            &SIZES.map(|size| sheet(size, &[(1, one), (3, three), (4, four)])),
        )
    };
    assert_eq!(three([150, 70, 250]), accepted());
    assert_eq!(three([250, 250, 150]), refused(18, 3));
    let of_six = |limits: &[(u8, u32)]| judge(&Document01, 28, &sheet(28, limits));
    assert_eq!(of_six(&[(4, 250), (5, 150), (6, 70)]), accepted());
    assert_eq!(of_six(&[(4, 150), (5, 250), (6, 250)]), refused(18, 3));
}

/// "17, date not in the Gregorian calendar of years 1 to 9999".
#[test]
fn dates() {
    let days = [
        (19_000_228, true),
        (19_000_229, false),
        (19_000_230, false),
        (19_960_228, true),
        (19_960_229, true),
        (19_960_230, false),
        (20_000_228, true),
        (20_000_229, true),
        (20_000_230, false),
        (21_000_228, true),
        (21_000_229, false),
        (21_000_230, false),
        (19_980_430, true),
        (19_980_431, false),
        (19_980_001, false),
        (19_981_301, false),
        (19_980_100, false),
        (101, false),
        (1231, false),
        (10_101, true),
        (15_821_010, true),
        (99_991_231, true),
        (100_000_101, false),
        (0, false),
        (u32::MAX, false),
    ];
    for (date, is_day) in days {
        let sheets = declared(3, 1, 100, (699, 3001, date));
        let asked = if is_day { accepted() } else { refused(17, 1) };
        assert_eq!(judged(&Document01, &sheets), asked, "{date}");
    }
}

/// Each month's last day, and the day behind it.
#[test]
fn last_days() {
    let months = [31, 28, 31, 30, 31, 30, 31, 31, 30, 31, 30, 31];
    for (month, last) in (1..).zip(months) {
        for (day, asked) in [(last, accepted()), (last + 1, refused(17, 1))] {
            let date = 19_990_000 + month * 100 + day;
            let sheets = declared(3, 1, 100, (0, 0, date));
            assert_eq!(judged(&Document01, &sheets), asked, "{date}");
        }
    }
}

/// "Allowed once, straight after the pollutant records".
#[test]
fn places() {
    for plan in [1, 2, 3, 5] {
        for (records, number, at) in [
            (&[1, 5, 5][..], 16, 2),
            (&[1, 2, 5], 16, 2),
            (&[1, 5, 2, 5], 16, 3),
            (&[1, 5, 1], 3, 2),
            (&[1, 5, 2, 1], 3, 3),
            (&[5], 3, 0),
            (&[5, 1], 3, 0),
            (&[1, 3, 5], 3, 2),
            (&[1, 5, 3, 5], 3, 3),
            (&[4], 2, 0),
            (&[1, 4], 2, 1),
            (&[1, 5, 4], 2, 2),
            (&[1, 5, 7], 2, 2),
        ] {
            assert_eq!(kinds(plan, records), refused(number, at), "{records:?}");
        }
        for (records, engines, ground) in [
            (&[1, 5][..], 0, Ground::None),
            (&[1, 5, 2], 1, Ground::None),
            (&[1, 5, 3], 0, Ground::Stopped),
            (&[1, 5, 2, 3], 1, Ground::Stopped),
        ] {
            let judgement = kinds(plan, records).expect("accepted");
            assert_eq!((judgement.engine, judgement.ground), (engines, ground));
        }
    }
}

/// "16, [..] or in plan 4", before 17.
#[test]
fn plan_4() {
    assert_eq!(kinds(4, &[1, 5]), refused(16, 1));
    assert_eq!(kinds(4, &[1, 2, 5]), refused(16, 2));
    assert_eq!(
        judged(&Document01, &declared(4, 4, 150, (699, 3001, 0))),
        refused(16, 1)
    );
    for plan in [1, 2, 3, 5] {
        let sheets = declared(plan, 4, 250, SMALL);
        assert_eq!(judged(&Document01, &sheets), accepted());
    }
}

/// "16, [..], after 3; 17, [..], after 16; 18, [..], after 17", and 12 behind them.
#[test]
fn order_of_refusals() {
    for size in SIZES {
        let faulty = |date, last_byte| {
            let mut record = record(size, (699, 3001, date));
            record[size - 1] = last_byte;
            record
        };
        let judged = |limit, before: &[u8], record: Vec<u8>| {
            let sheet = [&pollutant(size, 4, 3, limit, 0), before, &record].concat();
            judge(&Document01, size, &sheet)
        };
        assert_eq!(judged(150, &stop(size), faulty(0, 1)), refused(3, 2));
        let engine = engine(size, 0, &[(4, 140)]);
        assert_eq!(judged(150, &engine, faulty(0, 1)), refused(16, 2));
        assert_eq!(judged(150, &[], faulty(0, 1)), refused(17, 1));
        assert_eq!(judged(150, &[], faulty(LAST_DAY, 1)), refused(18, 1));
        assert_eq!(judged(250, &[], faulty(LAST_DAY, 1)), refused(12, 1));
        assert_eq!(judged(250, &[], faulty(LAST_DAY, 0)), accepted());
    }
}

/// "Bytes 2-3 swept volume [..], bytes 4-5 rated speed [..], bytes 8-11 test date [..], the others
/// zero under refusal 12", to byte 19 or 27.
#[test]
fn bytes_without_a_field() {
    for size in SIZES {
        let pollutant = pollutant(size, 1, 3, 100, 0);
        let mut sheet = [pollutant, record(size, (0, 0, 10_101))].concat();
        for byte in (1..8).chain(12..size) {
            let asked = match byte {
                2..6 => accepted(),
                _ => refused(12, 1),
            };
            sheet[size + byte] = 1;
            assert_eq!(judge(&Document01, size, &sheet), asked, "byte {byte}");
            sheet[size + byte] = 0;
        }
    }
}

/// "A sheet may hold 38 records", with F-2 one more, and with F-10 one of the new size two more.
/// Without kind 5 so many are refused by a record, never 1.
#[test]
fn most_records() {
    for (size, numbers) in SIZES
        .into_iter()
        .zip([&[1, 2, 3, 4][..], &[1, 2, 3, 4, 5, 6]])
    {
        let fullest = fullest(size, numbers);
        let most = numbers.len() + 35;
        let part = |first: usize, records: usize| &fullest[first * size..][..records * size];
        let pollutants = part(0, numbers.len());
        let (engine, run_in_engines) = (part(most - 2, 1), part(most - 34, 33));
        let stop = part(most - 1, 1);
        let without = |behind: [&[u8]; 2]| {
            let sheet = [pollutants, run_in_engines, &behind.concat()].concat();
            assert_eq!(sheet.len(), most * size);
            judge(&Document01, size, &sheet)
        };
        let last = most as u8 - 1;
        assert_eq!(fullest.len(), most * size);
        assert!(judge(&Document01, size, &fullest).is_ok());
        assert_eq!(without([stop, stop]), refused(3, last));
        assert_eq!(without([engine, stop]), refused(10, last - 1));
        assert_eq!(without([engine, engine]), refused(10, last - 1));
    }
}

/// "Sheets of up to 37 records without kind 5 are judged as before."
#[test]
fn without_a_small_engine() {
    for limit in [150, 151, 250, 9_999_999] {
        let sheets = SIZES.map(|size| {
            let mut sheet = four_engines(size, limit, OTHER);
            sheet.drain(size..2 * size);
            sheet
        });
        assert_eq!(judged(&Document01, &sheets), pass_at_4());
    }
}

/// "Through the deciding engine's record": the small engine's is one of those before it.
#[test]
fn evidence_with_a_small_engine() {
    for size in SIZES {
        let four = four_engines(size, 250, SMALL);
        let five = [&four[..], &engine(size, 0, &[(4, 140)])].concat();
        assert_eq!(evidence(&Document01, size, &four), Ok(&four[..]));
        assert_eq!(evidence(&Document01, size, &five), Ok(&four[..]));
        let open = &four[..5 * size];
        assert_eq!(evidence(&Document01, size, open), Ok(open));
        let stopped = [open, &stop(size)].concat();
        assert_eq!(evidence(&Document01, size, &stopped), Ok(&stopped[..]));
        let faulty = four_engines(size, 150, SMALL);
        assert_eq!(evidence(&Document01, size, &faulty), refused(18, 1));
    }
}

/// "Here and later, a sheet's new refusals stand with 1 to 12 in append": for the joined sheet.
#[test]
fn append_a_small_engine() {
    for size in SIZES {
        let append_to = |before: &[u8], small_engine| {
            let sheet = [&pollutant(size, 4, 3, 250, 0), before].concat();
            appended(size, &sheet, &record(size, small_engine))
        };
        let engine = engine(size, 0, &[(4, 140)]);
        assert_eq!(append_to(&[], SMALL), Ok(()));
        assert_eq!(append_to(&record(size, SMALL), SMALL), refused(16, 2));
        assert_eq!(append_to(&engine, SMALL), refused(16, 2));
        assert_eq!(append_to(&[], (699, 3001, 19_980_931)), refused(17, 1));
        assert_eq!(append_to(&[], OTHER), refused(18, 1));
        assert_eq!(append_to(&stop(size), SMALL), refused(3, 2));
        assert_eq!(appended(size, &[], &record(size, SMALL)), refused(3, 0));
    }
}

/// The same for the sheet there, whatever the record is, and even if there is no room for it in a
/// sheet.
#[test]
fn append_behind_a_small_engine() {
    for size in SIZES {
        let engine = engine(size, 0, &[(4, 140)]);
        let append_to = |small_engines: &[SmallEngine], added: &[u8]| {
            let mut sheet = pollutant(size, 4, 3, 250, 0);
            sheet.extend(small_engines.iter().flat_map(|&one| record(size, one)));
            appended(size, &sheet, added)
        };
        assert_eq!(append_to(&[SMALL], &engine), Ok(()));
        for added in [engine.clone(), stop(size), vec![9; size]] {
            assert_eq!(append_to(&[SMALL, SMALL], &added), refused(16, 2));
            assert_eq!(append_to(&[(699, 3001, 0)], &added), refused(17, 1));
            assert_eq!(append_to(&[OTHER], &added), refused(18, 1));
        }
        let mut full = fullest(size, &[1, 2, 3, 4]);
        full[4 * size..5 * size].copy_from_slice(&record(size, SMALL));
        full.resize(Document01.longest_sheet(size), 0);
        assert_eq!(appended(size, &full, &stop(size)), refused(18, 4));
    }
}

/// "Report: 15, [..]; then as judge."
#[test]
fn report_with_a_small_engine() {
    for size in SIZES {
        let mut output = vec![UNWRITTEN; size];
        let faulty = four_engines(size, 250, OTHER);
        let mut reported =
            |sheet: &[u8], room| report(&Document01, size, sheet, &mut output[..room]);
        assert_eq!(reported(&faulty, size - 1), refused(15, 0));
        assert_eq!(reported(&faulty, size), refused(18, 1));
        assert_eq!(reported(&four_engines(size, 250, SMALL), size), Ok(()));
        let mut expected = vec![0; size];
        expected[..4].copy_from_slice(&[16, 1, 1, 4]);
        expected[10..12].copy_from_slice(&[1, 4]);
        assert_eq!(output, expected);
    }
}

/// F-10: "Other fields keep their bytes", and "there and back gives the sheet".
#[test]
fn convert_a_small_engine() {
    for (size, other) in [
        (FOUR_POLLUTANTS, SIX_POLLUTANTS),
        (SIX_POLLUTANTS, FOUR_POLLUTANTS),
    ] {
        let mut output = vec![UNWRITTEN; 6 * other];
        let sheet = four_engines(size, 250, SMALL);
        assert_eq!(convert(&Document01, size, &sheet, &mut output), Ok(()));
        assert_eq!(output, four_engines(other, 250, SMALL));
        let faulty = four_engines(size, 150, SMALL);
        assert_eq!(convert(&Document01, size, &faulty, &mut []), refused(18, 1));
    }
}

#[test]
fn read_a_small_engine() {
    for size in SIZES {
        let sheet = four_engines(size, 250, (699, 3001, 0));
        let mut reader = Reader::new(&Document01, size, &sheet);
        reader.move_on();
        let small_engine = Step::SmallEngine {
            volume: 699,
            speed: 3001,
            date: 0,
        };
        assert_eq!((reader.left(), reader.step()), (5, small_engine));
    }
}
