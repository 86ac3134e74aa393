//! Document 02, F-10: records of 28 bytes with six pollutants beside those of 20, and the
//! converter.

mod records;

use records::{engine, fullest, pollutant, refused, stop, UNWRITTEN};
use second::{append, convert, evidence, judge, report};
use second::{Decision, Document, Document01, Ground, Judgement, Refusal, Verdict};
use second::{FOUR_POLLUTANTS, SIX_POLLUTANTS, SIZES};

/// Sizes that are none.
const NO_SIZES: [usize; 9] = [0, 1, 19, 21, 24, 27, 29, (1 << 32) + 20, usize::MAX];

/// Pollutants 1 and 6 under plan 3, limits 100 and 50, and four engines at 90 and 50.
fn six_pollutants() -> Vec<u8> {
    let mut sheet = pollutant(28, 1, 3, 100, 0);
    sheet.extend(pollutant(28, 6, 3, 50, 0));
    sheet.extend(engine(28, 0, &[(1, 90), (6, 50)]).repeat(4));
    sheet
}

/// Document 01's printed example: particulates, limit 150, four engines at 140.
fn printed_example(size: usize) -> Vec<u8> {
    let mut sheet = pollutant(size, 4, 3, 150, 0);
    sheet.extend(engine(size, 0, &[(4, 140)]).repeat(4));
    sheet
}

/// The sheet in the other size, and what the output holds behind it.
fn converted(size: usize, sheet: &[u8], room: usize) -> Result<Vec<u8>, Refusal> {
    let mut output = vec![UNWRITTEN; room];
    let answer = convert(&Document01, size, sheet, &mut output);
    if answer.is_err() {
        assert_eq!(
            output,
            vec![UNWRITTEN; room],
            "a refused call writes nothing"
        );
    }
    answer.map(|()| output)
}

#[test]
fn report_of_six_pollutants() {
    let mut output = [UNWRITTEN; 30];
    let answer = report(&Document01, 28, &six_pollutants(), &mut output);
    assert_eq!(answer, Ok(()));
    let mut expected = [0; 30];
    expected[..6].copy_from_slice(&[16, 1, 1, 4, 1, 4]);
    expected[14..16].copy_from_slice(&[1, 4]);
    expected[28..].fill(UNWRITTEN);
    assert_eq!(output, expected);
}

/// Pass at 4, by pollutants 1 and 6, and evidence to the end.
#[test]
fn judgement_of_six_pollutants() {
    let sheet = six_pollutants();
    let mut decisions = [(Decision::Open, 0); 6];
    decisions[0] = (Decision::Pass, 4);
    decisions[5] = (Decision::Pass, 4);
    let judgement = Judgement {
        verdict: Verdict::Pass,
        engine: 4,
        ground: Ground::Row,
        decisions,
    };
    assert_eq!(judge(&Document01, 28, &sheet), Ok(judgement));
    assert_eq!(evidence(&Document01, 28, &sheet), Ok(&sheet[..]));
}

/// "All answers for pollutants 1 to 4 stay equal", and 5 and 6 are open.
#[test]
fn answers_stay_equal() {
    let [four, six] = SIZES.map(|size| judge(&Document01, size, &printed_example(size)));
    assert_eq!(four, six);
    let [five, six] = six.expect("accepted").decisions[4..] else {
        panic!("six decisions");
    };
    assert_eq!([five, six], [(Decision::Open, 0); 2]);
}

/// "31, narrowing a sheet that declares pollutant 5 or 6, after the sheet's checks".
#[test]
fn too_narrow() {
    assert_eq!(converted(28, &six_pollutants(), 120), refused(31, 0));
    for number in [5, 6] {
        let declared = pollutant(28, number, 3, 50, 0);
        assert_eq!(converted(28, &declared, 28), refused(31, 0));
        let with_fault = [declared, vec![4; 28]].concat();
        assert_eq!(converted(28, &with_fault, 40), refused(2, 1));
    }
    assert!(converted(28, &pollutant(28, 4, 3, 50, 0), 20).is_ok());
}

/// "32, converter output too short, after 31".
#[test]
fn too_short() {
    let sheet = printed_example(20);
    let widened = converted(20, &sheet, 140).expect("accepted");
    assert_eq!(widened, printed_example(28));
    assert_eq!(converted(20, &sheet, 139), refused(32, 0));
    assert_eq!(converted(20, &sheet, 0), refused(32, 0));
    assert_eq!(converted(28, &widened, 99), refused(32, 0));
    assert_eq!(converted(28, &six_pollutants(), 0), refused(31, 0));
}

/// "Output bytes past the sheet untouched", and "there and back gives the sheet".
#[test]
fn there_and_back() {
    let sheet = printed_example(20);
    let widened = converted(20, &sheet, 143).expect("accepted");
    assert_eq!(widened[140..], [UNWRITTEN; 3]);
    let back = converted(28, &widened[..140], 101).expect("accepted");
    assert_eq!(back[..100], sheet);
    assert_eq!(back[100], UNWRITTEN);
}

/// "30, size not 20 or 28, before every other": here before 1, 13, 14, 15, 2 and 32.
#[test]
fn no_sizes() {
    for size in NO_SIZES {
        assert_eq!(judge(&Document01, size, &[]), refused(30, 0));
        assert_eq!(
            judge(&Document01, size, &printed_example(20)),
            refused(30, 0)
        );
        assert_eq!(evidence(&Document01, size, &[9]), refused(30, 0));
        assert_eq!(report(&Document01, size, &[], &mut []), refused(30, 0));
        let appended = append(&Document01, size, &mut [], usize::MAX, &[]);
        assert_eq!(appended, refused(30, 0));
        assert_eq!(converted(size, &printed_example(28), 0), refused(30, 0));
    }
}

/// "13 to 15 count 28 bytes for the new size".
#[test]
fn bytes_counted() {
    for size in SIZES {
        let record = pollutant(size, 1, 3, 100, 0);
        let mut buffer = vec![UNWRITTEN; size];
        let mut append = |room, record: &[u8]| {
            let answer = append(&Document01, size, &mut buffer[..room], 0, record);
            answer.map_err(|refusal| refusal.number)
        };
        assert_eq!(append(size - 1, &record), Err(13));
        assert_eq!(append(size, &record[..size - 1]), Err(14));
        assert_eq!(append(size, &record), Ok(()));
        let mut report = |room| {
            let answer = report(&Document01, size, &record, &mut buffer[..room]);
            answer.map_err(|refusal| refusal.number)
        };
        assert_eq!(report(size - 1), Err(15));
        assert_eq!(report(size), Ok(()));
    }
}

/// "A gross emitter is a vehicle with 2x > 3L for some pollutant", also for 5 and 6.
#[test]
fn gross_emitters() {
    for number in 1..=6u8 {
        let vehicle = |cause, x| engine(28, cause, &[(number.into(), x)]);
        let judged = |vehicles: &[Vec<u8>]| {
            let sheet = [pollutant(28, number, 4, 1000, 0), vehicles.concat()].concat();
            judge(&Document01, 28, &sheet).map(|judgement| judgement.ground)
        };
        assert_eq!(judged(&[vehicle(0, 1500)]), Ok(Ground::None));
        assert_eq!(judged(&[vehicle(0, 1501)]), refused(9, 1));
        assert_eq!(judged(&[vehicle(7, 1500)]), refused(9, 1));
        let equal = [vehicle(7, 1501), vehicle(7, 1501), vehicle(0, 900)];
        assert_eq!(judged(&equal), Ok(Ground::EqualCause));
    }
}

/// "A sheet of the new size holds two records more than the old maximum", which with F-1 and F-2 is
/// 39.
#[test]
fn most_records() {
    let four = fullest(20, &[1, 2, 3, 4]);
    let six = fullest(28, &[1, 2, 3, 4, 5, 6]);
    assert_eq!((four.len(), six.len()), (39 * 20, 41 * 28));
    for (size, mut sheet) in SIZES.into_iter().zip([four, six]) {
        assert!(judge(&Document01, size, &sheet).is_ok());
        sheet.extend(stop(size));
        assert_eq!(judge(&Document01, size, &sheet), refused(1, 0));
    }
}

/// A sheet of 28-byte records that declares neither pollutant 5 nor 6 has no more records than a
/// sheet of 20-byte records can have.
#[test]
fn most_records_of_four_pollutants() {
    let sheet = fullest(28, &[1, 2, 3, 4]);
    assert_eq!(sheet.len() / 28, Document01.most_records(20));
    assert!(judge(&Document01, 28, &sheet).is_ok());
    let others = [4, 5, 6, 38].map(|at| sheet[28 * at..][..28].to_vec());
    let mut records: Vec<Vec<u8>> = (0..=255).map(|n| pollutant(28, n, 1, 150, 1)).collect();
    records.extend(others);
    for record in records {
        for at in 0..=39 {
            let (before, behind) = sheet.split_at(at * 28);
            let longer = [before, &record, behind].concat();
            assert!(judge(&Document01, 28, &longer).is_err());
        }
    }
    assert!(converted(28, &sheet, 39 * 20).is_ok());
}

/// "Other fields keep their bytes with the new ones zero or measurements 5 and 6".
#[test]
fn bytes_without_a_field() {
    let sheet = [pollutant(28, 1, 3, 100, 0), stop(28)].concat();
    for byte in [3].into_iter().chain(12..28) {
        let mut sheet = sheet.clone();
        sheet[byte] = 1;
        assert_eq!(judge(&Document01, 28, &sheet), refused(12, 0));
    }
    for byte in 1..28 {
        let mut sheet = sheet.clone();
        sheet[28 + byte] = 1;
        assert_eq!(judge(&Document01, 28, &sheet), refused(12, 1));
    }
    for number in 2..=6 {
        let undeclared = engine(28, 0, &[(1, 90), (number, 1)]);
        let sheet = [pollutant(28, 1, 3, 100, 0), undeclared].concat();
        assert_eq!(judge(&Document01, 28, &sheet), refused(8, 1));
    }
}

/// "Pollutant numbers run to 6" in records of 28 bytes.
#[test]
fn pollutant_numbers() {
    for (size, last) in [(FOUR_POLLUTANTS, 4), (SIX_POLLUTANTS, 6)] {
        for number in 0..=255 {
            let record = pollutant(size, number, 3, 100, 0);
            let accepted = judge(&Document01, size, &record).is_ok();
            assert_eq!(accepted, (1..=last).contains(&number), "{number}");
        }
    }
}
