//! Document 02, F-4: cases on the line and the order of the refusals, by `approve` and by the call
//! as C sees it; and its sentence about lower tests.

use second::{approve, declared, Approval, Document01, Refusal};

/// What sum and divisor hold before a call; no case writes these.
const BEFORE: (u32, u32) = (7_000_001, 7_000_002);

const ANOTHER: Result<Approval, Refusal> = Ok(Approval::Another);

fn value(sum: u32, count: u32) -> Result<Approval, Refusal> {
    Ok(Approval::Value { sum, count })
}

fn refused(number: u8) -> Result<Approval, Refusal> {
    Err(Refusal { number, record: 0 })
}

/// What the call returns, and sum and divisor after it.
fn call(value: u32, tests: &[u32]) -> (u32, u32, u32) {
    let (mut sum, mut divisor) = BEFORE;
    let code = declared(&Document01, value, tests, &mut sum, &mut divisor);
    (code, sum, divisor)
}

fn assert_answer(value: u32, tests: &[u32], answer: Result<Approval, Refusal>) {
    let seen_in_c = match answer {
        Ok(Approval::Another) => (0, 0, 0),
        Ok(Approval::Value { sum, count }) => (0, sum, count),
        Err(refusal) => (u32::from(refusal.number) * 256, BEFORE.0, BEFORE.1),
    };
    assert_eq!(approve(&Document01, value, tests), answer, "{tests:?}");
    assert_eq!(call(value, tests), seen_in_c, "{tests:?}");
}

#[test]
fn on_the_line() {
    assert_answer(100_000, &[104_000], value(100_000, 1));
    assert_answer(100_000, &[1], value(100_000, 1));
    assert_answer(100_000, &[104_001], ANOTHER);
    assert_answer(100_000, &[104_001, 103_999], value(100_000, 1));
    assert_answer(100_000, &[104_001, 104_000], ANOTHER);
    assert_answer(100_000, &[104_001, 104_000, 90_000], value(298_001, 3));
    assert_answer(25, &[26], value(25, 1));
    assert_answer(25, &[27], ANOTHER);
    assert_answer(1, &[9_999_999; 3], value(29_999_997, 3));
    assert_answer(9_999_999, &[9_999_999], value(9_999_999, 1));
}

#[test]
fn refusals() {
    assert_answer(100_000, &[], refused(20));
    assert_answer(100_000, &[104_001; 4], refused(20));
    assert_answer(100_000, &[0], refused(21));
    assert_answer(100_000, &[104_001, 104_001, 10_000_000], refused(21));
    assert_answer(0, &[1], refused(21));
    assert_answer(10_000_000, &[1], refused(21));
    assert_answer(100_000, &[104_000, 1], refused(22));
    assert_answer(100_000, &[104_000, 104_001, 1], refused(22));
    assert_answer(100_000, &[104_001, 103_999, 1], refused(22));
}

#[test]
fn order_of_refusals() {
    assert_answer(0, &[], refused(20));
    assert_answer(100_000, &[104_000, 1, 1, 0], refused(20));
    assert_answer(100_000, &[104_000, 0], refused(21));
    assert_answer(100_000, &[104_000, 1, u32::MAX], refused(21));
    assert_answer(100_000, &[0, 1], refused(21));
}

/// "Where the declared value stood after k tests, with some of them lower it stands for their
/// first k or for a shorter beginning of them."
#[test]
fn lower_tests() {
    let stands = |tests: &[u32]| approve(&Document01, 25, tests) == value(25, 1);
    let pairs = lists(&Vec::from_iter(1..=40), 2);
    for tests in pairs.iter().filter(|tests| stands(tests)) {
        for lower in pairs.iter().filter(|lower| lower.len() == tests.len()) {
            if lower.iter().zip(tests).all(|(low, test)| low <= test) {
                assert!((1..=lower.len()).any(|k| stands(&lower[..k])), "{lower:?}");
            }
        }
    }
}

/// Every list of these values, up to a length.
fn lists(values: &[u32], longest: usize) -> Vec<Vec<u32>> {
    let mut all = vec![vec![]];
    let mut begin = 0;
    for _ in 0..longest {
        let end = all.len();
        for beginning in begin..end {
            for &value in values {
                let mut list = all[beginning].clone();
                list.push(value);
                all.push(list);
            }
        }
        begin = end;
    }
    all
}
