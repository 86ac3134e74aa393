//! Wrong readings of the declared carbon dioxide.
//!
//! Some wrong readings are missing because no tests can tell them from others. 64-bit floats,
//! compared with 1.04 times the declared value, answer rightly for every value in the range. The
//! mean of two rounded up stands just where it stands against 104/100 rounded down. Where the
//! first test exceeds, the lower of the two lets the value stand just where the second does, and
//! the higher of the two never does.

use std::cmp::Ordering;

use super::{wrong, Wrong};
use crate::check::Refusal;
use crate::declared::{total, Approval};
use crate::document::{Document, Document01};

pub fn declared() -> Vec<Wrong> {
    let mut all = percentages();
    all.extend(roundings());
    all.extend(tests_compared());
    all.extend(values());
    all.extend(counts_refused());
    all.extend(values_refused());
    all.extend(late_tests());
    all.extend(order_of_refusals());
    all.extend(records());
    all.extend(written());
    all
}

/// The mean of the tests compared with so many hundredths of the declared value.
fn mean_to(hundredths: i128, declared: u32, tests: &[u32]) -> Ordering {
    let declared = tests.len() as i128 * i128::from(declared);
    (100 * total(tests)).cmp(&(hundredths * declared))
}

fn percentages() -> Vec<Wrong> {
    vec![
        wrong!(
            "declared: 105/100 for 104/100",
            fn percent(&self) -> i128 {
                5
            }
        ),
        wrong!(
            "declared: 103/100 for 104/100",
            fn percent(&self) -> i128 {
                3
            }
        ),
        wrong!(
            "declared: 4 % of the measured value",
            fn exceeds(&self, declared: u32, tests: &[u32]) -> bool {
                let sum = total(tests);
                let excess = sum - tests.len() as i128 * i128::from(declared);
                100 * excess > 4 * sum
            }
        ),
        wrong!(
            "declared: for the mean of two, half of 4 %",
            fn exceeds(&self, declared: u32, tests: &[u32]) -> bool {
                let excess = total(tests) - tests.len() as i128 * i128::from(declared);
                100 * excess > 4 * i128::from(declared)
            }
        ),
        wrong!(
            "declared: on the line the first test does not let it stand",
            fn exceeds(&self, declared: u32, tests: &[u32]) -> bool {
                let on_line = mean_to(104, declared, tests).is_eq();
                tests.len() == 1 && on_line || Document01.exceeds(declared, tests)
            }
        ),
        wrong!(
            "declared: on the line the mean of two does not let it stand",
            fn exceeds(&self, declared: u32, tests: &[u32]) -> bool {
                let on_line = mean_to(104, declared, tests).is_eq();
                tests.len() == 2 && on_line || Document01.exceeds(declared, tests)
            }
        ),
        wrong!(
            "declared: a first test over 4 % lower does not let it stand",
            fn exceeds(&self, declared: u32, tests: &[u32]) -> bool {
                let low = mean_to(96, declared, tests).is_lt();
                tests.len() == 1 && low || Document01.exceeds(declared, tests)
            }
        ),
        wrong!(
            "declared: a mean of two over 4 % lower does not let it stand",
            fn exceeds(&self, declared: u32, tests: &[u32]) -> bool {
                let low = mean_to(96, declared, tests).is_lt();
                tests.len() == 2 && low || Document01.exceeds(declared, tests)
            }
        ),
    ]
}

/// "Compared exactly".
fn roundings() -> Vec<Wrong> {
    vec![
        wrong!(
            "declared: the mean of two rounded down",
            fn exceeds(&self, declared: u32, tests: &[u32]) -> bool {
                let mean = tests.iter().sum::<u32>() / tests.len() as u32;
                Document01.exceeds(declared, &[mean])
            }
        ),
        wrong!(
            "declared: 104/100 of the declared value rounded down",
            fn exceeds(&self, declared: u32, tests: &[u32]) -> bool {
                let most = 104 * i128::from(declared) / 100;
                total(tests) > tests.len() as i128 * most
            }
        ),
        wrong!(
            "declared: 104/100 of the declared value rounded up",
            fn exceeds(&self, declared: u32, tests: &[u32]) -> bool {
                let most = (104 * i128::from(declared) + 99) / 100;
                total(tests) > tests.len() as i128 * most
            }
        ),
        wrong!(
            "declared: the excess in whole percent",
            fn exceeds(&self, declared: u32, tests: &[u32]) -> bool {
                mean_to(105, declared, tests).is_ge()
            }
        ),
        wrong!(
            "declared: compared in 32-bit floats",
            fn exceeds(&self, declared: u32, tests: &[u32]) -> bool {
                let mean = total(tests) as f32 / tests.len() as f32;
                mean > 1.04 * declared as f32
            }
        ),
    ]
}

fn tests_compared() -> Vec<Wrong> {
    vec![
        wrong!(
            "declared: the second test alone for the mean of two",
            fn exceeds(&self, declared: u32, tests: &[u32]) -> bool {
                Document01.exceeds(declared, &tests[tests.len() - 1..])
            }
        ),
        wrong!(
            "declared: the mean of two never lets it stand",
            fn exceeds(&self, declared: u32, tests: &[u32]) -> bool {
                tests.len() == 2 || Document01.exceeds(declared, tests)
            }
        ),
        wrong!(
            "declared: the first test never lets it stand",
            fn exceeds(&self, declared: u32, tests: &[u32]) -> bool {
                tests.len() == 1 || Document01.exceeds(declared, tests)
            }
        ),
        wrong!(
            "declared: the mean of three lets it stand too",
            fn mean_of_three(&self, declared: u32, tests: [u32; 3]) -> Approval {
                if self.exceeds(declared, &tests) {
                    Document01.mean_of_three(declared, tests)
                } else {
                    self.standing(declared, &tests)
                }
            }
        ),
        wrong!(
            "declared: a fourth test where the mean of three exceeds",
            fn mean_of_three(&self, declared: u32, tests: [u32; 3]) -> Approval {
                if self.exceeds(declared, &tests) {
                    Approval::Another
                } else {
                    Document01.mean_of_three(declared, tests)
                }
            }
        ),
    ]
}

/// "Sum and count".
fn values() -> Vec<Wrong> {
    vec![
        wrong!(
            "declared: standing by two, sum and count of the two",
            fn standing(&self, declared: u32, tests: &[u32]) -> Approval {
                match *tests {
                    [first, second] => Approval::Value {
                        sum: first + second,
                        count: 2,
                    },
                    _ => Document01.standing(declared, tests),
                }
            }
        ),
        wrong!(
            "declared: standing by two, count 2",
            fn standing(&self, declared: u32, tests: &[u32]) -> Approval {
                Approval::Value {
                    sum: declared,
                    count: tests.len() as u32,
                }
            }
        ),
        wrong!(
            "declared: standing by the first, the first test's value",
            fn standing(&self, declared: u32, tests: &[u32]) -> Approval {
                match *tests {
                    [first] => Approval::Value {
                        sum: first,
                        count: 1,
                    },
                    _ => Document01.standing(declared, tests),
                }
            }
        ),
        wrong!(
            "declared: three tests, the sum of the last two and 3",
            fn mean_of_three(&self, _: u32, [_, second, third]: [u32; 3]) -> Approval {
                Approval::Value {
                    sum: second + third,
                    count: 3,
                }
            }
        ),
        wrong!(
            "declared: three tests, their sum and 2",
            fn mean_of_three(&self, _: u32, tests: [u32; 3]) -> Approval {
                Approval::Value {
                    sum: tests.iter().sum(),
                    count: 2,
                }
            }
        ),
        wrong!(
            "declared: three tests, the third and 1",
            fn mean_of_three(&self, _: u32, [_, _, third]: [u32; 3]) -> Approval {
                Approval::Value {
                    sum: third,
                    count: 1,
                }
            }
        ),
        wrong!(
            "declared: three tests, their mean rounded down and 1",
            fn mean_of_three(&self, _: u32, tests: [u32; 3]) -> Approval {
                Approval::Value {
                    sum: tests.iter().sum::<u32>() / 3,
                    count: 1,
                }
            }
        ),
        wrong!(
            "declared: three tests, a sum of three bytes",
            fn mean_of_three(&self, _: u32, tests: [u32; 3]) -> Approval {
                Approval::Value {
                    sum: tests.iter().sum::<u32>() % (1 << 24),
                    count: 3,
                }
            }
        ),
    ]
}

/// "20, no tests or more than three".
fn counts_refused() -> Vec<Wrong> {
    vec![
        wrong!(
            "declared: no tests answered with another",
            fn test_count_fits(&self, count: usize) -> bool {
                count <= 3
            }
        ),
        wrong!(
            "declared: three tests refused",
            fn test_count_fits(&self, count: usize) -> bool {
                (1..=2).contains(&count)
            }
        ),
        wrong!(
            "declared: four tests accepted, the fourth counted for nothing",
            fn test_count_fits(&self, count: usize) -> bool {
                (1..=4).contains(&count)
            }
        ),
        wrong!(
            "declared: more than four tests accepted",
            fn test_count_fits(&self, count: usize) -> bool {
                count != 0 && count != 4
            }
        ),
        wrong!(
            "declared: the number of tests taken in one byte",
            fn test_count_fits(&self, count: usize) -> bool {
                (1..=3).contains(&(count % 256))
            }
        ),
    ]
}

/// "21, value out of range".
fn values_refused() -> Vec<Wrong> {
    vec![
        wrong!(
            "declared: a declared value of 9,999,999 refused",
            fn declared_fits(&self, declared: u32) -> bool {
                (1..9_999_999).contains(&declared)
            }
        ),
        wrong!(
            "declared: a test of 9,999,999 refused",
            fn test_fits(&self, test: u32) -> bool {
                (1..9_999_999).contains(&test)
            }
        ),
        wrong!(
            "declared: a declared value of 10,000,000 accepted",
            fn declared_fits(&self, declared: u32) -> bool {
                (1..=10_000_000).contains(&declared)
            }
        ),
        wrong!(
            "declared: a test of 10,000,000 accepted",
            fn test_fits(&self, test: u32) -> bool {
                (1..=10_000_000).contains(&test)
            }
        ),
        wrong!(
            "declared: a declared value of 0 accepted",
            fn declared_fits(&self, declared: u32) -> bool {
                declared <= 9_999_999
            }
        ),
        wrong!(
            "declared: a test of 0 accepted",
            fn test_fits(&self, test: u32) -> bool {
                test <= 9_999_999
            }
        ),
        wrong!(
            "declared: the range of the declared value not looked at",
            fn declared_fits(&self, _: u32) -> bool {
                true
            }
        ),
        wrong!(
            "declared: the range of the tests not looked at",
            fn test_fits(&self, _: u32) -> bool {
                true
            }
        ),
        wrong!(
            "declared: the range of a third test not looked at",
            fn values_fit(&self, declared: u32, tests: &[u32]) -> bool {
                Document01.values_fit(declared, &tests[..tests.len().min(2)])
            }
        ),
        wrong!(
            "declared: the range of the last test only looked at",
            fn values_fit(&self, declared: u32, tests: &[u32]) -> bool {
                Document01.values_fit(declared, &tests[tests.len() - 1..])
            }
        ),
    ]
}

/// "22, a test after the decision".
fn late_tests() -> Vec<Wrong> {
    vec![
        wrong!(
            "declared: a late second test accepted",
            fn has_late_test(&self, declared: u32, tests: &[u32]) -> bool {
                tests.len() != 2 && Document01.has_late_test(declared, tests)
            }
        ),
        wrong!(
            "declared: a late third test accepted where the first let it stand",
            fn has_late_test(&self, declared: u32, tests: &[u32]) -> bool {
                let by_first = tests.len() == 3 && !self.exceeds(declared, &tests[..1]);
                !by_first && Document01.has_late_test(declared, tests)
            }
        ),
        wrong!(
            "declared: a late third test accepted where the mean of two let it stand",
            fn has_late_test(&self, declared: u32, tests: &[u32]) -> bool {
                tests.len() > 1 && !self.exceeds(declared, &tests[..1])
            }
        ),
        wrong!(
            "declared: a third test late by the mean of two only",
            fn has_late_test(&self, declared: u32, tests: &[u32]) -> bool {
                let before = tests.len() - 1;
                before > 0 && !self.exceeds(declared, &tests[..before])
            }
        ),
        wrong!(
            "declared: a test is late also where the value stands by it",
            fn has_late_test(&self, declared: u32, tests: &[u32]) -> bool {
                let by_two = tests.len() == 2 && !self.exceeds(declared, tests);
                by_two || Document01.has_late_test(declared, tests)
            }
        ),
    ]
}

fn order_of_refusals() -> Vec<Wrong> {
    vec![
        wrong!(
            "declared: 21 before 20",
            fn approval_fault(&self, declared: u32, tests: &[u32]) -> Option<u8> {
                if !self.values_fit(declared, tests) {
                    Some(21)
                } else {
                    Document01.approval_fault(declared, tests)
                }
            }
        ),
        wrong!(
            "declared: 22 before 21",
            fn approval_fault(&self, declared: u32, tests: &[u32]) -> Option<u8> {
                match Document01.approval_fault(declared, tests) {
                    Some(21) if self.has_late_test(declared, tests) => Some(22),
                    fault => fault,
                }
            }
        ),
        wrong!(
            "declared: 22 before 20",
            fn approval_fault(&self, declared: u32, tests: &[u32]) -> Option<u8> {
                match Document01.approval_fault(declared, tests) {
                    Some(20) if self.has_late_test(declared, tests) => Some(22),
                    fault => fault,
                }
            }
        ),
        wrong!(
            "declared: 22 for a fourth test",
            fn approval_fault(&self, declared: u32, tests: &[u32]) -> Option<u8> {
                match Document01.approval_fault(declared, tests) {
                    Some(20) if !tests.is_empty() => Some(22),
                    fault => fault,
                }
            }
        ),
    ]
}

/// "A refusal that names no record, here or later, returns record 0."
fn records() -> Vec<Wrong> {
    vec![
        wrong!(
            "declared: record 1 for refusal 22",
            fn approval_refusal(&self, number: u8, _: &[u32]) -> Refusal {
                let record = u8::from(number == 22);
                Refusal { number, record }
            }
        ),
        wrong!(
            "declared: refusal 21 names the test",
            fn approval_refusal(&self, number: u8, tests: &[u32]) -> Refusal {
                let unfit = tests.iter().position(|&test| !self.test_fits(test));
                let record = match number {
                    21 => unfit.unwrap_or(0) as u8,
                    _ => 0,
                };
                Refusal { number, record }
            }
        ),
        wrong!(
            "declared: refusal 20 gives the number of tests",
            fn approval_refusal(&self, number: u8, tests: &[u32]) -> Refusal {
                let record = match number {
                    20 => tests.len() as u8,
                    _ => 0,
                };
                Refusal { number, record }
            }
        ),
        wrong!(
            "declared: a refusal returns its number alone",
            fn approval_code(&self, refusal: Refusal) -> u32 {
                u32::from(refusal.number)
            }
        ),
    ]
}

fn written() -> Vec<Wrong> {
    vec![
        wrong!(
            "declared: a refusal writes 0 and 0",
            fn written(&self, answer: Result<Approval, Refusal>) -> [Option<u32>; 2] {
                Document01.written(answer).map(|number| number.or(Some(0)))
            }
        ),
        wrong!(
            "declared: refusal 22 writes 0 and 0",
            fn written(&self, answer: Result<Approval, Refusal>) -> [Option<u32>; 2] {
                match answer {
                    Err(Refusal { number: 22, .. }) => [Some(0), Some(0)],
                    _ => Document01.written(answer),
                }
            }
        ),
        wrong!(
            "declared: another test writes nothing",
            fn written(&self, answer: Result<Approval, Refusal>) -> [Option<u32>; 2] {
                match answer {
                    Ok(Approval::Another) => [None, None],
                    _ => Document01.written(answer),
                }
            }
        ),
        wrong!(
            "declared: another test writes the sum only",
            fn written(&self, answer: Result<Approval, Refusal>) -> [Option<u32>; 2] {
                match answer {
                    Ok(Approval::Another) => [Some(0), None],
                    _ => Document01.written(answer),
                }
            }
        ),
        wrong!(
            "declared: another test writes 0 and 1",
            fn written(&self, answer: Result<Approval, Refusal>) -> [Option<u32>; 2] {
                match answer {
                    Ok(Approval::Another) => [Some(0), Some(1)],
                    _ => Document01.written(answer),
                }
            }
        ),
        wrong!(
            "declared: sum and divisor exchanged",
            fn written(&self, answer: Result<Approval, Refusal>) -> [Option<u32>; 2] {
                let [sum, divisor] = Document01.written(answer);
                [divisor, sum]
            }
        ),
    ]
}
