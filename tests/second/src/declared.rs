//! Document 02, F-4, "Declared carbon dioxide": goes through the tests of one vehicle as document
//! 004, 6.5, tells it.

use crate::check::Refusal;
use crate::document::Document;

/// "The answer is another test, or sum and count".
#[derive(Clone, Copy, Debug, PartialEq, Eq)]
pub enum Approval {
    Another,
    Value { sum: u32, count: u32 },
}

pub fn approve<D: Document + ?Sized>(
    document: &D,
    declared: u32,
    tests: &[u32],
) -> Result<Approval, Refusal> {
    match document.approval_fault(declared, tests) {
        Some(number) => Err(document.approval_refusal(number, tests)),
        None => Ok(interpretation(document, declared, tests)),
    }
}

/// "Interpretation of the results", test by test.
fn interpretation<D: Document + ?Sized>(document: &D, declared: u32, tests: &[u32]) -> Approval {
    let &[first, ref rest @ ..] = tests else {
        return Approval::Another;
    };
    // 6.5.1, the first test.
    if !document.exceeds(declared, &[first]) {
        return document.standing(declared, &[first]);
    }
    let &[second, ref rest @ ..] = rest else {
        return Approval::Another;
    };
    // 6.5.2, the average of two.
    if !document.exceeds(declared, &[first, second]) {
        return document.standing(declared, &[first, second]);
    }
    let &[third, ..] = rest else {
        return Approval::Another;
    };
    // 6.5.3, the average of three.
    document.mean_of_three(declared, [first, second, third])
}

/// The call as C sees it: returns 0, or "number x 256 + record" of the refusal.
pub fn declared<D: Document + ?Sized>(
    document: &D,
    declared: u32,
    tests: &[u32],
    sum: &mut u32,
    divisor: &mut u32,
) -> u32 {
    let answer = approve(document, declared, tests);
    let [written_sum, written_divisor] = document.written(answer);
    *sum = written_sum.unwrap_or(*sum);
    *divisor = written_divisor.unwrap_or(*divisor);
    match answer {
        Ok(_) => 0,
        Err(refusal) => document.approval_code(refusal),
    }
}

/// The sum of the tests, wide enough for any of them.
pub(crate) fn total(tests: &[u32]) -> i128 {
    tests.iter().map(|&test| i128::from(test)).sum()
}
