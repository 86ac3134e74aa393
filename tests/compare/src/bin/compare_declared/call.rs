//! One call of declared, of the delivered library and of the second implementation.

use compare::memory::{numbers_in, Edge, Empty, Lender};
use entries::conformity_declared;
use second::{declared, Document};

/// What a call returns, and sum and divisor after it.
pub type Answer = (u32, [u32; 2]);

/// What sum and divisor hold before it: no answer has these.
const UNWRITTEN: [u32; 2] = [0xA5A5_A5A5, 0x5A5A_5A5A];

/// The library's answer, on slices of Rust's.
pub fn library_answer(value: u32, tests: &[u32]) -> Answer {
    let [mut sum, mut divisor] = UNWRITTEN;
    // SAFETY: the tests are a slice with its length; each number is a variable of its own.
    let code =
        unsafe { conformity_declared(value, tests.as_ptr(), tests.len(), &mut sum, &mut divisor) };
    (code, [sum, divisor])
}

/// The library's answer, on lent memory, where no tests are handed over in one of two ways.
pub fn lent_answer(
    empty: Empty,
    value: u32,
    tests: &[u32],
    lender: &mut impl Lender,
    edge: Edge,
) -> Answer {
    let bytes = |numbers: &[u32]| -> Vec<u8> {
        let bytes = numbers.iter().map(|number| number.to_ne_bytes());
        bytes.flatten().collect()
    };
    let call =
        |tests: &[u8], written: &mut [u8]| call_on_bytes(empty.place(tests), value, tests, written);
    let (code, written) = lender.lend(&bytes(tests), &bytes(&UNWRITTEN), edge, call);
    (code, numbers_in(&written))
}

/// The place is that of the tests, or NULL where there are none.
fn call_on_bytes(place: *const u8, value: u32, tests: &[u8], written: &mut [u8]) -> u32 {
    let place = place.cast::<u32>();
    let numbers = written.as_mut_ptr().cast::<u32>();
    assert!(place.is_aligned() || tests.is_empty());
    assert!(numbers.is_aligned() && written.len() == 8);
    // SAFETY: the tests are whole numbers, or there are none, and `written` has two numbers.
    unsafe { conformity_declared(value, place, tests.len() / 4, numbers, numbers.add(1)) }
}

/// The answer of the second implementation by some document.
pub fn answer_of<D: Document + ?Sized>(document: &D, value: u32, tests: &[u32]) -> Answer {
    let [mut sum, mut divisor] = UNWRITTEN;
    let code = declared(document, value, tests, &mut sum, &mut divisor);
    (code, [sum, divisor])
}
