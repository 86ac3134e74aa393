//! Whole numbers of any length, exact: what squaring, and counting binary digits, needs.

use std::iter::repeat;

/// In words of 64 binary digits, the lowest first. The last word is not zero.
pub struct Natural(Vec<u64>);

/// Up to so many words a number is squared word by word.
const SHORT: usize = 64;

impl Natural {
    /// Of a number above zero.
    pub fn new(number: u32) -> Self {
        Natural(vec![number.into()])
    }

    pub fn squared(&self) -> Self {
        let mut square = vec![0; 2 * self.0.len()];
        square_into(&self.0, &mut square);
        let length = square.iter().rposition(|&word| word != 0);
        square.truncate(length.map_or(0, |last| last + 1));
        Natural(square)
    }

    pub fn binary_digits(&self) -> u64 {
        let unused = self.0.last().map_or(0, |word| word.leading_zeros());
        64 * self.0.len() as u64 - u64::from(unused)
    }

    pub fn remainder(&self, divisor: u64) -> u64 {
        let words = self.0.iter().rev();
        words.fold(0, |rest, &word| {
            let joined = u128::from(rest) << 64 | u128::from(word);
            (joined % u128::from(divisor)) as u64
        })
    }
}

/// Writes the square of x, which has twice as many words. A long x is `low` and `high` halves, and
/// twice their product is low^2 + high^2 - (low - high)^2: three squares of half the length
/// (Karatsuba).
fn square_into(x: &[u64], square: &mut [u64]) {
    if x.len() <= SHORT {
        return square_short_into(x, square);
    }
    let half = x.len().div_ceil(2);
    let (low, high) = x.split_at(half);
    let (low_square, high_square) = square.split_at_mut(2 * half);
    square_into(low, low_square);
    square_into(high, high_square);
    let mut apart = vec![0; 2 * half];
    square_into(&distance(low, high), &mut apart);
    let mut middle = low_square.to_vec();
    middle.push(0);
    add(&mut middle, high_square);
    subtract(&mut middle, &apart);
    add(&mut square[half..], &middle);
}

/// Each word by those behind it, all that taken twice, and each word by itself.
fn square_short_into(x: &[u64], square: &mut [u64]) {
    square.fill(0);
    for (place, &word) in x.iter().enumerate() {
        let behind = &x[place + 1..];
        let row = &mut square[2 * place + 1..=place + x.len()];
        row[behind.len()] = add_product(&mut row[..behind.len()], word, behind);
    }
    let (mut doubled, mut carry) = (0, false);
    for (pair, &word) in square.chunks_exact_mut(2).zip(x) {
        let own = u128::from(word) * u128::from(word);
        for (sum, own) in pair.iter_mut().zip([own as u64, (own >> 64) as u64]) {
            let twice = *sum << 1 | doubled;
            doubled = *sum >> 63;
            (*sum, carry) = carrying(twice, own, carry, u64::overflowing_add);
        }
    }
}

/// Adds word x other in as many words as other has, and answers what is carried on.
fn add_product(sum: &mut [u64], word: u64, other: &[u64]) -> u64 {
    let mut carry = 0;
    for (sum, &other) in sum.iter_mut().zip(other) {
        let product = u128::from(word) * u128::from(other);
        let total = product + u128::from(*sum) + u128::from(carry);
        *sum = total as u64;
        carry = (total >> 64) as u64;
    }
    carry
}

/// |low - high|, in as many words as low has; high has as many or fewer.
fn distance(low: &[u64], high: &[u64]) -> Vec<u64> {
    let mut high = high.to_vec();
    high.resize(low.len(), 0);
    let mut low = low.to_vec();
    if high.iter().rev().gt(low.iter().rev()) {
        std::mem::swap(&mut low, &mut high);
    }
    subtract(&mut low, &high);
    low
}

/// The sum fits into the words of `sum`.
fn add(sum: &mut [u64], added: &[u64]) {
    word_by_word(sum, added, u64::overflowing_add);
}

/// What is taken away is not more than what is there.
fn subtract(from: &mut [u64], taken: &[u64]) {
    word_by_word(from, taken, u64::overflowing_sub);
}

fn word_by_word(words: &mut [u64], others: &[u64], operation: impl Fn(u64, u64) -> (u64, bool)) {
    let others = others.iter().copied().chain(repeat(0));
    let mut carry = false;
    for (word, other) in words.iter_mut().zip(others) {
        (*word, carry) = carrying(*word, other, carry, &operation);
    }
}

/// One word of a sum or of a difference, and whether something is carried on.
fn carrying(
    word: u64,
    other: u64,
    carried: bool,
    operation: impl Fn(u64, u64) -> (u64, bool),
) -> (u64, bool) {
    let (word, once) = operation(word, other);
    let (word, again) = operation(word, carried.into());
    (word, once || again)
}
