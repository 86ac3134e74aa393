//! docs/FORMAT.md, "g(3) by hand": the steps that the page prints are those of the documents.

use second::{Document, Document01};

const PAGE: &str = include_str!("../../../docs/FORMAT.md");
const HEADER: &str = "| Step | M | Bit | Step | M | Bit |";

/// One step as printed: its number, M, and the bit that is found.
type Step = [u64; 3];

/// Two columns of steps, read down the first and then the second.
fn printed_steps() -> Vec<Step> {
    let rows = PAGE.lines().skip_while(|line| *line != HEADER).skip(2);
    let (first, second): (Vec<Step>, Vec<Step>) = rows
        .take_while(|line| line.starts_with('|'))
        .map(two_steps)
        .unzip();
    [first, second].concat()
}

fn two_steps(row: &str) -> (Step, Step) {
    let cells: Vec<u64> = row.trim_matches('|').split('|').map(number).collect();
    let [a, b, c, d, e, f] = cells[..] else {
        panic!("six cells: {row}");
    };
    ([a, b, c], [d, e, f])
}

fn number(cell: &str) -> u64 {
    let digits = cell.trim().replace(',', "");
    digits.parse().expect("a number")
}

/// "M = m x 2^(31-e)" for m = 3, whose e is 1, and the twenty steps from there.
fn steps_of_three() -> Vec<Step> {
    let mut m = 3 << 30;
    let mut step = |number| {
        let q = m * m;
        let bit = Document01.next_bit(q);
        let printed = [number, m, u64::from(bit)];
        m = Document01.next_m(q, bit);
        printed
    };
    (1..=20).map(&mut step).collect()
}

#[test]
fn the_steps_of_three() {
    assert_eq!(printed_steps(), steps_of_three());
}

/// "g(m) = e x" 1,048,576 "+ the [..] bits, first bit highest".
#[test]
fn the_bits_of_three() {
    let bits = printed_steps()
        .iter()
        .fold(0, |bits, [_, _, bit]| 2 * bits + *bit as i64);
    assert_eq!(1_048_576 + bits, Document01.g(3));
}
