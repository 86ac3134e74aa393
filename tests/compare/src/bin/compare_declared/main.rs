//! Compares `conformity_declared` of the delivered library with the second implementation.

mod call;

use call::{answer_of, lent_answer, library_answer, Answer};
use compare::declared::{visit_declared, Scale, FULL, QUICK};
use compare::memory::{Boxes, Edge, Empty, Pages};
use compare::program::{self, Mutants};
use compare::tally::Tally;
use second::variants;
use second::{Document, Document01};
use std::ops::ControlFlow;
use std::process::ExitCode;

fn main() -> ExitCode {
    program::run(
        "compare_declared",
        || compare(&FULL),
        || compare(&QUICK),
        catch_mutants,
    )
}

fn compare(scale: &Scale) -> ExitCode {
    let mut tally = Tally::default();
    let mut seen = Seen::default();
    let mut pages = Pages::default();
    let mut calls = 0usize;
    let _ = visit_declared(scale, &mut |declared, tests| {
        calls += 1;
        let second = answer_of(&Document01, declared, tests);
        seen.note(declared, tests, second);
        let what = || format!("the declared value {declared} with the tests {tests:?}");
        let edge = Edge::of_call(calls);
        let library = lent_answer(Empty::Slice, declared, tests, &mut pages, edge);
        tally.compare(&[], what, library, second);
        if calls % 8 == 1 {
            let library = lent_answer(Empty::Slice, declared, tests, &mut Boxes, edge);
            tally.compare(&[], what, library, second);
        }
        ControlFlow::Continue(())
    });
    println!("{calls} calls of declared:");
    seen.print(&mut tally);
    let null = lent_answer(Empty::Null, 100_000, &[], &mut Boxes, Edge::End);
    let second = answer_of(&Document01, 100_000, &[]);
    tally.compare(&[], || "NULL for no tests".to_string(), null, second);
    tally.finish()
}

/// The kinds of answers, by their places in `Seen`.
const KINDS: [&str; 10] = [
    "another test after the first",
    "another test after the second",
    "standing by a first test on the line",
    "standing by a first test below it",
    "standing by a mean of two on the line",
    "standing by a mean of two below it",
    "the mean of three",
    "refused 20",
    "refused 21",
    "refused 22",
];

/// How often each kind of answer was compared.
#[derive(Default)]
struct Seen([u64; KINDS.len()]);

impl Seen {
    fn note(&mut self, declared: u32, tests: &[u32], (code, [_, divisor]): Answer) {
        let kind = match (code / 256, divisor, tests.len()) {
            (0, 0, 1) => 0,
            (0, 0, _) => 1,
            (0, 1, 1) => 3 - usize::from(is_on_line(declared, tests)),
            (0, 1, _) => 5 - usize::from(is_on_line(declared, tests)),
            (0, ..) => 6,
            (20, ..) => 7,
            (21, ..) => 8,
            _ => 9,
        };
        self.0[kind] += 1;
    }

    fn print(&self, tally: &mut Tally) {
        for (kind, count) in KINDS.iter().zip(self.0) {
            if count == 0 {
                tally.gap(kind);
            }
            println!("  {count} {kind}");
        }
    }
}

/// The mean of the tests is 104/100 of the declared value.
fn is_on_line(declared: u32, tests: &[u32]) -> bool {
    let sum: u64 = tests.iter().map(|&test| u64::from(test)).sum();
    100 * sum == 104 * tests.len() as u64 * u64::from(declared)
}

fn catch_mutants() -> ExitCode {
    let mut mutants = Mutants::default();
    for wrong in variants::declared() {
        mutants.note(&wrong, first_difference(wrong.reading.as_ref()));
    }
    mutants.finish()
}

/// The first call that the library and a wrong variant answer differently.
fn first_difference(wrong: &dyn Document) -> Option<String> {
    let mut found = None;
    let _ = visit_declared(&FULL, &mut |declared, tests| {
        if library_answer(declared, tests) == answer_of(wrong, declared, tests) {
            return ControlFlow::Continue(());
        }
        let shown = &tests[..tests.len().min(4)];
        found = Some(format!("{declared} with {} tests {shown:?}", tests.len()));
        ControlFlow::Break(())
    });
    found
}
