//! Compares report and append of the delivered library with the second implementation.

mod library;
mod mutants;

use compare::cases::{reported, visit_cases, visit_empty, visit_no_sizes};
use compare::cases::{Lengths, Reporter, Second, NO_SIZES};
use compare::corpus::{Corpus, LineSeries, Origin, Scale, FULL, QUICK};
use compare::draft::LARGEST;
use compare::memory::{Boxes, Edge, Pages};
use compare::paper::{Chosen, Paper};
use compare::program;
use compare::promises;
use compare::refusals::WAYS;
use compare::seen::{print_exact, print_pairs, Seen};
use compare::small_engines::{date_sheets, volume_and_speed_sheets};
use compare::sweeps::{cause_sheets, logarithm_trials, Begun, Sweep};
use compare::tally::Tally;
use library::{Library, LIBRARY};
use random::Random;
use second::{check, Document01, Refusal, SIZES};
use std::ops::ControlFlow;
use std::process::ExitCode;

const SECOND: Second<Document01> = Second(&Document01);

fn main() -> ExitCode {
    program::run(
        "compare",
        || compare(FULL, 1),
        || compare(QUICK, 4999),
        mutants::catch,
    )
}

/// The sheets, then one part of `step` of the sweeps.
fn compare(scale: Scale, step: usize) -> ExitCode {
    let mut tally = Tally::default();
    let series = LineSeries::find(scale);
    series.paper.compare_with_printed(&mut tally);
    for size in SIZES {
        println!("records of {size} bytes:");
        let corpus = Corpus::new(size, &series, scale);
        compare_corpus(&corpus, &mut tally);
        compare_chosen(&corpus, &mut tally);
        compare_empty(size, &mut tally);
        sweep_logarithms(&series.paper, size, step, &mut tally);
        sweep_run_in(&series.paper, size, step, &mut tally);
        sweep_causes(size, step, &mut tally);
        sweep_small_engines(size, step, &mut tally);
        promises::keep(size, scale, &mut tally);
    }
    print_pairs(&series, &mut tally);
    if scale.exact {
        print_exact(&series, &mut tally);
    }
    compare_no_sizes(&mut tally);
    tally.finish()
}

fn compare_corpus(corpus: &Corpus, tally: &mut Tally) {
    let size = corpus.size;
    let mut pages = Pages::default();
    let mut random = Random::new(0xA11);
    let mut seen = Seen::default();
    let mut ways = [0u64; WAYS.len()];
    let mut sheets = 0usize;
    let mut calls = 0u64;
    let _ = corpus.visit(&mut |origin, sheet| {
        sheets += 1;
        note_damage(size, origin, sheet, &mut ways, tally);
        let edge = Edge::of_call(sheets);
        let lengths = lengths(origin, sheets);
        visit_cases(size, sheet, lengths, &mut random, &mut |case| {
            let second = case.run(&SECOND, &mut pages, edge);
            seen.note(case, &second);
            let what = || format!("{case}, {origin}");
            for library in Library::of(size) {
                calls += 1;
                let answer = case.run(library, &mut pages, edge);
                tally.compare(sheet, what, answer, second.clone());
            }
            if sheets % 8 == 1 {
                let answer = case.run(&LIBRARY, &mut Boxes, edge);
                tally.compare(sheet, what, answer, second);
            }
            ControlFlow::Continue(())
        })
    });
    println!("{sheets} sheets, {calls} calls of report and append:");
    seen.print(size, tally);
    print_ways(size, &ways, tally);
}

/// Every length for some of the sheets, more often for those that are refused or the longest.
fn lengths(origin: Origin, sheets: usize) -> Lengths {
    let one_in = match origin {
        Origin::Longest | Origin::OtherSize => 8,
        Origin::Damage(_) => 40,
        _ => 1000,
    };
    if sheets.is_multiple_of(one_in) {
        Lengths::All
    } else {
        Lengths::Few
    }
}

/// A sheet damaged in one way has to be refused with that way's number, one with a byte that must be
/// zero with 12 at its record, and one of the most records, if at all, never for its length.
fn note_damage(size: usize, origin: Origin, sheet: &[u8], ways: &mut [u64], tally: &mut Tally) {
    let refusal = || check(&Document01, size, sheet).err();
    match origin {
        Origin::Damage(way) => {
            let number = refusal().map(|refusal| refusal.number);
            tally.expect(number == Some(WAYS[way].refusal), sheet, WAYS[way].name);
            ways[way] += 1;
        }
        Origin::Unused(record) => {
            let (number, record) = (12, record as u8);
            let expected = Refusal { number, record };
            tally.expect(refusal() == Some(expected), sheet, "a byte without a field");
        }
        Origin::Longest => {
            let by_record = refusal().is_none_or(|refusal| refusal.number != 1);
            tally.expect(by_record, sheet, "not refused for its length");
        }
        _ => {}
    }
}

fn print_ways(size: usize, counts: &[u64], tally: &mut Tally) {
    for (way, &count) in WAYS.iter().zip(counts) {
        if count == 0 {
            tally.gap(&format!("{}, in records of {size} bytes", way.name));
        }
    }
    println!(
        "  {} ways to the refusals of a sheet, each taken",
        WAYS.len()
    );
}

/// The chosen sheets get the reports asked for, from both; and both part every pair.
fn compare_chosen(corpus: &Corpus, tally: &mut Tally) {
    let size = corpus.size;
    for (origin, chosen) in corpus.chosen() {
        compare_asked(size, chosen, &origin.to_string(), tally);
    }
    for (_, [one, other]) in &corpus.pairs {
        for reporter in [&LIBRARY as &dyn Reporter, &SECOND] {
            let [one_report, other_report] =
                [one, other].map(|chosen| reported(reporter, size, &chosen.sheet));
            let parted = one_report != other_report;
            tally.expect(parted, &one.sheet, "the sheets of a pair are parted");
        }
    }
}

/// The library's whole report against the second implementation's, and against the one asked for.
fn compare_asked(size: usize, chosen: &Chosen, origin: &str, tally: &mut Tally) {
    let Chosen {
        sheet,
        reported: asked,
    } = chosen;
    let [library, second] =
        [&LIBRARY as &dyn Reporter, &SECOND].map(|reporter| reported(reporter, size, sheet));
    let against_second = || format!("report by {size}, {origin}");
    tally.compare(sheet, against_second, library, second);
    let against_asked = || format!("report by {size} and the one asked for (as second), {origin}");
    tally.compare(sheet, against_asked, library, *asked);
}

/// NULL is lent with length 0, and has to be taken like an empty slice.
fn compare_empty(size: usize, tally: &mut Tally) {
    let mut calls = 0;
    let _ = visit_empty(size, &mut |case| {
        let second = case.run(&SECOND, &mut Boxes, Edge::End);
        for library in Library::of(size) {
            for library in [*library, library.with_null()] {
                let what = || format!("{case}, NULL for what is empty");
                let answer = case.run(&library, &mut Boxes, Edge::End);
                tally.compare(&[], what, answer, second.clone());
                calls += 1;
            }
        }
        ControlFlow::Continue(())
    });
    println!("{calls} calls with NULL for what is empty");
}

fn sweep_logarithms(paper: &Paper, size: usize, step: usize, tally: &mut Tally) {
    let trials = Trials {
        sweep: Sweep::Plain,
        places: ["limits", "measurements"],
        numbers: |begun| [vec![begun.limit], begun.first_two.into()],
    };
    trials.compare(paper, size, step, tally);
}

fn sweep_run_in(paper: &Paper, size: usize, step: usize, tally: &mut Tally) {
    let trials = Trials {
        sweep: Sweep::RunIn,
        places: ["run-in values", "run-in engines before"],
        numbers: |begun| [begun.run_in.into_iter().collect(), vec![begun.first_two[0]]],
    };
    trials.compare(paper, size, step, tally);
}

/// A sweep of logarithms, and the two places in which it has every m.
struct Trials {
    sweep: Sweep,
    places: [&'static str; 2],
    numbers: fn(&Begun) -> [Vec<u32>; 2],
}

impl Trials {
    fn compare(&self, paper: &Paper, size: usize, step: usize, tally: &mut Tally) {
        let mut pairs = 0u64;
        let mut seen = [(); 2].map(|()| vec![false; LARGEST as usize + 1]);
        for trial in logarithm_trials(paper, self.sweep, size, step) {
            pairs += 1;
            for numbers in trial.begun.iter().map(self.numbers) {
                for (seen, numbers) in seen.iter_mut().zip(numbers) {
                    numbers.into_iter().for_each(|m| seen[m as usize] = true);
                }
            }
            for chosen in &trial.sheets {
                compare_asked(size, chosen, "the sweep of logarithms", tally);
            }
        }
        let counts = seen.map(|seen| seen.into_iter().filter(|&seen| seen).count());
        let [one, other] = self.places;
        if step == 1 && counts != [LARGEST as usize; 2] {
            tally.gap(&format!("every m among {one} and {other}"));
        }
        let [ones, others] = counts;
        println!("{pairs} pairs of sheets: the logarithms of {ones} {one}, {others} {other}");
    }
}

fn sweep_causes(size: usize, step: usize, tally: &mut Tally) {
    let mut sheets = 0;
    for chosen in cause_sheets(size, step) {
        sheets += 1;
        compare_asked(size, &chosen, "the sweep of causes", tally);
    }
    println!("{sheets} sheets: reports with every cause twice, and beside those of other bits");
}

fn sweep_small_engines(size: usize, step: usize, tally: &mut Tally) {
    let mut sheets = [0; 2];
    for chosen in date_sheets(size, step) {
        sheets[0] += 1;
        compare_asked(size, &chosen, "the sweep of dates", tally);
    }
    for chosen in volume_and_speed_sheets(size, step) {
        sheets[1] += 1;
        compare_asked(size, &chosen, "the sweep of volumes and speeds", tally);
    }
    let [dates, others] = sheets;
    println!("{dates} sheets with a small engine's dates, {others} with its volumes and speeds");
}

/// F-10: "30, size not 20 or 28, before every other", and nothing is written.
fn compare_no_sizes(tally: &mut Tally) {
    let mut pages = Pages::default();
    let mut calls = 0;
    let _ = visit_no_sizes(&mut |case| {
        let second = case.run(&SECOND, &mut Boxes, Edge::End);
        tally.expect(second == case.refused(30), &[], "30 before every other");
        for edge in [Edge::Start, Edge::End] {
            let library = case.run(&LIBRARY, &mut pages, edge);
            tally.compare(&[], || case.to_string(), library, second.clone());
            calls += 1;
        }
        let library = case.run(&LIBRARY.with_null(), &mut Boxes, Edge::End);
        tally.compare(&[], || case.to_string(), library, second);
        ControlFlow::Continue(())
    });
    println!("{calls} calls by {} sizes that are none", NO_SIZES.len());
}
