//! Shows that the comparison notices each wrong variant of the second implementation.

use crate::lengths;
use crate::library::LIBRARY;
use compare::cases::{reported, visit_cases, visit_no_sizes, Case, Second};
use compare::clauses::has;
use compare::corpus::{Corpus, LineSeries, Origin, Scale, FULL};
use compare::draft::RUN_IN;
use compare::memory::{Boxes, Edge};
use compare::paper::{Chosen, Paper};
use compare::program::{First, Mutants};
use compare::small_engines::{date_sheets, volume_and_speed_sheets};
use compare::sweeps::{cause_sheets, logarithm_trials, logarithm_trials_with};
use compare::sweeps::{LogarithmTrial, Sweep};
use random::Random;
use second::variants::{self, Family};
use second::{Document, SIZES};
use std::ops::ControlFlow;
use std::process::ExitCode;

/// Those of document 01, and each number among many alike, are to be noticed in either size.
pub fn catch() -> ExitCode {
    let scale = Scale {
        random_sheets: 20_000,
        ..FULL
    };
    let series = LineSeries::find(scale);
    let corpora = SIZES.map(|size| Corpus::new(size, &series, scale));
    let mut mutants = Mutants::default();
    for wrong in variants::report_and_append() {
        let reading = wrong.reading.as_ref();
        let caught_by = corpora
            .each_ref()
            .map(|corpus| caught_by(corpus, &series.paper, reading));
        mutants.note_both(&wrong, caught_by);
    }
    for wrong in variants::small_engine() {
        let reading = wrong.reading.as_ref();
        let caught_by = corpora.each_ref().map(|corpus| {
            in_corpus(corpus, reading).or_else(|| in_small_engines(corpus.size, reading))
        });
        mutants.note_both(&wrong, caught_by);
    }
    for wrong in variants::run_in() {
        let reading = wrong.reading.as_ref();
        let caught_by = corpora.each_ref().map(|corpus| in_corpus(corpus, reading));
        mutants.note_both(&wrong, caught_by);
    }
    for wrong in variants::held() {
        let reading = wrong.reading.as_ref();
        let caught_by = corpora.each_ref().map(|corpus| in_pending(corpus, reading));
        mutants.note_both(&wrong, caught_by);
    }
    for wrong in variants::sizes() {
        let reading = wrong.reading.as_ref();
        let mut caught_by = corpora
            .iter()
            .rev()
            .filter_map(|corpus| in_corpus(corpus, reading));
        mutants.note(&wrong, in_no_sizes(reading).or_else(|| caught_by.next()));
    }
    let in_corpora =
        |plan, wrong: &dyn Document| corpora.iter().all(|corpus| is_in(corpus, plan, wrong));
    mutants.try_families(variants::decision_numbers(), in_corpora);
    mutants.try_families(variants::variances(), in_corpora);
    let on_run_in_sheets = |plan, wrong: &dyn Document| {
        let mut corpora = corpora.iter();
        corpora.all(|corpus| is_on_run_in_sheet(corpus, plan, wrong))
    };
    mutants.try_families(
        run_in_families(variants::decision_numbers()),
        on_run_in_sheets,
    );
    mutants.try_families(run_in_families(variants::variances()), on_run_in_sheets);
    mutants.try_families(variants::sixteen_steps_under_one_plan(), in_corpora);
    for (m, wrong) in variants::logarithms() {
        for sweep in [Sweep::Plain, Sweep::RunIn] {
            let caught_by = SIZES.map(|size| {
                let trials = logarithm_trials_with(&series.paper, sweep, size, m);
                in_logarithms(size, trials, wrong.reading.as_ref())
            });
            mutants.note_both(&wrong, caught_by);
        }
    }
    let in_causes =
        |_, wrong: &dyn Document| SIZES.into_iter().all(|size| is_in_causes(size, wrong));
    mutants.try_families(variants::causes(), in_causes);
    mutants.finish()
}

/// The corpus first, and what it lets through goes through the sweeps.
fn caught_by(corpus: &Corpus, paper: &Paper, wrong: &dyn Document) -> Option<String> {
    let size = corpus.size;
    in_corpus(corpus, wrong)
        .or_else(|| {
            let trials = logarithm_trials(paper, Sweep::Plain, size, 1);
            in_logarithms(size, trials, wrong)
        })
        .or_else(|| is_in_causes(size, wrong).then(|| "the sweep of causes".to_string()))
}

/// The first case in which the library and a wrong variant differ.
fn in_corpus(corpus: &Corpus, wrong: &dyn Document) -> Option<String> {
    let mut random = Random::new(0xA11);
    let mut sheets = 0;
    let mut first = First::default();
    let _ = corpus.visit(&mut |origin, sheet| {
        sheets += 1;
        let lengths = lengths(origin, sheets);
        visit_cases(corpus.size, sheet, lengths, &mut random, &mut |case| {
            first.note(alike(case, wrong), || format!("{} ({origin})", name(case)))
        })
    });
    first.0
}

/// The first case by a size that is none.
fn in_no_sizes(wrong: &dyn Document) -> Option<String> {
    let mut first = First::default();
    let _ = visit_no_sizes(&mut |case| first.note(alike(case, wrong), || case.to_string()));
    first.0
}

/// The library and a wrong variant answer alike.
fn alike(case: &Case, wrong: &dyn Document) -> bool {
    let right = case.run(&LIBRARY, &mut Boxes, Edge::End);
    right == case.run(&Second(wrong), &mut Boxes, Edge::End)
}

fn name(case: &Case) -> String {
    match case {
        Case::Report { size, .. } => format!("report by {size}"),
        Case::Append { size, .. } => format!("append by {size}"),
    }
}

/// The families of the plans that have run-in sheets, to be noticed on these alone.
fn run_in_families(families: Vec<Family>) -> Vec<Family> {
    let of_production = families.into_iter().filter(|family| family.plan != 4);
    of_production
        .map(|family| Family {
            title: format!("{}, on run-in sheets", family.title),
            ..family
        })
        .collect()
}

/// Whether a report of the corpus under this plan shows it.
fn is_in(corpus: &Corpus, plan: u8, wrong: &dyn Document) -> bool {
    is_in_some(corpus, plan, wrong, |_| true)
}

/// Whether a report of a run-in sheet of the corpus under this plan shows it.
fn is_on_run_in_sheet(corpus: &Corpus, plan: u8, wrong: &dyn Document) -> bool {
    is_in_some(corpus, plan, wrong, |sheet| has(RUN_IN, corpus.size, sheet))
}

fn is_in_some(
    corpus: &Corpus,
    plan: u8,
    wrong: &dyn Document,
    looked_at: impl Fn(&[u8]) -> bool,
) -> bool {
    let visited = corpus.visit(&mut |_, sheet| {
        let looked_at = sheet.get(2) == Some(&plan) && looked_at(sheet);
        if looked_at && differ(corpus.size, wrong, sheet) {
            ControlFlow::Break(())
        } else {
            ControlFlow::Continue(())
        }
    });
    visited.is_break()
}

/// Whether a report of these trials shows it.
fn in_logarithms(
    size: usize,
    trials: impl Iterator<Item = LogarithmTrial>,
    wrong: &dyn Document,
) -> Option<String> {
    let mut sheets = trials.flat_map(|trial| trial.sheets);
    let found = sheets.any(|chosen| differ(size, wrong, &chosen.sheet));
    found.then(|| format!("report by {size} (sweep of logarithms)"))
}

/// Whether a report of the sweep of causes shows it.
fn is_in_causes(size: usize, wrong: &dyn Document) -> bool {
    let differs = |chosen: Chosen| differ(size, wrong, &chosen.sheet);
    cause_sheets(size, 1).any(differs)
}

/// Whether a report of the sweeps of small engines shows it.
fn in_small_engines(size: usize, wrong: &dyn Document) -> Option<String> {
    let mut sheets = date_sheets(size, 1).chain(volume_and_speed_sheets(size, 1));
    let found = sheets.any(|chosen| differ(size, wrong, &chosen.sheet));
    found.then(|| format!("report by {size} (sweep of small engines)"))
}

/// Whether a report of a sheet with pending vehicles shows it.
fn in_pending(corpus: &Corpus, wrong: &dyn Document) -> Option<String> {
    let size = corpus.size;
    let mut sheets = corpus.pending.iter();
    let found = sheets.any(|chosen| differ(size, wrong, &chosen.sheet));
    found.then(|| format!("report by {size} ({})", Origin::Pending))
}

/// The reports differ.
fn differ(size: usize, wrong: &dyn Document, sheet: &[u8]) -> bool {
    reported(&LIBRARY, size, sheet) != reported(&Second(wrong), size, sheet)
}
