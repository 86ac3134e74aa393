//! Compares `conformity_finding` of the delivered library with the second implementation, and the
//! reports of a sheet before and after its findings.

mod library;
mod seen;

use compare::cases::{reported, Answer, Second, NO_SIZES};
use compare::corpus::{Corpus, LineSeries, Scale, FULL, MUTANTS_OF_NO_JUDGE, QUICK};
use compare::draft::{Draft, LARGEST_CAUSE};
use compare::findings::{chains, visit_findings, visit_no_sizes, Chain, Finding};
use compare::memory::{Boxes, Edge, Pages};
use compare::paper::Paper;
use compare::pending;
use compare::program::{self, First, Mutants};
use compare::service;
use compare::tally::Tally;
use library::{LIBRARY, WITH_NULL};
use second::variants;
use second::{Document, Document01, Verdict, SIZES};
use seen::Seen;
use std::ops::ControlFlow;
use std::process::ExitCode;

const SECOND: Second<Document01> = Second(&Document01);

fn main() -> ExitCode {
    program::run(
        "compare_findings",
        || compare(FULL.of_no_judge(), 1),
        || compare(QUICK.of_no_judge(), 997),
        catch_mutants,
    )
}

/// The sheets, every `step`th finding on one sheet, and findings one after the other.
fn compare(scale: Scale, step: usize) -> ExitCode {
    let mut tally = Tally::default();
    let series = LineSeries::find(scale);
    for size in SIZES {
        println!("records of {size} bytes:");
        let mut seen = Seen::default();
        compare_corpus(&Corpus::new(size, &series, scale), &mut seen, &mut tally);
        compare_every_finding(size, step, &mut tally);
        compare_chains(&series.paper, size, scale, &mut seen, &mut tally);
        seen.print(size, &mut tally);
    }
    compare_no_sizes(&mut tally);
    compare_empty(&mut tally);
    tally.finish()
}

fn compare_corpus(corpus: &Corpus, seen: &mut Seen, tally: &mut Tally) {
    let mut pages = Pages::default();
    let mut calls = 0usize;
    let _ = visit_findings(corpus, &mut |origin, call| {
        calls += 1;
        let second = call.run(&SECOND, &mut Boxes, Edge::End);
        seen.note(call, &second);
        let what = || format!("{call}, {origin}");
        for edge in [Edge::Start, Edge::End] {
            let library = call.run(&LIBRARY, &mut pages, edge);
            tally.compare(call.sheet, what, library, second.clone());
        }
        if calls % 8 == 1 {
            let library = call.run(&LIBRARY, &mut Boxes, Edge::End);
            tally.compare(call.sheet, what, library, second);
        }
        ControlFlow::Continue(())
    });
    println!("{calls} calls of finding");
}

/// "24, finding not 1 to 65,534", and else "only that record's two cause bytes" change: to each of
/// 0 to 70,000 in turn.
fn compare_every_finding(size: usize, step: usize, tally: &mut Tally) {
    let [mut held, _] = pending::full_drafts(size);
    let sheet = &held.bytes();
    let mut findings = 0;
    for finding in (0..=70_000).step_by(step) {
        findings += 1;
        let engine = 1;
        let call = Finding {
            size,
            sheet,
            engine,
            finding,
        };
        let asked = match u16::try_from(finding) {
            Ok(cause @ 1..=LARGEST_CAUSE) => entered(&mut held, 1, cause),
            _ => call.refused(24),
        };
        compare_asked(&call, asked, tally);
    }
    println!("{findings} findings on one sheet");
}

/// The cause for the engine of the draft, and so what the sheet has to be with the finding.
fn entered(draft: &mut Draft, engine: usize, cause: u16) -> Answer {
    draft.engines[engine - 1].cause = cause;
    Answer {
        code: 0,
        bytes: draft.bytes(),
    }
}

/// The library's answer against the second implementation's, and against the one asked for.
fn compare_asked(call: &Finding, asked: Answer, tally: &mut Tally) {
    let library = call.run(&LIBRARY, &mut Boxes, Edge::End);
    let second = call.run(&SECOND, &mut Boxes, Edge::End);
    tally.compare(call.sheet, || call.to_string(), library.clone(), second);
    let what = || format!("{call} and the answer asked for (as second)");
    tally.compare(call.sheet, what, library, asked);
}

/// Findings one after the other until none is pending.
fn compare_chains(paper: &Paper, size: usize, scale: Scale, seen: &mut Seen, tally: &mut Tally) {
    let (mut count, mut steps) = (0, 0);
    for chain in chains(size, scale.one_directed_in) {
        count += 1;
        steps += chain.steps.len();
        compare_chain(paper, chain, seen, tally);
    }
    println!("{count} chains of {steps} findings in all");
}

/// After each finding the sheet has to be that with the cause, and its report the one that `service`
/// says; and "a verdict other than held is the same under every finding that could follow".
fn compare_chain(paper: &Paper, chain: Chain, seen: &mut Seen, tally: &mut Tally) {
    let Chain { mut draft, steps } = chain;
    let size = draft.size;
    let mut sheet = draft.bytes();
    let mut before = reported(&LIBRARY, size, &sheet);
    for (engine, cause) in steps {
        let call = Finding {
            size,
            sheet: &sheet,
            engine: engine as u32,
            finding: cause.into(),
        };
        compare_asked(&call, entered(&mut draft, engine, cause), tally);
        sheet = draft.bytes();
        let after = reported(&LIBRARY, size, &sheet);
        let what = || format!("the report after a finding for engine {engine}");
        let asked = (0, service::answer(paper, &draft));
        tally.compare(&sheet, what, after, reported(&SECOND, size, &sheet));
        tally.compare(&sheet, what, after, asked);
        if before.1[1] != Verdict::Held as u8 {
            let what = || format!("the reports after and before a finding for engine {engine}");
            tally.compare(&sheet, what, after, before);
        }
        seen.note_step(&before.1, &after.1);
        before = after;
    }
    tally.expect(draft.pending().is_empty(), &sheet, "no finding is pending");
}

/// "30, size not 20 or 28, before every other", and nothing is written.
fn compare_no_sizes(tally: &mut Tally) {
    let mut pages = Pages::default();
    let mut calls = 0;
    let _ = visit_no_sizes(&mut |call| {
        let second = call.run(&SECOND, &mut Boxes, Edge::End);
        let refused = second == call.refused(30);
        tally.expect(refused, call.sheet, "30 before every other");
        for edge in [Edge::Start, Edge::End] {
            let library = call.run(&LIBRARY, &mut pages, edge);
            tally.compare(call.sheet, || call.to_string(), library, second.clone());
            calls += 1;
        }
        ControlFlow::Continue(())
    });
    println!("{calls} calls by {} sizes that are none", NO_SIZES.len());
}

/// NULL is lent with length 0, and has to be taken like an empty slice.
fn compare_empty(tally: &mut Tally) {
    for size in SIZES.into_iter().chain(NO_SIZES) {
        for (engine, finding) in [(0, 0), (1, 7), (u32::MAX, u32::MAX)] {
            let sheet = &[];
            let call = Finding {
                size,
                sheet,
                engine,
                finding,
            };
            let second = call.run(&SECOND, &mut Boxes, Edge::End);
            let library = call.run(&WITH_NULL, &mut Boxes, Edge::End);
            let what = || format!("{call}, NULL for what is empty");
            tally.compare(sheet, what, library, second);
        }
    }
}

/// Those that are not about the size are to be noticed in either.
fn catch_mutants() -> ExitCode {
    let series = LineSeries::find(MUTANTS_OF_NO_JUDGE);
    let corpora = SIZES.map(|size| Corpus::new(size, &series, MUTANTS_OF_NO_JUDGE));
    let mut mutants = Mutants::default();
    for wrong in variants::finding() {
        let reading = wrong.reading.as_ref();
        let caught_by = corpora.each_ref().map(|corpus| in_corpus(corpus, reading));
        mutants.note_both(&wrong, caught_by);
    }
    for wrong in variants::finding_by_size() {
        mutants.note(&wrong, in_no_sizes(wrong.reading.as_ref()));
    }
    mutants.finish()
}

/// The first call that the library and a wrong variant answer differently.
fn in_corpus(corpus: &Corpus, wrong: &dyn Document) -> Option<String> {
    let mut first = First::default();
    let _ = visit_findings(corpus, &mut |origin, call| {
        first.note(alike(call, wrong), || format!("{call}, {origin}"))
    });
    first.0
}

fn in_no_sizes(wrong: &dyn Document) -> Option<String> {
    let mut first = First::default();
    let _ = visit_no_sizes(&mut |call| first.note(alike(call, wrong), || call.to_string()));
    first.0
}

fn alike(call: &Finding, wrong: &dyn Document) -> bool {
    let right = call.run(&LIBRARY, &mut Boxes, Edge::End);
    right == call.run(&Second(wrong), &mut Boxes, Edge::End)
}
