//! Compares `conformity_convert` of the delivered library with the second implementation, and what
//! it makes with the sheets that it was given.

mod library;
mod seen;

use compare::cases::{reported, NO_SIZES};
use compare::conversions::{visit_conversions, visit_no_sizes, Conversion, Converter, Second};
use compare::corpus::{Corpus, LineSeries, Scale, FULL, MUTANTS_OF_NO_JUDGE, QUICK};
use compare::draft::random_draft;
use compare::memory::{Boxes, Edge, Pages};
use compare::program::{self, First, Mutants};
use compare::tally::Tally;
use library::{LIBRARY, WITH_NULL};
use random::Random;
use second::variants;
use second::{judge, Document, Document01, FOUR_POLLUTANTS, SIZES};
use seen::Seen;
use std::ops::ControlFlow;
use std::process::ExitCode;

const SECOND: Second<Document01> = Second(&Document01);

fn main() -> ExitCode {
    program::run(
        "compare_convert",
        || compare(FULL.of_no_judge()),
        || compare(QUICK.of_no_judge()),
        catch_mutants,
    )
}

fn compare(scale: Scale) -> ExitCode {
    let mut tally = Tally::default();
    let series = LineSeries::find(scale);
    for size in SIZES {
        compare_corpus(&Corpus::new(size, &series, scale), &mut tally);
    }
    compare_no_sizes(&mut tally);
    compare_empty(&mut tally);
    tally.finish()
}

fn compare_corpus(corpus: &Corpus, tally: &mut Tally) {
    let mut pages = Pages::default();
    let mut seen = Seen::default();
    let mut calls = 0usize;
    let _ = visit_conversions(corpus, &mut |origin, conversion| {
        calls += 1;
        let edge = Edge::of_call(calls);
        let second = conversion.run(&SECOND, &mut pages, edge);
        seen.note(conversion, &second);
        let what = || format!("{conversion}, {origin}");
        let sheet = conversion.sheet;
        let library = conversion.run(&LIBRARY, &mut pages, edge);
        tally.compare(sheet, what, library, second.clone());
        if calls % 8 == 1 {
            let library = conversion.run(&LIBRARY, &mut Boxes, edge);
            tally.compare(sheet, what, library, second.clone());
        }
        if second.code == 0 {
            compare_carried(conversion, &second.bytes, tally);
        }
        ControlFlow::Continue(())
    });
    println!(
        "{calls} calls of convert from records of {} bytes:",
        corpus.size
    );
    seen.print(corpus.size, tally);
}

/// "All answers for pollutants 1 to 4 stay equal, and there and back gives the sheet": on both
/// implementations, with what was made at the start of the output. A report of four pollutants has
/// zeros behind it, and so is equal to one of six in which pollutants 5 and 6 are open.
fn compare_carried(conversion: &Conversion, output: &[u8], tally: &mut Tally) {
    let &Conversion { size, sheet, .. } = conversion;
    let other = Document01.other_size(size);
    let carried = &output[..Document01.carried_length(size, sheet.len())];
    for converter in [&LIBRARY as &dyn Converter, &SECOND] {
        let mut back = vec![0; sheet.len()];
        let code = converter.convert(other, carried, &mut back);
        let kept = code == 0 && back == sheet;
        tally.expect(kept, sheet, "there and back gives the sheet");
    }
    let what = || format!("report of what {conversion} makes, and of the sheet");
    let report = |size, sheet: &[u8]| reported(&LIBRARY, size, sheet);
    tally.compare(sheet, what, report(other, carried), report(size, sheet));
    let [one, other] = [(size, sheet), (other, carried)]
        .map(|(size, sheet)| judge(&Document01, size, sheet).expect("an accepted sheet"));
    tally.expect(one == other, sheet, "what is converted is judged alike");
}

/// "30, size not 20 or 28, before every other", and nothing is written.
fn compare_no_sizes(tally: &mut Tally) {
    let mut pages = Pages::default();
    let mut calls = 0;
    let _ = visit_no_sizes(&mut |conversion| {
        let second = conversion.run(&SECOND, &mut Boxes, Edge::End);
        let refused = second == conversion.refused(30);
        tally.expect(refused, conversion.sheet, "30 before every other");
        for edge in [Edge::Start, Edge::End] {
            let library = conversion.run(&LIBRARY, &mut pages, edge);
            let what = || conversion.to_string();
            tally.compare(conversion.sheet, what, library, second.clone());
            calls += 1;
        }
        ControlFlow::Continue(())
    });
    println!("{calls} calls by {} sizes that are none", NO_SIZES.len());
}

/// NULL is lent with length 0, and has to be taken like an empty slice.
fn compare_empty(tally: &mut Tally) {
    let mut random = Random::new(0xE);
    for size in SIZES.into_iter().chain([0, 24]) {
        let draft = random_draft(FOUR_POLLUTANTS, &mut random);
        for (sheet, room) in [(vec![], 0), (vec![], 28), (draft.bytes(), 0)] {
            let sheet = &sheet[..];
            let conversion = Conversion { size, sheet, room };
            let second = conversion.run(&SECOND, &mut Boxes, Edge::End);
            let library = conversion.run(&WITH_NULL, &mut Boxes, Edge::End);
            let what = || format!("{conversion}, NULL for what is empty");
            tally.compare(sheet, what, library, second);
        }
    }
}

fn catch_mutants() -> ExitCode {
    let series = LineSeries::find(MUTANTS_OF_NO_JUDGE);
    let corpora = SIZES.map(|size| Corpus::new(size, &series, MUTANTS_OF_NO_JUDGE));
    let mut mutants = Mutants::default();
    for wrong in variants::convert() {
        let reading = wrong.reading.as_ref();
        let in_corpora = || corpora.iter().find_map(|corpus| in_corpus(corpus, reading));
        mutants.note(&wrong, in_no_sizes(reading).or_else(in_corpora));
    }
    mutants.finish()
}

/// The first call that the library and a wrong variant answer differently.
fn in_corpus(corpus: &Corpus, wrong: &dyn Document) -> Option<String> {
    let mut first = First::default();
    let _ = visit_conversions(corpus, &mut |origin, conversion| {
        first.note(alike(conversion, wrong), || {
            format!("{conversion}, {origin}")
        })
    });
    first.0
}

fn in_no_sizes(wrong: &dyn Document) -> Option<String> {
    let mut first = First::default();
    let _ = visit_no_sizes(&mut |conversion| {
        first.note(alike(conversion, wrong), || conversion.to_string())
    });
    first.0
}

fn alike(conversion: &Conversion, wrong: &dyn Document) -> bool {
    let right = conversion.run(&LIBRARY, &mut Boxes, Edge::End);
    right == conversion.run(&Second(wrong), &mut Boxes, Edge::End)
}
