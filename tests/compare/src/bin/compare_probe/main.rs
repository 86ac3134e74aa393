//! Compares the logarithm, evidence, the printed lines and the reader with the second
//! implementation, by way of the probe library, and the logarithm with its bracket.

mod operations;

use compare::bracket::{self, Bracketed, Power};
use compare::cases::{sheets_of_either_size, NO_SIZES};
use compare::corpus::{Corpus, LineSeries, Scale, FULL, QUICK};
use compare::draft::LARGEST;
use compare::memory::{Boxes, Edge, Lender, Pages};
use compare::program::{self, Mutants};
use compare::tally::{Kinds, Tally};
use operations::{evidence_of, lines_of, step_at, Operations, Second, LIBRARY, LINES, WITH_NULL};
use random::Random;
use second::variants::{self, Wrong};
use second::{judge, Document, Document01, FOUR_POLLUTANTS, SIZES};
use std::ops::ControlFlow;
use std::process::ExitCode;

const SECOND: Second<Document01> = Second(&Document01);

fn main() -> ExitCode {
    program::run(
        "compare_probe",
        || compare(FULL, 1),
        || compare(QUICK, 997),
        catch_mutants,
    )
}

/// The logarithm of every `step`th m and its bracket, then the sheets. Whole powers are only taken
/// where every m is gone through.
fn compare(scale: Scale, step: usize) -> ExitCode {
    let mut tally = Tally::default();
    for m in logarithm_arguments(step) {
        let (library, second) = (LIBRARY.logarithm(m), SECOND.logarithm(m));
        tally.compare(&[], || format!("the logarithm of {m}"), library, second);
    }
    println!("{} logarithms", tally.cases());
    let closest = compare_brackets(step, &mut tally);
    if step == 1 {
        compare_whole_powers(closest, &mut tally);
    }
    compare_empty(&mut tally);
    compare_no_sizes(&mut tally);
    let series = LineSeries::find(scale);
    for size in SIZES {
        compare_corpus(&Corpus::new(size, &series, scale), &mut tally);
    }
    tally.finish()
}

/// All that can be measured and the first beyond, the edges, and a sample of the rest.
fn logarithm_arguments(step: usize) -> impl Iterator<Item = u32> {
    let edges = (0..32).flat_map(|e| [(1u32 << e) - 1, 1 << e, (1 << e) + 1]);
    let mut random = Random::new(0x106);
    let beyond = (0..200_000 / step).map(move |_| random.between(10_000_001, u32::MAX));
    (0..=10_000_000)
        .step_by(step)
        .chain(edges)
        .chain([u32::MAX])
        .chain(beyond)
}

/// The library's g of every `step`th m by the bracket. Returns the m, no powers of two, with the
/// exact logarithms closest above and below a whole unit.
fn compare_brackets(step: usize, tally: &mut Tally) -> [u32; 2] {
    let mut closest = [(u64::MAX, 0), (0, 0)];
    let mut brackets = 0;
    for Bracketed { m, power, fault } in bracket::walk(|m| LIBRARY.logarithm(m), step) {
        tally.compare(&[], || format!("the bracket of g({m})"), fault, None);
        brackets += 1;
        if !m.is_power_of_two() {
            let here = (power.first_digits(), m);
            closest = [closest[0].min(here), closest[1].max(here)];
        }
    }
    let closest = closest.map(|(_, m)| m);
    println!("{brackets} brackets, the closest to a whole unit are those of {closest:?}");
    closest
}

/// Of some m the whole power: its binary digits are those that the bounds tell, and the library's g
/// fits them.
fn compare_whole_powers(closest: [u32; 2], tally: &mut Tally) {
    for m in SMALL.into_iter().chain([LARGEST]).chain(closest) {
        let (digits, checked) = bracket::whole_power(m);
        let mut expect = |holds, what| tally.expect(holds, &[], &format!("{m}^1048576: {what}"));
        expect(checked, "what it leaves by a prime");
        expect(Power::of(m).digits() == Some(digits), "bounds on it");
        expect(bracket::fits(LIBRARY.logarithm(m), digits), "the bracket");
        println!("  {m}^1048576: {digits} binary digits");
    }
}

/// Some m with short powers.
const SMALL: [u32; 6] = [1, 2, 3, 5, 7, 1000];

/// NULL is lent with length 0, and has to be taken like an empty slice.
fn compare_empty(tally: &mut Tally) {
    let what = || "NULL for what is empty".to_string();
    for library in [LIBRARY, WITH_NULL] {
        for (sheet, room) in [(&[][..], 0), (&[], LINES), (&[0; FOUR_POLLUTANTS], 0)] {
            let lines = |operations| lines_of(operations, sheet, room, &mut Boxes, Edge::End);
            tally.compare(sheet, what, lines(&library), lines(&SECOND));
        }
        for size in SIZES.into_iter().chain(NO_SIZES) {
            let evidence = |operations| evidence_of(operations, size, &[], &mut Boxes, Edge::End);
            tally.compare(&[], what, evidence(&library), evidence(&SECOND));
            for k in [0, 1, usize::MAX] {
                let step = |operations| step_at(operations, size, &[], k, &mut Boxes, Edge::End);
                tally.compare(&[], what, step(&library), step(&SECOND));
            }
        }
    }
}

/// F-10: "30, size not 20 or 28, before every other", and no record to be read.
fn compare_no_sizes(tally: &mut Tally) {
    let mut pages = Pages::default();
    for sheet in sheets_of_either_size() {
        for size in NO_SIZES {
            let refused = SECOND.evidence(size, &sheet) == (0, 30 * 256);
            tally.expect(refused, &sheet, "30 before every other");
            compare_evidence(
                size,
                &sheet,
                "sheet of no size",
                &mut pages,
                Edge::End,
                tally,
            );
            let numbers = [0, 1, usize::MAX];
            compare_steps(
                size,
                &sheet,
                &numbers,
                "sheet of no size",
                &mut pages,
                Edge::End,
                tally,
            );
        }
    }
}

fn compare_corpus(corpus: &Corpus, tally: &mut Tally) {
    let size = corpus.size;
    let mut pages = Pages::default();
    let (mut sheets, mut steps) = (0usize, 0);
    let mut words = Kinds::default();
    let _ = corpus.visit(&mut |origin, sheet| {
        sheets += 1;
        words.count(word(size, sheet));
        let origin = origin.to_string();
        let some = sheets.is_multiple_of(8);
        let edge = Edge::of_call(sheets);
        let numbers = step_numbers(size, sheet, some);
        steps += numbers.len();
        compare_evidence(size, sheet, &origin, &mut pages, edge, tally);
        compare_steps(size, sheet, &numbers, &origin, &mut pages, edge, tally);
        if some {
            compare_evidence(size, sheet, &origin, &mut Boxes, edge, tally);
            compare_steps(size, sheet, &numbers, &origin, &mut Boxes, edge, tally);
        }
        if size == FOUR_POLLUTANTS {
            compare_lines(sheet, LINES, &origin, &mut pages, edge, tally);
        }
        if size == FOUR_POLLUTANTS && some {
            compare_lines(sheet, LINES, &origin, &mut Boxes, edge, tally);
            let exact = SECOND.lines(sheet, &mut []);
            for room in [exact - 1, exact] {
                compare_lines(sheet, room, &origin, &mut pages, Edge::End, tally);
            }
        }
        ControlFlow::Continue(())
    });
    println!("{sheets} sheets of {size}-byte records, each with its evidence, and {steps} steps");
    words.print(size, WORDS.to_vec(), tally);
}

/// The first words of printed lines, each of which has to be seen; and so is evidence of each
/// verdict.
const WORDS: [&str; 6] = ["another", "pass", "fail", "referred", "held", "refused"];

/// What the lines of a sheet begin with, or would in the other size.
fn word(size: usize, sheet: &[u8]) -> &'static str {
    let judged = judge(&Document01, size, sheet);
    judged.map_or("refused", |judgement| {
        Document01.verdict_word(judgement.verdict)
    })
}

fn compare_evidence(
    size: usize,
    sheet: &[u8],
    origin: &str,
    lender: &mut impl Lender,
    edge: Edge,
    tally: &mut Tally,
) {
    let library = evidence_of(&LIBRARY, size, sheet, lender, edge);
    let second = evidence_of(&SECOND, size, sheet, lender, edge);
    let what = || format!("evidence by {size} of a {origin}");
    tally.compare(sheet, what, library, second);
}

fn compare_lines(
    sheet: &[u8],
    room: usize,
    origin: &str,
    lender: &mut impl Lender,
    edge: Edge,
    tally: &mut Tally,
) {
    let library = lines_of(&LIBRARY, sheet, room, lender, edge);
    let second = lines_of(&SECOND, sheet, room, lender, edge);
    let what = || format!("lines of a {origin} in {room} bytes");
    tally.compare(sheet, what, library, second);
}

/// From the first record to one past the end; on some sheets also far behind it.
fn step_numbers(size: usize, sheet: &[u8], far: bool) -> Vec<usize> {
    let mut numbers: Vec<usize> = (0..=sheet.len() / size + 1).collect();
    if far {
        let most = usize::MAX;
        numbers.extend([
            Document01.most_records(size) + 1,
            1000,
            1 << 32,
            most / size,
            most / size + 1,
            most - 1,
            most,
        ]);
    }
    numbers
}

fn compare_steps(
    size: usize,
    sheet: &[u8],
    numbers: &[usize],
    origin: &str,
    lender: &mut impl Lender,
    edge: Edge,
    tally: &mut Tally,
) {
    for &k in numbers {
        let library = step_at(&LIBRARY, size, sheet, k, lender, edge);
        let second = step_at(&SECOND, size, sheet, k, lender, edge);
        let what = || format!("step {k} by {size} of a {origin}");
        tally.compare(sheet, what, library, second);
    }
}

/// Those of document 01 about sheets are to be noticed in either size.
fn catch_mutants() -> ExitCode {
    let mut mutants = Mutants::default();
    for wrong in variants::logarithm() {
        mutants.note(&wrong, in_logarithms(&second(&wrong)));
    }
    let whole_powers = SMALL.map(|m| (m, bracket::whole_power(m).0));
    for wrong in variants::brackets() {
        let second = second(&wrong);
        let caught_by = in_whole_powers(&whole_powers, &second).zip(in_brackets(&second));
        mutants.note(
            &wrong,
            caught_by.map(|(one, other)| format!("{one} and {other}")),
        );
    }
    for wrong in variants::brackets_of_few() {
        mutants.note(&wrong, in_brackets(&second(&wrong)));
    }
    catch_mutants_of_sheets(&mut mutants);
    mutants.finish()
}

fn second(wrong: &Wrong) -> Second<'_, dyn Document> {
    Second(wrong.reading.as_ref())
}

fn catch_mutants_of_sheets(mutants: &mut Mutants) {
    let scale = Scale {
        random_sheets: 20_000,
        ..FULL
    };
    let series = LineSeries::find(scale);
    let corpora = SIZES.map(|size| Corpus::new(size, &series, scale));
    let both = corpora.each_ref();
    for wrong in variants::evidence() {
        mutants.note_both(
            &wrong,
            both.map(|corpus| in_evidence(corpus, &second(&wrong))),
        );
    }
    for wrong in variants::lines() {
        mutants.note(&wrong, in_lines(&corpora[0], &second(&wrong)));
    }
    for wrong in variants::reader() {
        mutants.note_both(&wrong, both.map(|corpus| in_steps(corpus, &second(&wrong))));
    }
    for wrong in variants::evidence_by_size() {
        let second = &second(&wrong);
        let in_corpora = || {
            both.into_iter()
                .find_map(|corpus| in_evidence(corpus, second))
        };
        mutants.note(&wrong, in_no_sizes(second).or_else(in_corpora));
    }
    for wrong in variants::reader_by_size() {
        let second = &second(&wrong);
        let in_corpora = || both.into_iter().find_map(|corpus| in_steps(corpus, second));
        mutants.note(&wrong, in_no_sizes(second).or_else(in_corpora));
    }
}

/// The first logarithm in which the library and a wrong variant differ.
fn in_logarithms(wrong: &dyn Operations) -> Option<String> {
    let m = logarithm_arguments(1).find(|&m| LIBRARY.logarithm(m) != wrong.logarithm(m))?;
    Some(format!("g({m})"))
}

/// The first m at which the bracket or the order shows a wrong variant.
fn in_brackets(wrong: &dyn Operations) -> Option<String> {
    let mut walk = bracket::walk(|m| wrong.logarithm(m), 1);
    walk.find_map(|Bracketed { m, fault, .. }| Some(format!("the bracket of g({m}), {:?}", fault?)))
}

/// The first m of which the whole power, of so many binary digits, shows a wrong variant.
fn in_whole_powers(powers: &[(u32, u64)], wrong: &dyn Operations) -> Option<String> {
    let mut powers = powers.iter();
    let (m, _) = powers.find(|(m, digits)| !bracket::fits(wrong.logarithm(*m), *digits))?;
    Some(format!("the whole power of {m}"))
}

/// The first sheet with different evidence.
fn in_evidence(corpus: &Corpus, wrong: &dyn Operations) -> Option<String> {
    first_sheet(corpus, "evidence", |sheet| {
        evidence_differs(corpus.size, sheet, wrong)
    })
}

/// The first sheet with different lines.
fn in_lines(corpus: &Corpus, wrong: &dyn Operations) -> Option<String> {
    first_sheet(corpus, "lines", |sheet| {
        let lines = |operations| lines_of(operations, sheet, LINES, &mut Boxes, Edge::End);
        lines(&LIBRARY) != lines(wrong)
    })
}

/// The first sheet with a different step.
fn in_steps(corpus: &Corpus, wrong: &dyn Operations) -> Option<String> {
    first_sheet(corpus, "a step", |sheet| {
        let numbers = step_numbers(corpus.size, sheet, false);
        steps_differ(corpus.size, sheet, &numbers, wrong)
    })
}

/// The first size that is none by which evidence or a step differs.
fn in_no_sizes(wrong: &dyn Operations) -> Option<String> {
    sheets_of_either_size().iter().find_map(|sheet| {
        let differs = |&size: &usize| {
            evidence_differs(size, sheet, wrong) || steps_differ(size, sheet, &[0], wrong)
        };
        let size = NO_SIZES.into_iter().find(differs)?;
        Some(format!("{} bytes by {size}", sheet.len()))
    })
}

fn evidence_differs(size: usize, sheet: &[u8], wrong: &dyn Operations) -> bool {
    let evidence = |operations| evidence_of(operations, size, sheet, &mut Boxes, Edge::End);
    evidence(&LIBRARY) != evidence(wrong)
}

fn steps_differ(size: usize, sheet: &[u8], numbers: &[usize], wrong: &dyn Operations) -> bool {
    let at = |operations, k| step_at(operations, size, sheet, k, &mut Boxes, Edge::End);
    numbers.iter().any(|&k| at(&LIBRARY, k) != at(wrong, k))
}

fn first_sheet(
    corpus: &Corpus,
    what: &str,
    mut differs: impl FnMut(&[u8]) -> bool,
) -> Option<String> {
    let mut found = None;
    let _ = corpus.visit(&mut |origin, sheet| {
        if !differs(sheet) {
            return ControlFlow::Continue(());
        }
        found = Some(format!("{what} by {} of {origin}", corpus.size));
        ControlFlow::Break(())
    });
    found
}
