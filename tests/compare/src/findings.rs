//! Calls to compare of the operation that enters a finding (document 02, F-5): on sheets with
//! pending vehicles, on the same sheets damaged in every way, and on all others, with engines and
//! findings in and out of their ranges; every finding on one sheet; several findings one after the
//! other; and sizes that are none.

use crate::cases::{code, sheets_of_either_size, Answer, Second, NO_SIZES};
use crate::clauses::causes;
use crate::corpus::{Corpus, Origin};
use crate::draft::{Draft, LARGEST_CAUSE, PENDING};
use crate::memory::{Edge, Lender};
use crate::pending;
use crate::refusals::{Sheet, Way, WAYS};
use random::Random;
use second::{finding, Document, Refusal, SIZES};
use std::fmt;
use std::ops::ControlFlow;

/// The operation, of the delivered library or of the second implementation.
pub trait Findings {
    fn enter(&self, size: usize, sheet: &mut [u8], engine: u32, finding: u32) -> u32;
}

impl<D: Document + ?Sized> Findings for Second<'_, D> {
    fn enter(&self, size: usize, sheet: &mut [u8], engine: u32, value: u32) -> u32 {
        code(finding(self.0, size, sheet, engine, value))
    }
}

/// One call.
#[derive(Clone, Copy)]
pub struct Finding<'a> {
    pub size: usize,
    pub sheet: &'a [u8],
    pub engine: u32,
    pub finding: u32,
}

impl fmt::Display for Finding<'_> {
    fn fmt(&self, formatter: &mut fmt::Formatter) -> fmt::Result {
        let Finding {
            size,
            sheet,
            engine,
            finding,
        } = self;
        let length = sheet.len();
        write!(
            formatter,
            "finding {finding} by {size} for engine {engine} of {length} bytes"
        )
    }
}

impl Finding<'_> {
    pub fn run(&self, findings: &dyn Findings, lender: &mut impl Lender, edge: Edge) -> Answer {
        let call = |_: &[u8], sheet: &mut [u8]| {
            findings.enter(self.size, sheet, self.engine, self.finding)
        };
        let (code, bytes) = lender.lend(&[], self.sheet, edge, call);
        Answer { code, bytes }
    }

    /// A refusal without a record, and nothing written.
    pub fn refused(&self, number: u8) -> Answer {
        Answer {
            code: Refusal::of_no_record(number).code(),
            bytes: self.sheet.to_vec(),
        }
    }

    /// The cause in the record of that engine, accepted or not.
    pub fn cause(&self) -> Option<u16> {
        causes(self.size, self.sheet).nth(self.engine.checked_sub(1)? as usize)
    }
}

/// Every vehicle, none, some beyond the last, and those that one or two bytes of the number, or all
/// its bits but the highest, would take for a vehicle.
const ENGINES: [u32; 28] = [
    0,
    1,
    2,
    3,
    4,
    5,
    6,
    7,
    8,
    9,
    10,
    11,
    12,
    13,
    14,
    15,
    16,
    17,
    255,
    256,
    257,
    271,
    65_536,
    65_537,
    1 << 31,
    (1 << 31) + 1,
    (1 << 31) + 15,
    u32::MAX,
];

/// The ends of the range and of the number's bytes, and numbers whose lower bits alone are in the
/// range. 7 and 8 are causes of other vehicles.
const FINDINGS: [u32; 19] = [
    0,
    1,
    7,
    8,
    255,
    256,
    257,
    0x1234,
    65_533,
    65_534,
    65_535,
    65_536,
    65_537,
    65_536 + 7,
    (1 << 17) - 1,
    1 << 31,
    (1 << 31) + 7,
    u32::MAX - 1,
    u32::MAX,
];

pub type Visit<'a> = dyn FnMut(&Finding) -> ControlFlow<()> + 'a;
pub type VisitFrom<'a> = dyn FnMut(Origin, &Finding) -> ControlFlow<()> + 'a;

/// Every call about the sheets of a corpus.
pub fn visit_findings(corpus: &Corpus, visit: &mut VisitFrom) -> ControlFlow<()> {
    let mut random = Random::new(0xF1D);
    let from_pending = &mut |call: &Finding| visit(Origin::Pending, call);
    visit_pending(corpus, &mut random, from_pending)?;
    visit_damaged(corpus.size, &mut random, visit)?;
    corpus.visit(&mut |origin, sheet| match origin {
        Origin::Pending => ControlFlow::Continue(()),
        _ => visit_some(corpus.size, sheet, &mut random, &mut |call| {
            visit(origin, call)
        }),
    })
}

/// Every finding of these for every engine of these.
fn visit_all(
    size: usize,
    sheet: &[u8],
    engines: &[u32],
    findings: &[u32],
    visit: &mut Visit,
) -> ControlFlow<()> {
    for &engine in engines {
        for &finding in findings {
            visit(&Finding {
                size,
                sheet,
                engine,
                finding,
            })?;
        }
    }
    ControlFlow::Continue(())
}

/// Any finding for these engines.
fn visit_any(
    size: usize,
    sheet: &[u8],
    engines: impl IntoIterator<Item = u32>,
    random: &mut Random,
    visit: &mut Visit,
) -> ControlFlow<()> {
    for engine in engines {
        let finding = random.pick(&FINDINGS);
        visit_all(size, sheet, &[engine], &[finding], visit)?;
    }
    ControlFlow::Continue(())
}

/// One of so many sheets gets every finding for every engine.
const ONE_WHOLE: usize = 50;

/// The sheets with pending vehicles: some with every finding for every engine, and all with any
/// finding for each vehicle and for any engine.
fn visit_pending(corpus: &Corpus, random: &mut Random, visit: &mut Visit) -> ControlFlow<()> {
    let size = corpus.size;
    for (number, chosen) in corpus.pending.iter().enumerate() {
        let sheet = &chosen.sheet;
        if number % ONE_WHOLE == 0 {
            visit_all(size, sheet, &ENGINES, &FINDINGS, visit)?;
        }
        let vehicles = 1..=causes(size, sheet).count() as u32;
        let engines = vehicles.chain([random.pick(&ENGINES)]);
        visit_any(size, sheet, engines, random, visit)?;
    }
    ControlFlow::Continue(())
}

/// How often each damage is done to each sheet, as it has several places.
const DAMAGES: usize = 4;

/// Sheets on which a finding could be entered but for the damage, for the pending vehicle and for
/// none.
fn visit_damaged(size: usize, random: &mut Random, visit: &mut VisitFrom) -> ControlFlow<()> {
    let drafts = pending::full_drafts(size);
    for (way, Way { spoil, .. }) in WAYS.iter().enumerate() {
        for draft in drafts.iter().cycle().take(DAMAGES * drafts.len()) {
            let bytes = draft.bytes();
            let mut sheet = Sheet { size, bytes };
            if spoil(&mut sheet, random) {
                let findings = [7, 0, PENDING.into()];
                visit_all(size, &sheet.bytes, &[0, 1, 15], &findings, &mut |call| {
                    visit(Origin::Damage(way), call)
                })?;
            }
        }
    }
    ControlFlow::Continue(())
}

/// A finding for the first pending vehicle, or the first engine if none is, and any.
fn visit_some(
    size: usize,
    sheet: &[u8],
    random: &mut Random,
    visit: &mut Visit,
) -> ControlFlow<()> {
    let pending = causes(size, sheet).position(|cause| cause == PENDING);
    let first = pending.map_or(1, |place| place as u32 + 1);
    let engines = [first, random.pick(&ENGINES)];
    visit_any(size, sheet, engines, random, visit)
}

/// By sizes that are none: what is right in either size, and what would be refused for something
/// else.
pub fn visit_no_sizes(visit: &mut Visit) -> ControlFlow<()> {
    let mut sheets = sheets_of_either_size();
    let pending = SIZES.into_iter().flat_map(pending::full_drafts);
    sheets.extend(pending.map(|draft| draft.bytes()));
    let findings = [0, 7, PENDING.into(), u32::MAX];
    for size in NO_SIZES {
        for sheet in &sheets {
            visit_all(size, sheet, &[0, 1, 15, u32::MAX], &findings, visit)?;
        }
    }
    ControlFlow::Continue(())
}

/// A sheet with pending vehicles, and a finding for each of them in the order in which they are
/// entered.
pub struct Chain {
    pub draft: Draft,
    /// Engines counted from 1, each with its finding.
    pub steps: Vec<(usize, u16)>,
}

/// The findings of a chain: two that other vehicles have, and the largest.
const FOUND: [u16; 3] = [7, 8, LARGEST_CAUSE];

/// How many pending vehicles are gone through in every order.
const FEW: usize = 3;

/// On sheets with a few pending vehicles every order and every choice of findings, on those with
/// more some. Of all sheets and chains, or of one sheet of so many one chain of so many.
pub fn chains(size: usize, one_in: usize) -> impl Iterator<Item = Chain> {
    let mut random = Random::new(0xC4A1);
    pending::drafts(size, one_in).flat_map(move |draft| {
        let pending = draft.pending();
        let steps = match pending.len() {
            ..=FEW => all_steps(&pending),
            _ => (0..20).map(|_| any_steps(&pending, &mut random)).collect(),
        };
        let some = steps.into_iter().step_by(one_in);
        some.map(move |steps| Chain {
            draft: draft.clone(),
            steps,
        })
    })
}

/// Every order of the engines, with every choice of findings.
fn all_steps(engines: &[usize]) -> Vec<Vec<(usize, u16)>> {
    let mut all = vec![];
    for &first in engines {
        let others: Vec<usize> = engines.iter().copied().filter(|&e| e != first).collect();
        for rest in all_steps(&others) {
            all.extend(FOUND.map(|finding| [&[(first, finding)], &rest[..]].concat()));
        }
    }
    if engines.is_empty() {
        all.push(vec![]);
    }
    all
}

fn any_steps(engines: &[usize], random: &mut Random) -> Vec<(usize, u16)> {
    let mut engines = engines.to_vec();
    random.shuffle(&mut engines);
    let steps = engines.into_iter();
    steps.map(|engine| (engine, random.pick(&FOUND))).collect()
}
