//! The sheets that every suite goes through, in records of one size: the directed sheets of small
//! engines and of run-in values, pairs on a line and series exact to a unit of W, on run-in sheets
//! too and all chosen by the paper, the directed sheets of plans 3, 4 and 5 and of pending vehicles,
//! some of all these with a small engine or run-in values put in, damaged sheets for every refusal,
//! the longest sheets, sheets of the other size, and random ones.

use crate::attributes;
use crate::corrected;
use crate::draft::{full_draft, numbers, random_draft, random_draft_under, random_small_engine};
use crate::draft::{stop_record, Draft, ENGINE, POLLUTANT, RUN_IN, SMALL_ENGINE, STOP};
use crate::exact::{self, Stand};
use crate::pairs::{self, Pair, Search};
use crate::paper::{Cell, Chosen, Paper, Single};
use crate::pending;
use crate::refusals::{unused_bytes, Sheet, Way, WAYS};
use crate::run_in;
use crate::service;
use crate::small_engines;
use random::Random;
use second::{check, Document, Document01, PLANS, UNKNOWN_DEVIATION};
use std::fmt;
use std::ops::ControlFlow;

/// How much is compared.
#[derive(Clone, Copy)]
pub struct Scale {
    pub pairs_in_cell: usize,
    /// Whether series exact to a unit of W are looked for.
    pub exact: bool,
    pub rounds_of_damage: usize,
    /// One of so many of the longest sheets that are damaged, of the sheets damaged twice and of the
    /// directed ones of run-in values, of plan 4 and of pending vehicles. Odd, so that of sheets that
    /// differ in four or in eight ways by turns each is taken.
    pub one_directed_in: usize,
    pub random_sheets: usize,
    pub promises: usize,
}

pub const FULL: Scale = Scale {
    pairs_in_cell: 24,
    exact: true,
    rounds_of_damage: 12,
    one_directed_in: 1,
    random_sheets: 250_000,
    promises: 40_000,
};

/// A part, for a run under valgrind.
pub const QUICK: Scale = Scale {
    pairs_in_cell: 1,
    exact: false,
    rounds_of_damage: 4,
    one_directed_in: 15,
    random_sheets: 1_000,
    promises: 200,
};

/// For the wrong variants of an operation that judges nothing.
pub const MUTANTS_OF_NO_JUDGE: Scale = Scale {
    random_sheets: 20_000,
    ..FULL.of_no_judge()
};

impl Scale {
    /// Few sheets on a line, for an operation that judges nothing.
    pub const fn of_no_judge(self) -> Self {
        Scale {
            pairs_in_cell: 1,
            exact: false,
            random_sheets: self.random_sheets / 2,
            ..self
        }
    }
}

/// Where a sheet comes from.
#[derive(Clone, Copy)]
pub enum Origin {
    SmallEngine,
    RunIn,
    Pair(Cell),
    Exact(Cell, Stand),
    Attributes,
    Corrected,
    InService,
    Pending,
    PutIn,
    Damage(usize),
    TwoDamages(usize, usize),
    /// By the record that has the byte.
    Unused(usize),
    Longest,
    OtherSize,
    Random,
}

impl fmt::Display for Origin {
    fn fmt(&self, formatter: &mut fmt::Formatter) -> fmt::Result {
        match *self {
            Origin::SmallEngine => write!(formatter, "directed sheet of a small engine"),
            Origin::RunIn => write!(formatter, "directed sheet of run-in values"),
            Origin::Pair(Cell { plan, row, line }) => {
                write!(formatter, "line pair, plan {plan}, row {row}, {line:?}")
            }
            Origin::Exact(Cell { plan, row, line }, stand) => {
                write!(
                    formatter,
                    "series exact to a unit of W, plan {plan}, row {row}, {line:?}, {stand:?}"
                )
            }
            Origin::Attributes => write!(formatter, "directed sheet of plan 3"),
            Origin::Corrected => write!(formatter, "directed sheet of plans 2 and 5"),
            Origin::InService => write!(formatter, "directed sheet of plan 4"),
            Origin::Pending => write!(formatter, "directed sheet of pending vehicles"),
            Origin::PutIn => write!(formatter, "sheet with a record put in"),
            Origin::Damage(way) => {
                write!(
                    formatter,
                    "refusal {}, {}",
                    WAYS[way].refusal, WAYS[way].name
                )
            }
            Origin::TwoDamages(one, other) => {
                write!(formatter, "{} and {}", WAYS[one].name, WAYS[other].name)
            }
            Origin::Unused(record) => {
                write!(formatter, "byte without a field in record {record}")
            }
            Origin::Longest => write!(formatter, "sheet of the most records"),
            Origin::OtherSize => write!(formatter, "sheet of the other size"),
            Origin::Random => write!(formatter, "random sheet"),
        }
    }
}

/// Series that are exact to a unit of W.
pub struct Exact {
    pub cell: Cell,
    pub stand: Stand,
    pub series: Vec<Single>,
    /// Under the plans that have run-in values, a twin of each.
    pub run_in_twins: Vec<Single>,
}

/// The series that stand on a line, before they are put on sheets.
pub struct LineSeries {
    pub paper: Paper,
    pub pairs: Vec<Pair>,
    pub exact: Vec<Exact>,
}

impl LineSeries {
    pub fn find(scale: Scale) -> Self {
        let mut random = Random::new(0xC0FFEE);
        let paper = Paper::read();
        let mut pairs = Vec::new();
        let mut exact = Vec::new();
        for cell in paper.cells() {
            for search in Search::all_in(cell) {
                let count = scale.pairs_in_cell;
                pairs.extend(pairs::pairs(&paper, search, count, &mut random));
            }
            if scale.exact && UNKNOWN_DEVIATION.contains(&cell.plan) {
                exact.extend(exact_series(&paper, cell, &mut random));
            }
        }
        LineSeries {
            paper,
            pairs,
            exact,
        }
    }
}

/// How many series are looked for on each side of a line.
pub const EXACT_IN_CELL: usize = 4;

/// Some on each side of the line, and one on the line, as far as they are found.
fn exact_series(paper: &Paper, cell: Cell, random: &mut Random) -> [Exact; 3] {
    let stands = [
        (Stand::Deciding, EXACT_IN_CELL),
        (Stand::Beyond, EXACT_IN_CELL),
        (Stand::OnLine, 1),
    ];
    stands.map(|(stand, count)| {
        let found = (0..count).filter_map(|_| exact::series(paper, cell, stand, random));
        let series: Vec<Single> = found.collect();
        let of_production = series.iter().filter(|_| cell.plan != 4);
        let twins = of_production.filter_map(|series| exact::run_in_twin(series, random));
        Exact {
            cell,
            stand,
            run_in_twins: twins.collect(),
            series,
        }
    })
}

/// Of so many sheets of pairs, one also has a record put in; odd, so that it is by turns the one
/// and the other of a pair.
const ONE_PUT_IN: usize = 5;

pub struct Corpus {
    /// Of the records.
    pub size: usize,
    small_engines: Vec<Chosen>,
    run_in: Vec<Chosen>,
    pub pairs: Vec<(Cell, [Chosen; 2])>,
    exact: Vec<(Cell, Stand, Chosen)>,
    attributes: Vec<Chosen>,
    corrected: Vec<Chosen>,
    in_service: Vec<Chosen>,
    pub pending: Vec<Chosen>,
    put_in: Vec<Chosen>,
    directed: Vec<(Origin, Vec<u8>)>,
    random_sheets: usize,
}

impl Corpus {
    pub fn new(size: usize, series: &LineSeries, scale: Scale) -> Self {
        let LineSeries {
            paper,
            pairs,
            exact,
        } = series;
        let pairs = pair_sheets(paper, pairs, size);
        let attributes = attributes::sheets(paper, size);
        let corrected = corrected::sheets(size);
        let of_pairs = pairs.iter().flat_map(|(_, sheets)| sheets);
        let some_of_pairs = of_pairs.step_by(ONE_PUT_IN);
        let some = some_of_pairs.chain(&attributes).chain(&corrected);
        let mut put_in = small_engines::put_in(size, some.clone());
        put_in.extend(run_in::put_in(size, some));
        Corpus {
            size,
            small_engines: small_engines::sheets(size),
            run_in: run_in::sheets(paper, size)
                .into_iter()
                .step_by(scale.one_directed_in)
                .collect(),
            pairs,
            exact: exact_sheets(paper, exact, size),
            attributes,
            corrected,
            in_service: service::sheets(paper, size, scale.one_directed_in),
            pending: pending::sheets(paper, size, scale.one_directed_in),
            put_in,
            directed: directed_sheets(size, scale),
            random_sheets: scale.random_sheets,
        }
    }

    /// The sheets that come with the report asked for.
    pub fn chosen(&self) -> impl Iterator<Item = (Origin, &Chosen)> {
        let pairs = self.pairs.iter();
        let pairs = pairs.flat_map(|(cell, sheets)| labelled(Origin::Pair(*cell), sheets));
        let exact = self.exact.iter();
        let exact = exact.map(|(cell, stand, chosen)| (Origin::Exact(*cell, *stand), chosen));
        labelled(Origin::SmallEngine, &self.small_engines)
            .chain(labelled(Origin::RunIn, &self.run_in))
            .chain(pairs)
            .chain(exact)
            .chain(labelled(Origin::Attributes, &self.attributes))
            .chain(labelled(Origin::Corrected, &self.corrected))
            .chain(labelled(Origin::InService, &self.in_service))
            .chain(labelled(Origin::Pending, &self.pending))
            .chain(labelled(Origin::PutIn, &self.put_in))
    }

    /// Shows every sheet with its origin.
    pub fn visit(
        &self,
        visit: &mut dyn FnMut(Origin, &[u8]) -> ControlFlow<()>,
    ) -> ControlFlow<()> {
        for (origin, chosen) in self.chosen() {
            visit(origin, &chosen.sheet)?;
        }
        for (origin, sheet) in &self.directed {
            visit(*origin, sheet)?;
        }
        let mut random = Random::new(0x5EED);
        for _ in 0..self.random_sheets {
            visit(Origin::Random, &random_sheet(self.size, &mut random))?;
        }
        ControlFlow::Continue(())
    }
}

/// Each pair is one pollutant's, by turns.
fn pair_sheets(paper: &Paper, pairs: &[Pair], size: usize) -> Vec<(Cell, [Chosen; 2])> {
    let by_turns = pairs.iter().zip(numbers(size).cycle());
    by_turns
        .map(|(pair, number)| {
            let chosen = |series| paper.chosen(series, size, number);
            (pair.search.cell, pair.series.each_ref().map(chosen))
        })
        .collect()
}

/// For each pollutant one of the series that stand so, and one of their twins.
fn exact_sheets(paper: &Paper, exact: &[Exact], size: usize) -> Vec<(Cell, Stand, Chosen)> {
    let mut sheets = Vec::new();
    for exact in exact {
        for series in [&exact.series, &exact.run_in_twins] {
            for (series, number) in series.iter().cycle().zip(numbers(size)) {
                let chosen = paper.chosen(series, size, number);
                sheets.push((exact.cell, exact.stand, chosen));
            }
        }
    }
    sheets
}

fn directed_sheets(size: usize, scale: Scale) -> Vec<(Origin, Vec<u8>)> {
    let mut random = Random::new(0xD1EC7ED);
    let mut directed = Vec::new();
    for round in 0..scale.rounds_of_damage {
        directed.extend(damaged_sheets(size, &mut random));
        let longest = longest_draft(size, UP_TO_32[round % UP_TO_32.len()], &mut random);
        let damaged = damaged_longest_sheets(&longest, &mut random).into_iter();
        let damaged = damaged.step_by(scale.one_directed_in);
        directed.extend(labelled(Origin::Longest, longest_sheets(&longest)));
        directed.extend(labelled(Origin::Longest, damaged));
        directed.extend(labelled(Origin::OtherSize, other_sheets(size, &mut random)));
    }
    let twice_damaged = twice_damaged_sheets(size, &mut random).into_iter();
    directed.extend(twice_damaged.step_by(scale.one_directed_in));
    let unused = unused_bytes(size, &mut random).into_iter();
    directed.extend(unused.map(|(record, sheet)| (Origin::Unused(record), sheet)));
    directed
}

fn labelled<T>(
    origin: Origin,
    sheets: impl IntoIterator<Item = T>,
) -> impl Iterator<Item = (Origin, T)> {
    sheets.into_iter().map(move |sheet| (origin, sheet))
}

/// How many accepted sheets are looked through for one with a place for some damage.
const TRIES: usize = 4;

/// For each plan, every way to a refusal that has a place there.
fn damaged_sheets(size: usize, random: &mut Random) -> Vec<(Origin, Vec<u8>)> {
    let mut sheets = Vec::new();
    for plan in 1..=PLANS {
        for (index, way) in WAYS.iter().enumerate() {
            let sheet = (0..TRIES).find_map(|_| damaged_sheet(size, plan, way, random));
            sheets.extend(sheet.map(|sheet| (Origin::Damage(index), sheet)));
        }
    }
    sheets
}

/// None where an accepted sheet has no place for the damage, or gets too long by it.
fn damaged_sheet(size: usize, plan: u8, way: &Way, random: &mut Random) -> Option<Vec<u8>> {
    let mut sheet = accepted_sheet(size, plan, random);
    let fits = (way.spoil)(&mut sheet, random);
    let short = sheet.bytes.len() <= Document01.longest_sheet(size);
    (fits && (way.refusal == 1 || short)).then_some(sheet.bytes)
}

/// Two faults on one sheet: the first record's holds, and in it the lowest number.
fn twice_damaged_sheets(size: usize, random: &mut Random) -> Vec<(Origin, Vec<u8>)> {
    let mut sheets = Vec::new();
    for (one, first) in WAYS.iter().enumerate() {
        for (other, second) in WAYS.iter().enumerate() {
            let plan = random.between(1, PLANS.into()) as u8;
            let mut sheet = accepted_sheet(size, plan, random);
            let spoilt = (first.spoil)(&mut sheet, random);
            if spoilt && starts_with_pollutant(&sheet) && (second.spoil)(&mut sheet, random) {
                sheets.push((Origin::TwoDamages(one, other), sheet.bytes));
            }
        }
    }
    sheets
}

fn starts_with_pollutant(sheet: &Sheet) -> bool {
    sheet.bytes.len() >= sheet.size && sheet.bytes[0] == POLLUTANT
}

fn accepted_sheet(size: usize, plan: u8, random: &mut Random) -> Sheet {
    loop {
        let bytes = random_draft_under(size, plan, random).bytes();
        if check(&Document01, size, &bytes).is_ok() {
            return Sheet { size, bytes };
        }
    }
}

/// The plans of the longest sheets, whose last row is 32.
const UP_TO_32: [u8; 3] = [1, 2, 5];

/// Whole, without its stop, and with the first four pollutants alone: the longest that can be
/// narrowed. Then without its small engine and without its run-in values, and of each one of as
/// many records as the longest that is refused for a record: with a second stop instead.
fn longest_sheets(longest: &Draft) -> Vec<Vec<u8>> {
    let mut without_stop = longest.clone();
    without_stop.stopped = false;
    let mut of_four = longest.clone();
    of_four.pollutants.truncate(4);
    let engines = of_four.engines.iter_mut().map(|one| &mut one.measurements);
    for measurements in engines.chain(&mut of_four.run_in) {
        measurements[4..].fill(0);
    }
    let mut sheets = vec![longest.bytes(), without_stop.bytes(), of_four.bytes()];
    for without in without_one(longest) {
        let stop = stop_record(longest.size);
        sheets.push(without.bytes());
        sheets.push([without.bytes(), stop].concat());
    }
    sheets
}

/// Without the small engine, and without the run-in values.
fn without_one(longest: &Draft) -> [Draft; 2] {
    let mut without_small_engine = longest.clone();
    without_small_engine.small_engine = None;
    let mut without_run_in = longest.clone();
    without_run_in.run_in = None;
    [without_small_engine, without_run_in]
}

/// With each damage that keeps the length; and without the small engine or the run-in values, with
/// each that brings it back to that length. F-1: "A sheet may hold 38 records", and F-2: "The
/// record limit rises by one", with or without kinds 5 and 6, so that a record is refused, and not
/// the length.
fn damaged_longest_sheets(longest: &Draft, random: &mut Random) -> Vec<Vec<u8>> {
    let size = longest.size;
    let mut sheets = Vec::new();
    let [one, other] = without_one(longest);
    for draft in [longest, &one, &other] {
        for way in &WAYS {
            let bytes = draft.bytes();
            let mut sheet = Sheet { size, bytes };
            let fits = (way.spoil)(&mut sheet, random);
            if fits && sheet.bytes.len() == Document01.longest_sheet(size) {
                sheets.push(sheet.bytes);
            }
        }
    }
    sheets
}

/// Every pollutant, a small engine, run-in values, 32 engines and a stop.
fn longest_draft(size: usize, plan: u8, random: &mut Random) -> Draft {
    let mut draft = full_draft(size, plan, random);
    draft.put_small_engine(random_small_engine(random));
    draft.run_in = Some(random.pick(&draft.engines).measurements);
    draft.stopped = true;
    draft
}

/// A sheet of the other size, and its first bytes as far as they are whole records of both: 140
/// bytes are 7 records of 20 and 5 of 28.
fn other_sheets(size: usize, random: &mut Random) -> Vec<Vec<u8>> {
    let sheet = random_draft(Document01.other_size(size), random).bytes();
    let whole = sheet[..sheet.len() - sheet.len() % 140].to_vec();
    vec![sheet, whole]
}

/// Half of them accepted, the others damaged, changed in some bytes, or no sheet at all.
fn random_sheet(size: usize, random: &mut Random) -> Vec<u8> {
    match random.below(8) {
        0 => random_bytes(size, random),
        1 => {
            let mut sheet = random_draft(size, random).bytes();
            for _ in 0..random.between(1, 3) {
                let place = random.below(sheet.len());
                sheet[place] = random.byte();
            }
            sheet
        }
        2 | 3 => {
            let bytes = random_draft(size, random).bytes();
            let mut sheet = Sheet { size, bytes };
            for _ in 0..random.between(1, 3) {
                let way = &WAYS[random.below(WAYS.len())];
                if starts_with_pollutant(&sheet) {
                    (way.spoil)(&mut sheet, random);
                }
            }
            sheet.bytes
        }
        _ => random_draft(size, random).bytes(),
    }
}

/// Random bytes of any length, half of them with the kind of each record in range.
fn random_bytes(size: usize, random: &mut Random) -> Vec<u8> {
    let most = Document01.longest_sheet(size) + 60;
    let mut sheet: Vec<u8> = (0..random.below(most)).map(|_| random.byte()).collect();
    if random.one_in(2) {
        sheet.truncate(sheet.len() - sheet.len() % size);
        for start in (0..sheet.len()).step_by(size) {
            sheet[start] = random.pick(&[POLLUTANT, ENGINE, STOP, SMALL_ENGINE, RUN_IN]);
        }
    }
    sheet
}
