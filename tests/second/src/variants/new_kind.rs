//! Wrong readings of what every request brings that brings a kind of record: its place among the
//! other kinds, its refusals, their order and the record that they name, its zeros, the records
//! that a sheet holds, and what append and report make of its refusals.

use super::Wrong;
use crate::check::{Record, Refusal, Series};
use crate::check::{ENGINE, POLLUTANT, STOP};
use crate::document::{Document, Document01};
use crate::judge::{Ending, Judgement};

/// A kind of record that a request brings.
#[derive(Clone, Copy)]
pub struct NewKind {
    pub kind: u8,
    pub name: &'static str,
    /// What its records can be refused with behind 3, in the order of the refusals.
    pub refusals: &'static [u8],
    /// Whether a record of the kind has the fault of one of these numbers.
    pub has_fault: fn(u8, &Record, &Series) -> bool,
    /// Those of the numbers that the request brings.
    pub brought: &'static [u8],
    /// How many records of the kind there are so far.
    pub count: fn(&Series) -> usize,
}

impl NewKind {
    fn brings(self, refusal: Refusal) -> bool {
        self.brought.contains(&refusal.number)
    }

    /// As in "16 to 18".
    fn numbers(self) -> String {
        match self.brought {
            [first, .., last] => format!("{first} to {last}"),
            numbers => numbers.iter().map(u8::to_string).collect(),
        }
    }
}

/// A record of one kind gets this number where the series so far is such.
pub struct Refused {
    pub kind: u8,
    pub number: u8,
    pub when: fn(&Series) -> bool,
}

impl Document for Refused {
    fn fault(&self, record: &Record, so_far: &Series) -> Option<u8> {
        if record[0] == self.kind && (self.when)(so_far) {
            Some(self.number)
        } else {
            Document01.fault(record, so_far)
        }
    }
}

/// A record of one kind is refused as misplaced, or is not, where the series so far is such.
struct Placed {
    kind: u8,
    misplaced: bool,
    when: fn(NewKind, &Series) -> bool,
    new: NewKind,
}

impl Document for Placed {
    fn is_misplaced(&self, kind: u8, so_far: &Series) -> bool {
        if kind == self.kind && (self.when)(self.new, so_far) {
            self.misplaced
        } else {
            Document01.is_misplaced(kind, so_far)
        }
    }
}

/// "3, first record not kind 1, kind 1 after another kind, or anything after kind 3", with the new
/// kind among the others.
pub fn misplaced(new: NewKind) -> Vec<Wrong> {
    let name = new.name;
    let wrong = |what: String, kind, misplaced, when| {
        let placed = Placed {
            kind,
            misplaced,
            when,
            new,
        };
        Wrong::new(format!("refusal 3: {what}"), placed)
    };
    vec![
        wrong(
            format!("{name} as the first record accepted"),
            new.kind,
            false,
            |new, so_far| so_far.declared == 0 && (new.count)(so_far) == 0,
        ),
        wrong(
            format!("a pollutant after {name} accepted"),
            POLLUTANT,
            false,
            |new, so_far| (new.count)(so_far) > 0 && so_far.tested == 0 && !so_far.stopped,
        ),
        wrong(
            format!("an engine after {name} refused"),
            ENGINE,
            true,
            |new, so_far| (new.count)(so_far) > 0,
        ),
        wrong(
            format!("a stop straight after {name} refused"),
            STOP,
            true,
            |new, so_far| (new.count)(so_far) > 0 && so_far.tested == 0,
        ),
    ]
}

/// The refusals of a new kind's record in another order.
struct Order {
    new: NewKind,
    numbers: Vec<u8>,
}

impl Document for Order {
    fn fault(&self, record: &Record, so_far: &Series) -> Option<u8> {
        let fault = Document01.fault(record, so_far);
        if record[0] != self.new.kind || fault == Some(3) {
            return fault;
        }
        let mut numbers = self.numbers.iter().copied();
        numbers.find(|&number| (self.new.has_fault)(number, record, so_far))
    }
}

/// Every other order of the refusals of a new kind's record.
pub fn orders(new: NewKind) -> Vec<Wrong> {
    let count = new.refusals.len();
    let mut all = Vec::new();
    for places in 0..count.pow(count as u32) {
        let digits = (0..count as u32).map(|digit| places / count.pow(digit) % count);
        let numbers: Vec<u8> = digits.map(|place| new.refusals[place]).collect();
        let has_each = new.refusals.iter().all(|number| numbers.contains(number));
        if has_each && numbers != new.refusals {
            let description = format!("{}: refusals in the order {numbers:?}", new.name);
            all.push(Wrong::new(description, Order { new, numbers }));
        }
    }
    all
}

/// One refusal of a new kind's record before 3.
struct Before3 {
    new: NewKind,
    number: u8,
}

impl Document for Before3 {
    fn fault(&self, record: &Record, so_far: &Series) -> Option<u8> {
        let NewKind {
            kind, has_fault, ..
        } = self.new;
        if record[0] == kind && has_fault(self.number, record, so_far) {
            Some(self.number)
        } else {
            Document01.fault(record, so_far)
        }
    }
}

/// The first of them stands "after 3", and the others with it.
pub fn before_3(new: NewKind) -> Vec<Wrong> {
    let before = |&number: &u8| {
        let description = format!("{}: refusal {number} before 3", new.name);
        Wrong::new(description, Before3 { new, number })
    };
    new.refusals.iter().map(before).collect()
}

/// One refusal names a record that is some places before its own.
struct NamedBefore {
    number: u8,
    places: usize,
}

impl Document for NamedBefore {
    fn refusal_of_record(&self, number: u8, record: usize) -> Refusal {
        let before = if number == self.number {
            self.places
        } else {
            0
        };
        Document01.refusal_of_record(number, record.saturating_sub(before))
    }
}

/// "It returns number and record counted from 0": the record itself.
pub fn records_named(new: NewKind) -> Vec<Wrong> {
    let mut all = Vec::new();
    for &number in new.brought {
        for (places, named) in [(1, "the record before"), (usize::MAX, "record 0")] {
            let description = format!("refusal {number}: {named} named");
            all.push(Wrong::new(description, NamedBefore { number, places }));
        }
    }
    all
}

/// Some bytes of a new kind's record not looked at.
struct Overlooked {
    kind: u8,
    bytes: Vec<usize>,
}

impl Document for Overlooked {
    fn fault(&self, record: &Record, so_far: &Series) -> Option<u8> {
        if record[0] != self.kind {
            return Document01.fault(record, so_far);
        }
        let mut rest = record.to_vec();
        for &byte in &self.bytes {
            rest[byte] = 0;
        }
        Document01.fault(&rest, so_far)
    }
}

/// The bytes of a new kind's record that must be zero, in records of either size: each of them
/// overlooked, and all.
pub fn zeros(new: NewKind, bytes: impl Iterator<Item = usize>) -> Vec<Wrong> {
    let NewKind { kind, name, .. } = new;
    let bytes: Vec<usize> = bytes.collect();
    let overlooked = |byte: &usize| {
        let description = format!("refusal 12: byte {byte} of {name} not looked at");
        let bytes = vec![*byte];
        Wrong::new(description, Overlooked { kind, bytes })
    };
    let mut all: Vec<Wrong> = bytes.iter().map(overlooked).collect();
    let description = format!("refusal 12: no byte of {name} looked at");
    all.push(Wrong::new(description, Overlooked { kind, bytes }));
    all
}

/// The most records are refused for their length unless one of them is of the new kind.
struct MostOnlyWith(NewKind);

impl Document for MostOnlyWith {
    fn sheet_fault(&self, size: usize, sheet: &[u8]) -> Option<u8> {
        let without = || {
            let mut records = sheet.chunks_exact(size);
            records.all(|record| record[0] != self.0.kind)
        };
        let fault = Document01.sheet_fault(size, sheet);
        let most = sheet.len() == self.longest_sheet(size);
        fault.or_else(|| (most && without()).then_some(1))
    }
}

/// So many records a sheet may hold, whichever they are.
pub fn most_only_with(new: NewKind) -> Wrong {
    let description = format!("refusal 1: the most records without {}", new.name);
    Wrong::new(description, MostOnlyWith(new))
}

/// A record of the new kind is an engine.
struct AnEngine(NewKind);

impl Document for AnEngine {
    fn is_engine(&self, kind: u8) -> bool {
        kind == ENGINE || kind == self.0.kind
    }
}

/// The deciding engine is counted with the new kind's record.
struct CountedWith(NewKind);

impl Document for CountedWith {
    fn ended(&self, ending: Ending, n: usize, series: &Series) -> (Ending, usize) {
        (ending, n + (self.0.count)(series))
    }
}

/// For refusal 10 the new kind's record counts as an engine.
struct OneLess(NewKind);

impl Document for OneLess {
    fn is_one_too_many(&self, so_far: &Series) -> bool {
        so_far.tested + (self.0.count)(so_far) == self.last_row(so_far.plan)
    }
}

/// Refusal 10 lets one engine more pass on a sheet with the new kind's record.
struct OneMore(NewKind);

impl Document for OneMore {
    fn is_one_too_many(&self, so_far: &Series) -> bool {
        so_far.tested == self.last_row(so_far.plan) + (self.0.count)(so_far)
    }
}

/// "Its engines are its records of kind 2", and the new kind is none of them.
pub fn engines_counted(new: NewKind) -> Vec<Wrong> {
    let name = new.name;
    vec![
        Wrong::new(format!("{name} counted as an engine"), AnEngine(new)),
        Wrong::new(
            format!("the deciding engine counted with {name}"),
            CountedWith(new),
        ),
        Wrong::new(
            format!("refusal 10: {name} counted as an engine"),
            OneLess(new),
        ),
        Wrong::new(
            format!("refusal 10: an engine more with {name}"),
            OneMore(new),
        ),
    ]
}

/// The sheet there is not asked for the new refusals. The joined sheet has the same fault, but may
/// be too long.
struct NotThere(NewKind);

impl Document for NotThere {
    fn refusal_of_sheet_there(&self, refusal: Option<Refusal>) -> Option<Refusal> {
        refusal.filter(|&refusal| !self.0.brings(refusal))
    }
}

/// The joined sheet is not asked for the new refusals.
struct NotJoined(NewKind);

impl Document for NotJoined {
    fn refusal_of_joined_sheet(&self, refusal: Option<Refusal>) -> Option<Refusal> {
        refusal.filter(|&refusal| !self.0.brings(refusal))
    }
}

/// In append the new refusals name no record.
struct NoRecord(NewKind);

impl Document for NoRecord {
    fn refusal_of_joined_sheet(&self, refusal: Option<Refusal>) -> Option<Refusal> {
        refusal.map(|refusal| match self.0.brings(refusal) {
            true => Refusal::of_no_record(refusal.number),
            false => refusal,
        })
    }
}

/// A record refused with a new number is written.
struct Written(NewKind);

impl Document for Written {
    fn stays_written(&self, refusal: Option<Refusal>) -> bool {
        refusal.is_none_or(|refusal| self.0.brings(refusal))
    }
}

/// In report the new refusals come before 15.
struct Before15(NewKind);

impl Document for Before15 {
    fn report_answer(
        &self,
        size: usize,
        output: usize,
        judged: Result<Judgement, Refusal>,
    ) -> Result<Judgement, Refusal> {
        match judged {
            Err(refusal) if self.0.brings(refusal) => judged,
            _ => Document01.report_answer(size, output, judged),
        }
    }
}

/// "Here and later, a sheet's new refusals stand with 1 to 12 in append", and as judge's in report.
pub fn operations(new: NewKind) -> Vec<Wrong> {
    let numbers = new.numbers();
    vec![
        Wrong::new(
            format!("append: {numbers} not asked of the sheet there"),
            NotThere(new),
        ),
        Wrong::new(
            format!("append: {numbers} not asked of the joined sheet"),
            NotJoined(new),
        ),
        Wrong::new(format!("append: {numbers} with record 0"), NoRecord(new)),
        Wrong::new(
            format!("append: a record refused with {numbers} is written"),
            Written(new),
        ),
        Wrong::new(format!("report: {numbers} before 15"), Before15(new)),
    ]
}
