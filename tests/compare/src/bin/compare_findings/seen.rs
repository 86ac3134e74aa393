//! What the compared findings showed in records of one size: every refusal, also where a later one
//! would have been due, each reason for 23 and 24, each vehicle that got its finding, and what a
//! finding made of each verdict.

use compare::cases::Answer;
use compare::draft::PENDING;
use compare::findings::Finding;
use compare::paper::Report;
use compare::refusals::OF_RECORD;
use compare::seen::ending_name;
use compare::tally::{Kinds, Tally};
use second::{judge, Document, Document01};
use std::fmt;

/// One kind of answer.
#[derive(Clone, Copy, PartialEq, Eq, PartialOrd, Ord)]
enum Kind {
    Refusal(u8),
    /// The sheet's own, where otherwise 23 or 24 was due, or the finding would have been entered.
    Before {
        number: u8,
        due: Due,
    },
    NoVehicle(&'static str),
    NoFinding(&'static str),
    Entered {
        engine: u32,
    },
    /// By the verdict before.
    EnteredWhere(&'static str),
    /// By the endings before and after.
    Step(&'static str, &'static str),
}

/// What a call would lead to on an accepted sheet.
#[derive(Clone, Copy, PartialEq, Eq, PartialOrd, Ord)]
enum Due {
    NoVehicle,
    NoFinding,
    Entering,
}

impl fmt::Display for Kind {
    fn fmt(&self, formatter: &mut fmt::Formatter) -> fmt::Result {
        match self {
            Kind::Refusal(number) => write!(formatter, "refusal {number:2}"),
            Kind::Before { number, due } => {
                let due = match due {
                    Due::NoVehicle => "before 23",
                    Due::NoFinding => "before 24",
                    Due::Entering => "of a finding that was due",
                };
                write!(formatter, "refusal {number:2} {due}")
            }
            Kind::NoVehicle(reason) => write!(formatter, "refusal 23, {reason}"),
            Kind::NoFinding(reason) => write!(formatter, "refusal 24, {reason}"),
            Kind::Entered { engine } => write!(formatter, "entered for engine {engine}"),
            Kind::EnteredWhere(verdict) => write!(formatter, "entered, verdict {verdict}"),
            Kind::Step(before, after) => write!(formatter, "a finding: {before}, then {after}"),
        }
    }
}

const NO_VEHICLE: [&str; 6] = [
    "engine 0",
    "an engine beyond the last",
    "a known cause",
    "a vehicle that is no gross emitter",
    "an engine of another plan",
    "before 24",
];

const NO_FINDING: [&str; 4] = ["0", "65,535", "65,536", "fitting in its low 16 bits"];

/// What a finding can make of a sheet: of a held one anything, of another nothing.
const STEPS: [(&str, &str); 10] = [
    ("held", "held"),
    ("held", "another"),
    ("held", "pass by a row"),
    ("held", "fail by a row"),
    ("held", "fail by equal cause"),
    ("held", "referred"),
    ("another", "another"),
    ("pass by a row", "pass by a row"),
    ("fail by a row", "fail by a row"),
    ("fail by equal cause", "fail by equal cause"),
];

/// The refusals that a sheet with a pending vehicle can have, which is none of a small engine's
/// own: plan 4 has no place for its record.
fn beside_pending() -> impl Iterator<Item = u8> {
    let of_record = OF_RECORD
        .into_iter()
        .filter(|number| ![17, 18].contains(number));
    [1].into_iter().chain(of_record)
}

/// What has to be seen in records of either size.
fn demanded() -> Vec<Kind> {
    let mut kinds = vec![Kind::Refusal(1)];
    kinds.extend(OF_RECORD.map(Kind::Refusal));
    kinds.extend([23, 24].map(Kind::Refusal));
    for due in [Due::NoVehicle, Due::NoFinding, Due::Entering] {
        kinds.extend(beside_pending().map(|number| Kind::Before { number, due }));
    }
    kinds.extend(NO_VEHICLE.map(Kind::NoVehicle));
    kinds.extend(NO_FINDING.map(Kind::NoFinding));
    kinds.extend((1..=Document01.last_row(4) as u32).map(|engine| Kind::Entered { engine }));
    kinds.extend(["another", "pass", "fail", "held"].map(Kind::EnteredWhere));
    kinds.extend(STEPS.map(|(before, after)| Kind::Step(before, after)));
    kinds
}

#[derive(Default)]
pub struct Seen(Kinds<Kind>);

impl Seen {
    pub fn note(&mut self, call: &Finding, answer: &Answer) {
        let number = (answer.code / 256) as u8;
        let fits = Document01.finding_fits(call.finding);
        if number > 0 {
            self.0.count(Kind::Refusal(number));
        }
        match number {
            0 => self.note_entered(call),
            23 => {
                self.0.count(Kind::NoVehicle(no_vehicle(call)));
                if !fits {
                    self.0.count(Kind::NoVehicle("before 24"));
                }
            }
            24 => {
                if let Some(reason) = no_finding(call.finding) {
                    self.0.count(Kind::NoFinding(reason));
                }
            }
            _ => {
                let due = match call.cause() {
                    Some(PENDING) if fits => Due::Entering,
                    Some(PENDING) => Due::NoFinding,
                    _ => Due::NoVehicle,
                };
                self.0.count(Kind::Before { number, due });
            }
        }
    }

    fn note_entered(&mut self, call: &Finding) {
        let engine = call.engine;
        let judgement = judge(&Document01, call.size, call.sheet).expect("an accepted sheet");
        self.0.count(Kind::Entered { engine });
        let word = Document01.verdict_word(judgement.verdict);
        self.0.count(Kind::EnteredWhere(word));
    }

    pub fn note_step(&mut self, before: &Report, after: &Report) {
        let [before, after] = [before, after].map(|report| ending_name(report[1], report[2]));
        self.0.count(Kind::Step(before, after));
    }

    pub fn print(&self, size: usize, tally: &mut Tally) {
        self.0.print(size, demanded(), tally);
    }
}

fn no_vehicle(call: &Finding) -> &'static str {
    match call.cause() {
        None if call.engine == 0 => "engine 0",
        None => "an engine beyond the last",
        Some(0) if call.sheet[2] != 4 => "an engine of another plan",
        Some(0) => "a vehicle that is no gross emitter",
        Some(_) => "a known cause",
    }
}

fn no_finding(finding: u32) -> Option<&'static str> {
    match finding {
        0 => Some("0"),
        65_535 => Some("65,535"),
        65_536 => Some("65,536"),
        _ if Document01.finding_fits(finding % 65_536) => Some("fitting in its low 16 bits"),
        _ => None,
    }
}
