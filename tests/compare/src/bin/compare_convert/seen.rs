//! What the compared conversions showed from records of one size: every refusal, also where a later
//! one would have been due, outputs of every kind, the shortest and the longest sheets carried,
//! small engines, run-in values and pending vehicles.

use compare::cases::Answer;
use compare::clauses::{causes, has};
use compare::conversions::Conversion;
use compare::draft::{PENDING, POLLUTANT, RUN_IN, SMALL_ENGINE};
use compare::refusals::OF_RECORD;
use compare::tally::{Kinds, Tally};
use second::{Document, Document01, FOUR_POLLUTANTS, SIX_POLLUTANTS};
use std::fmt;

/// One kind of answer.
#[derive(Clone, Copy, PartialEq, Eq, PartialOrd, Ord)]
enum Kind {
    Refusal(u8),
    /// Refused by a number that comes before 31, or before 32.
    BeforeTooNarrow(u8),
    BeforeTooShort(u8),
    OneByteShort,
    ExactRoom,
    RoomToSpare,
    Records(usize),
    SmallEngine,
    RunIn,
    Pending,
}

impl fmt::Display for Kind {
    fn fmt(&self, formatter: &mut fmt::Formatter) -> fmt::Result {
        match self {
            Kind::Refusal(number) => write!(formatter, "refusal {number:2}"),
            Kind::BeforeTooNarrow(number) => write!(formatter, "refusal {number:2} before 31"),
            Kind::BeforeTooShort(number) => write!(formatter, "refusal {number:2} before 32"),
            Kind::OneByteShort => write!(formatter, "refusal 32 for one byte"),
            Kind::ExactRoom => write!(formatter, "into an output of the very length"),
            Kind::RoomToSpare => write!(formatter, "into a longer output"),
            Kind::Records(records) => write!(formatter, "{records} records carried"),
            Kind::SmallEngine => write!(formatter, "a small engine carried"),
            Kind::RunIn => write!(formatter, "run-in values carried"),
            Kind::Pending => write!(formatter, "a pending vehicle carried"),
        }
    }
}

/// What has to be seen from records of this size.
fn demanded(size: usize) -> Vec<Kind> {
    let mut kinds = vec![Kind::Refusal(1)];
    kinds.extend(OF_RECORD.map(Kind::Refusal));
    kinds.extend(OF_RECORD.map(Kind::BeforeTooShort));
    if size == SIX_POLLUTANTS {
        kinds.extend(OF_RECORD.map(Kind::BeforeTooNarrow));
        kinds.extend([Kind::Refusal(31), Kind::BeforeTooShort(31)]);
    }
    kinds.extend([
        Kind::Refusal(32),
        Kind::OneByteShort,
        Kind::ExactRoom,
        Kind::RoomToSpare,
        Kind::Records(1),
        Kind::Records(Document01.most_records(FOUR_POLLUTANTS)),
        Kind::SmallEngine,
        Kind::RunIn,
        Kind::Pending,
    ]);
    kinds
}

#[derive(Default)]
pub struct Seen(Kinds<Kind>);

impl Seen {
    pub fn note(&mut self, conversion: &Conversion, answer: &Answer) {
        let &Conversion { size, sheet, room } = conversion;
        let needed = Document01.carried_length(size, sheet.len());
        let number = (answer.code / 256) as u8;
        if number == 0 {
            self.0.count(if room == needed {
                Kind::ExactRoom
            } else {
                Kind::RoomToSpare
            });
            self.0.count(Kind::Records(sheet.len() / size));
            for (kind, carried) in [(SMALL_ENGINE, Kind::SmallEngine), (RUN_IN, Kind::RunIn)] {
                if has(kind, size, sheet) {
                    self.0.count(carried);
                }
            }
            if causes(size, sheet).any(|cause| cause == PENDING) {
                self.0.count(Kind::Pending);
            }
            return;
        }
        self.0.count(Kind::Refusal(number));
        if number == 32 && room + 1 == needed {
            self.0.count(Kind::OneByteShort);
        }
        if number != 32 && room < needed {
            self.0.count(Kind::BeforeTooShort(number));
        }
        if number != 31 && declares_too_much(size, sheet) {
            self.0.count(Kind::BeforeTooNarrow(number));
        }
    }

    pub fn print(&self, size: usize, tally: &mut Tally) {
        self.0.print(size, demanded(size), tally);
    }
}

/// A record of kind 1 has a pollutant that 20 bytes have no place for.
fn declares_too_much(size: usize, sheet: &[u8]) -> bool {
    let mut records = sheet.chunks_exact(size);
    records.any(|record| record[0] == POLLUTANT && (5..=6).contains(&record[1]))
}
