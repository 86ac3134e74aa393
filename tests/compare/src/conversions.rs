//! Calls of the converter to compare: sheets of either size, with outputs of every length about the
//! converted sheet's, and sizes that are none.

use crate::cases::{code, sheets_of_either_size, Answer, NO_SIZES};
use crate::corpus::{Corpus, Origin};
use crate::memory::{Edge, Lender};
use random::Random;
use second::{convert, Document, Document01, Refusal};
use std::fmt;
use std::ops::ControlFlow;

/// The converter of the delivered library or of the second implementation.
pub trait Converter {
    fn convert(&self, size: usize, sheet: &[u8], output: &mut [u8]) -> u32;
}

/// The second implementation by some document.
pub struct Second<'a, D: ?Sized>(pub &'a D);

impl<D: Document + ?Sized> Converter for Second<'_, D> {
    fn convert(&self, size: usize, sheet: &[u8], output: &mut [u8]) -> u32 {
        code(convert(self.0, size, sheet, output))
    }
}

/// One call, with an output of so many bytes.
pub struct Conversion<'a> {
    pub size: usize,
    pub sheet: &'a [u8],
    pub room: usize,
}

impl fmt::Display for Conversion<'_> {
    fn fmt(&self, formatter: &mut fmt::Formatter) -> fmt::Result {
        let Conversion { size, sheet, room } = self;
        let length = sheet.len();
        write!(
            formatter,
            "convert by {size} of {length} bytes into {room} bytes"
        )
    }
}

impl Conversion<'_> {
    pub fn run(&self, converter: &dyn Converter, lender: &mut impl Lender, edge: Edge) -> Answer {
        let call = |sheet: &[u8], output: &mut [u8]| converter.convert(self.size, sheet, output);
        let (code, bytes) = lender.lend(self.sheet, &UNWRITTEN[..self.room], edge, call);
        Answer { code, bytes }
    }

    /// A refusal without a record, and nothing written.
    pub fn refused(&self, number: u8) -> Answer {
        Answer {
            code: Refusal::of_no_record(number).code(),
            bytes: UNWRITTEN[..self.room].to_vec(),
        }
    }
}

/// What an output holds before the call: no zero, and no byte like the next.
static UNWRITTEN: [u8; 4096] = {
    let mut bytes = [0; 4096];
    let mut place = 0;
    while place < bytes.len() {
        bytes[place] = (place % 255) as u8 + 1;
        place += 1;
    }
    bytes
};

pub type Visit<'a> = dyn FnMut(Origin, &Conversion) -> ControlFlow<()> + 'a;

/// Every sheet of a corpus, with two outputs; some sheets with outputs of every length up to two
/// bytes more than is needed.
pub fn visit_conversions(corpus: &Corpus, visit: &mut Visit) -> ControlFlow<()> {
    let size = corpus.size;
    let mut random = Random::new(0xC04E47);
    let mut sheets = 0usize;
    corpus.visit(&mut |origin, sheet| {
        sheets += 1;
        let needed = Document01.carried_length(size, sheet.len());
        let every = sheets.is_multiple_of(match origin {
            Origin::Longest | Origin::Damage(_) | Origin::OtherSize => 25,
            _ => 500,
        });
        let rooms = if every {
            (0..=needed + 2).collect()
        } else {
            two_rooms(sheet.len(), needed, &mut random)
        };
        rooms.into_iter().try_for_each(|room| {
            let conversion = Conversion { size, sheet, room };
            visit(origin, &conversion)
        })
    })
}

/// Enough room, and another.
fn two_rooms(sheet: usize, needed: usize, random: &mut Random) -> Vec<usize> {
    let short = needed.saturating_sub(1);
    let others = [0, short, short, needed, needed + 1, sheet, needed / 2];
    vec![
        needed + random.pick(&[0, 0, 1, 2, 29]),
        random.pick(&others),
    ]
}

/// What is right in either size, and what would be refused for something else, by sizes that are
/// none.
pub fn visit_no_sizes(visit: &mut dyn FnMut(&Conversion) -> ControlFlow<()>) -> ControlFlow<()> {
    let sheets = sheets_of_either_size();
    for size in NO_SIZES {
        for sheet in &sheets {
            for room in [0, 1, sheet.len(), 2 * sheet.len()] {
                visit(&Conversion { size, sheet, room })?;
            }
        }
    }
    ControlFlow::Continue(())
}
