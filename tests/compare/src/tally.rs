//! Counts what was compared and shows what differs.

use std::collections::BTreeMap;
use std::fmt::{Debug, Display};
use std::process::ExitCode;

/// How many differences are printed in full.
const SHOWN: u64 = 10;

#[derive(Default)]
pub struct Tally {
    cases: u64,
    differences: u64,
    gaps: u64,
}

impl Tally {
    /// Compares two answers; `sheet` and `what` are printed where they differ.
    pub fn compare<T: PartialEq + Debug>(
        &mut self,
        sheet: &[u8],
        what: impl FnOnce() -> String,
        library: T,
        second: T,
    ) {
        self.cases += 1;
        if library == second {
            return;
        }
        self.differences += 1;
        if self.differences <= SHOWN {
            println!("difference in {}", what());
            println!("  sheet   {}", hexadecimal(sheet));
            println!("  library {library:?}");
            println!("  second  {second:?}");
        }
    }

    /// Counts a property that was looked at on the second implementation itself.
    pub fn expect(&mut self, holds: bool, sheet: &[u8], what: &str) {
        self.compare(sheet, || what.to_string(), holds, true);
    }

    /// Something that should have been compared and was not.
    pub fn gap(&mut self, what: &str) {
        self.gaps += 1;
        println!("never seen: {what}");
    }

    pub fn cases(&self) -> u64 {
        self.cases
    }

    /// The last line, and the exit status.
    pub fn finish(self) -> ExitCode {
        if self.gaps > 0 {
            println!("{} gaps in what was compared", self.gaps);
        }
        println!(
            "compare: {} cases, {} differences",
            self.cases, self.differences
        );
        if self.differences + self.gaps == 0 {
            ExitCode::SUCCESS
        } else {
            ExitCode::FAILURE
        }
    }
}

/// How often each kind of answer was compared.
pub struct Kinds<K>(BTreeMap<K, u64>);

impl<K> Default for Kinds<K> {
    fn default() -> Self {
        Kinds(BTreeMap::new())
    }
}

impl<K: Ord + Display> Kinds<K> {
    pub fn count(&mut self, kind: K) {
        *self.0.entry(kind).or_default() += 1;
    }

    /// Prints those that have to be seen in records of this size; what was never seen is a gap.
    pub fn print(&self, size: usize, demanded: Vec<K>, tally: &mut Tally) {
        for kind in demanded {
            match self.0.get(&kind) {
                Some(count) => println!("  {kind}: {count} answers"),
                None => tally.gap(&format!("{kind}, in records of {size} bytes")),
            }
        }
    }
}

pub fn hexadecimal(bytes: &[u8]) -> String {
    bytes.iter().map(|byte| format!("{byte:02x}")).collect()
}
