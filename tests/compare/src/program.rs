//! What the programs of the comparison have in common: their modes, and the count of wrong
//! variants.

use second::variants::{Family, Wrong};
use second::Document;
use std::ops::ControlFlow;
use std::process::ExitCode;

/// Without an argument everything is gone through; `--quick` takes a part, for a run under
/// valgrind, and `--mutants` shows that the comparison notices each wrong variant.
pub fn run(
    program: &str,
    full: impl FnOnce() -> ExitCode,
    quick: impl FnOnce() -> ExitCode,
    mutants: impl FnOnce() -> ExitCode,
) -> ExitCode {
    let mode = std::env::args().nth(1);
    match mode.as_deref() {
        None => full(),
        Some("--quick") => quick(),
        Some("--mutants") => mutants(),
        Some(_) => {
            eprintln!("usage: {program} [--quick | --mutants]");
            ExitCode::FAILURE
        }
    }
}

/// What of many calls shows a wrong variant first.
#[derive(Default)]
pub struct First(pub Option<String>);

impl First {
    /// To the next call if this one is answered alike, and else its name.
    pub fn note(&mut self, alike: bool, name: impl FnOnce() -> String) -> ControlFlow<()> {
        if alike {
            return ControlFlow::Continue(());
        }
        self.0 = Some(name());
        ControlFlow::Break(())
    }
}

/// How many wrong variants were tried, and how many nothing noticed.
#[derive(Default)]
pub struct Mutants {
    tried: usize,
    survivors: usize,
}

impl Mutants {
    /// One wrong variant, and what has shown it.
    pub fn note(&mut self, wrong: &Wrong, caught_by: Option<String>) {
        self.tried += 1;
        self.survivors += usize::from(caught_by.is_none());
        let caught_by = caught_by.unwrap_or("NOTHING".to_string());
        println!("{}: caught by {caught_by}", wrong.description);
    }

    /// One wrong variant that has to be shown in either size.
    pub fn note_both(&mut self, wrong: &Wrong, caught_by: [Option<String>; 2]) {
        let [four, six] = caught_by;
        let both = four.zip(six);
        self.note(wrong, both.map(|(four, six)| format!("{four}, {six}")));
    }

    /// Each has to be caught in the one way, in records of either size, by sheets of its plan.
    pub fn try_families(
        &mut self,
        families: Vec<Family>,
        is_caught: impl Fn(u8, &dyn Document) -> bool,
    ) {
        for Family {
            title,
            plan,
            readings,
        } in families
        {
            let survivors: Vec<&str> = readings
                .iter()
                .filter(|wrong| !is_caught(plan, wrong.reading.as_ref()))
                .map(|wrong| wrong.description.as_str())
                .collect();
            let caught = readings.len() - survivors.len();
            println!(
                "{title}: {caught} caught by report in either size, not caught: {survivors:?}"
            );
            self.tried += readings.len();
            self.survivors += survivors.len();
        }
    }

    /// The last line, and the exit status.
    pub fn finish(self) -> ExitCode {
        let Mutants { tried, survivors } = self;
        println!("mutants: {tried} wrong variants, {survivors} not caught");
        ExitCode::from(u8::from(survivors > 0))
    }
}
