//! Demand 3 as a property of random sheets, on the second implementation itself: a decision is kept
//! by every longer sheet, a full sheet is decided, and under plans 1 and 3 lower measurements never
//! make a pass later or a fail sooner. Of plan 5, F-6 says: "Keeping a decision and ending at 32
//! hold for it too"; and F-10: "Keeping a decision, ending and lowering hold for either size". They
//! hold with a small engine (F-1) as without, and its record decides nothing. With run-in values
//! (F-2) keeping and ending hold too; "on a run-in sheet the run-in values are measurements too;
//! lowering keeps its meaning there if the first engine's zero-hour values are the same in both
//! sheets". With pending vehicles (F-5) "a held sheet counts as undecided, and a full sheet with a
//! pending vehicle may be held"; "a verdict other than held is the same under every finding that
//! could follow", and what a finding makes of an accepted sheet is accepted.

use crate::corpus::Scale;
use crate::draft::{full_draft, plans_of_production, random_draft, random_finding};
use crate::draft::{random_small_engine, Draft, Pollutant, PENDING};
use crate::paper::measured_alone;
use crate::pending;
use crate::tally::Tally;
use random::Random;
use second::{finding, judge, Document, Document01, Judgement, Verdict, PLANS};
use std::collections::BTreeMap;
use std::fmt;

/// The plan of a sheet, and whether it has a small engine, run-in values and pending vehicles.
#[derive(Clone, Copy, PartialEq, Eq, PartialOrd, Ord)]
struct Group {
    plan: u8,
    small_engine: bool,
    run_in: bool,
    pending: bool,
}

impl fmt::Display for Group {
    fn fmt(&self, formatter: &mut fmt::Formatter) -> fmt::Result {
        let with = match (self.small_engine, self.run_in) {
            _ if self.pending => " with pending vehicles",
            (false, false) => "",
            (true, false) => " with a small engine",
            (false, true) => " with run-in values",
            (true, true) => " with a small engine and run-in values",
        };
        write!(formatter, "plan {}{with}", self.plan)
    }
}

/// How often one promise was put to the test.
type Counts = BTreeMap<Group, u64>;

/// How often each promise was put to the test.
#[derive(Default)]
struct Promises {
    kept: Counts,
    full: Counts,
    full_held: Counts,
    lower: Counts,
    accepted: Counts,
    the_same: Counts,
}

/// Looks at a full sheet of each group, which with its stop also begins with a decided one, at the
/// directed sheets of pending vehicles, and at random sheets; prints how often each promise was put
/// to the test.
pub fn keep(size: usize, scale: Scale, tally: &mut Tally) {
    let mut random = Random::new(0xD3);
    let mut promises = Promises::default();
    for group in groups().filter(|group| !group.pending) {
        let draft = full_draft_of(size, group, &mut random);
        promises.look_at(&draft, &mut random, tally);
    }
    for draft in pending::drafts(size, scale.one_directed_in) {
        promises.look_at(&draft, &mut random, tally);
    }
    for _ in 0..scale.promises {
        let draft = random_draft(size, &mut random);
        promises.look_at(&draft, &mut random, tally);
    }
    promises.print(tally);
    lowering_needs_the_first_engine(size, tally);
}

/// With its stop, if it may have one.
fn full_draft_of(size: usize, group: Group, random: &mut Random) -> Draft {
    let mut draft = full_draft(size, group.plan, random);
    draft.small_engine = None;
    if group.small_engine {
        draft.put_small_engine(random_small_engine(random));
    }
    let engine = random.pick(&draft.engines);
    draft.run_in = group.run_in.then_some(engine.measurements);
    draft.stopped = group.plan != 4;
    draft
}

/// Each plan without a small engine, run-in values and pending vehicles; with each of the first two
/// and both if it may have them, and plan 4 with pending vehicles.
fn groups() -> impl Iterator<Item = Group> {
    let group = |plan, [small_engine, run_in]: [bool; 2]| Group {
        plan,
        small_engine,
        run_in,
        pending: false,
    };
    let pending = Group {
        pending: true,
        ..group(4, [false, false])
    };
    let plain = (1..=PLANS).map(move |plan| group(plan, [false, false]));
    let others = plans_of_production().flat_map(move |plan| {
        let kinds = [[true, false], [false, true], [true, true]];
        kinds.map(|kinds| group(plan, kinds))
    });
    plain.chain(others).chain([pending])
}

/// Lowering is promised under plans 1 and 3.
fn promises_lowering(plan: u8) -> bool {
    plan == 1 || plan == 3
}

impl Promises {
    /// Nothing is promised of a sheet that is refused.
    fn look_at(&mut self, draft: &Draft, random: &mut Random, tally: &mut Tally) {
        let Ok(judgement) = draft.judged() else {
            return;
        };
        let group = Group {
            plan: draft.plan,
            small_engine: draft.small_engine.is_some(),
            run_in: draft.run_in.is_some(),
            pending: !draft.pending().is_empty(),
        };
        let held = judgement.verdict == Verdict::Held;
        *self.kept.entry(group).or_default() += decision_is_kept(draft, &judgement, tally);
        let full = if held {
            &mut self.full_held
        } else {
            &mut self.full
        };
        *full.entry(group).or_default() += full_is_decided(draft, &judgement, tally);
        let lower = self.lower.entry(group).or_default();
        *lower += lower_is_no_worse(draft, &judgement, random, tally);
        small_engine_decides_nothing(draft, &judgement, tally);
        let findings = findings_keep(draft, &judgement, random, tally);
        *self.accepted.entry(group).or_default() += findings;
        if !held {
            *self.the_same.entry(group).or_default() += findings;
        }
    }

    fn print(&self, tally: &mut Tally) {
        println!("demand 3 on the second implementation:");
        let begun = "decided sheets, each begun by another: the decision is kept";
        print_counts(begun, &self.kept, groups(), tally);
        print_counts("full sheets: decided", &self.full, groups(), tally);
        let with_pending = || groups().filter(|group| group.pending);
        let held = "full sheets: held, with a pending vehicle";
        print_counts(held, &self.full_held, with_pending(), tally);
        let lowered = "sheets with lower measurements: no worse";
        let lowering = groups().filter(|group| promises_lowering(group.plan));
        print_counts(lowered, &self.lower, lowering, tally);
        let accepted = "findings: the sheet is accepted";
        print_counts(accepted, &self.accepted, with_pending(), tally);
        let the_same = "findings on a sheet that is not held: every answer is the same";
        print_counts(the_same, &self.the_same, with_pending(), tally);
    }
}

/// A line for each of the groups that promise it.
fn print_counts(
    promise: &str,
    counts: &Counts,
    groups: impl Iterator<Item = Group>,
    tally: &mut Tally,
) {
    for group in groups {
        match counts.get(&group) {
            Some(count @ 1..) => println!("  {group}: {count} {promise}"),
            _ => tally.gap(&format!("{group}, {promise}")),
        }
    }
}

fn decision_is_kept(draft: &Draft, whole: &Judgement, tally: &mut Tally) -> u64 {
    let sheet = draft.bytes();
    let mut looked_at = 0;
    for length in (draft.size..sheet.len()).step_by(draft.size) {
        let begun = judge(&Document01, draft.size, &sheet[..length]);
        let begun = begun.expect("the start of an accepted sheet");
        if begun.is_decided() {
            tally.expect(begun == *whole, &sheet, "a longer sheet keeps the decision");
            looked_at += 1;
        }
    }
    looked_at
}

fn full_is_decided(draft: &Draft, judgement: &Judgement, tally: &mut Tally) -> u64 {
    let full = draft.engines.len() == Document01.last_row(draft.plan);
    if full {
        let held = judgement.verdict == Verdict::Held && !draft.pending().is_empty();
        tally.expect(
            judgement.is_decided() || held,
            &draft.bytes(),
            "a full sheet is decided, or held with a pending vehicle",
        );
    }
    u64::from(full)
}

/// A finding for each pending vehicle, one after the other in any order, and how many there are.
fn findings_keep(
    draft: &Draft,
    judgement: &Judgement,
    random: &mut Random,
    tally: &mut Tally,
) -> u64 {
    let mut pending = draft.pending();
    let mut sheet = draft.bytes();
    random.shuffle(&mut pending);
    for &engine in &pending {
        let cause = any_finding(draft, random);
        let entered = finding(
            &Document01,
            draft.size,
            &mut sheet,
            engine as u32,
            cause.into(),
        );
        let after = judge(&Document01, draft.size, &sheet);
        let accepted = entered.is_ok() && after.is_ok();
        tally.expect(accepted, &sheet, "a finding keeps acceptance");
        let the_same = judgement.verdict == Verdict::Held || after == Ok(*judgement);
        tally.expect(the_same, &sheet, "a verdict is the same under findings");
    }
    pending.len() as u64
}

/// Often one of the known causes.
fn any_finding(draft: &Draft, random: &mut Random) -> u16 {
    let causes = draft.engines.iter().map(|engine| engine.cause);
    let known: Vec<u16> = causes
        .filter(|cause| ![0, PENDING].contains(cause))
        .collect();
    if known.is_empty() || random.one_in(2) {
        random_finding(random)
    } else {
        random.pick(&known)
    }
}

fn lower_is_no_worse(
    draft: &Draft,
    first: &Judgement,
    random: &mut Random,
    tally: &mut Tally,
) -> u64 {
    if !promises_lowering(draft.plan) {
        return 0;
    }
    let lower = lowered(draft, random);
    let second = &lower.judged().expect("alike in all but the measurements");
    let pass_kept = first.verdict != Verdict::Pass || decides_by(second, first, Verdict::Pass);
    let fail_known = second.verdict != Verdict::Fail || decides_by(first, second, Verdict::Fail);
    tally.expect(
        pass_kept,
        &lower.bytes(),
        "lower measurements pass at n or sooner",
    );
    tally.expect(
        fail_known,
        &lower.bytes(),
        "what fails lower fails at n or sooner",
    );
    1
}

/// One sheet has the verdict at the other's engine or sooner.
fn decides_by(one: &Judgement, other: &Judgement, verdict: Verdict) -> bool {
    one.verdict == verdict && one.engine <= other.engine
}

/// Alike in all but the measurements, and none is higher. On a run-in sheet the run-in values are
/// measurements too, and what the first engine measured before is the same.
fn lowered(draft: &Draft, random: &mut Random) -> Draft {
    let mut lower = draft.clone();
    let seldom = random.between(1, 8) as usize;
    let kept = usize::from(draft.run_in.is_some());
    let engines = lower.engines.iter_mut().skip(kept);
    let measured = engines.map(|engine| &mut engine.measurements);
    for x in measured.chain(&mut lower.run_in).flatten() {
        if *x > 1 && random.one_in(seldom) {
            *x -= random.pick(&[1, *x / 8, *x / 2]).min(*x - 1);
        }
    }
    lower
}

/// Where what the first engine measured before is lower, a sheet can be worse by it: plan 3, limit
/// 1, value 1, and engines at 2, 1, 1 and 2 pass at 4; with the first at 1 they do not.
fn lowering_needs_the_first_engine(size: usize, tally: &mut Tally) {
    let pollutant = Pollutant {
        number: 1,
        limit: 1,
        deviation: 0,
    };
    let [higher, lower] = [[2, 1, 1, 2], [1, 1, 1, 2]].map(|engines| {
        let mut draft = Draft::new(size, 3, vec![pollutant]);
        draft.run_in = Some(measured_alone(1, 1));
        for x in engines {
            draft.test(measured_alone(1, x), 0);
        }
        draft
            .judged()
            .map(|judgement| (judgement.verdict, judgement.engine))
    });
    let worse = [higher, lower] == [Ok((Verdict::Pass, 4)), Ok((Verdict::Another, 4))];
    tally.expect(
        worse,
        &[],
        "a lower first engine can be worse on a run-in sheet",
    );
}

/// A small engine is asked for its limit alone: without its record the sheet is judged alike.
fn small_engine_decides_nothing(draft: &Draft, judgement: &Judgement, tally: &mut Tally) {
    if draft.small_engine.is_some() {
        let mut without = draft.clone();
        without.small_engine = None;
        let alike = without.judged() == Ok(*judgement);
        tally.expect(alike, &draft.bytes(), "a small engine decides nothing");
    }
}
