//! What a seed does, and the run of many.

use crate::cases::{self, Case};
use crate::expected::{self, Outcome};
use crate::fence::Side;
use crate::history;
use crate::interface::Interface;
use crate::met::{Before, Met};
use crate::subject::{Difference, Subject};
use crate::watch;
use crate::words::{Part, Words};
use std::fmt;
use store_tests::damage::Operation;

/// The first difference of a run, and how to come back to it.
#[derive(Clone, Debug)]
pub struct Failure {
    pub seed: u64,
    pub call: u64,
    pub operation: Operation,
    pub difference: Difference,
}

impl fmt::Display for Failure {
    fn fmt(&self, f: &mut fmt::Formatter) -> fmt::Result {
        let Failure { seed, call, operation, difference } = self;
        write!(f, "seed {seed}, call {call}, {operation:?}: {difference}")
    }
}

pub struct Run<'a> {
    pub subject: Subject<'a>,
    pub met: Met,
    /// Calls made so far, and those of each plan.
    pub calls: u64,
    by_plan: [u64; PLANS.len()],
    seed: u64,
    /// The plan of this seed, and its calls so far.
    plan: usize,
    call: u64,
    /// The one plan that is run, if not all are.
    only: Option<usize>,
}

/// So many seeds in a row, from any on, should meet every kind of outcome.
pub const ENOUGH: u64 = 1_600;
/// Seeds in a row that meet every plan.
pub const ROUND: u64 = 64;
/// A plan: its name, how many seeds of a round it has, and what it does with one.
type Plan = (&'static str, u64, fn(&mut Run, u64) -> Result<(), Failure>);
const PLANS: [Plan; 11] = [
    ("damage", 14, |run, seed| run.cases(cases::damaged(seed))),
    ("one word", 12, |run, seed| run.cases(cases::one_word(seed))),
    ("heads", 6, |run, seed| run.cases(cases::heads(seed))),
    ("tables", 10, |run, seed| run.cases(cases::tables(seed))),
    ("chains", 4, |run, seed| run.cases(cases::chains(seed))),
    ("lengths", 4, |run, seed| run.cases(cases::lengths(seed))),
    ("random words", 8, |run, seed| run.cases(cases::random_words(seed))),
    ("draws", 1, |run, seed| run.cases(cases::draws(seed))),
    ("histories", 2, |run, seed| history::history(run, seed, false)),
    ("altered histories", 2, |run, seed| history::history(run, seed, true)),
    ("fills", 1, history::fill),
];

impl<'a> Run<'a> {
    pub fn new(interface: &'a Interface) -> Run<'a> {
        Run {
            subject: Subject::new(interface),
            met: Met::default(),
            calls: 0,
            by_plan: [0; PLANS.len()],
            seed: 0,
            plan: 0,
            call: 0,
            only: None,
        }
    }

    /// Seeds of other plans than this one will do nothing. None where there is no such plan.
    pub fn keep_to(&mut self, plan: &str) -> Option<()> {
        self.only = Some(PLANS.iter().position(|(name, ..)| *name == plan)?);
        Some(())
    }

    /// Whole seeds from this one on, until so many calls are made. Gives the seed that would be next.
    pub fn calls(&mut self, from: u64, calls: u64) -> Result<u64, Failure> {
        let mut seed = from;
        while self.calls < calls {
            self.seed(seed)?;
            seed += 1;
        }
        Ok(seed)
    }

    /// All calls of a seed. Its place in the round chooses the plan; the plan counts its own seeds without gaps.
    pub fn seed(&mut self, seed: u64) -> Result<(), Failure> {
        watch::seed(seed);
        (self.seed, self.call) = (seed, 0);
        let (round, mut place) = (seed / ROUND, seed % ROUND);
        for (number, (_, share, plan)) in PLANS.into_iter().enumerate() {
            if place < share {
                self.plan = number;
                if self.only.is_none_or(|only| only == number) {
                    plan(self, round * share + place)?;
                }
                self.by_plan[number] += self.call;
                return Ok(());
            }
            place -= share;
        }
        unreachable!("the shares are those of a whole round")
    }

    /// The calls of each plan, as a line.
    pub fn plans(&self) -> String {
        let told = PLANS.iter().zip(self.by_plan).map(|((name, ..), calls)| format!("{name} {calls}"));
        told.collect::<Vec<_>>().join(", ")
    }

    pub fn cases(&mut self, cases: Vec<Case>) -> Result<(), Failure> {
        for Case { mut words, operation, wide } in cases {
            self.lend(&words, wide);
            self.call(&mut words, wide, operation)?;
        }
        Ok(())
    }

    /// Lends these words, placed as seed and call decide.
    pub fn lend(&mut self, words: &Words, wide: Option<Part>) {
        self.subject.lend(words, wide, self.seed.wrapping_mul(1 << 20).wrapping_add(self.call));
    }

    /// One call on what is lent, held to what these words should become.
    pub fn call(&mut self, words: &mut Words, wide: Option<Part>, operation: Operation) -> Result<Outcome, Failure> {
        watch::call(self.call);
        let before = Before::of(words, operation);
        let outcome = expected::perform(words, wide, operation);
        let side = if self.call.is_multiple_of(2) { Side::Start } else { Side::End };
        let number = self.subject.call(operation, side);
        let (seed, call) = (self.seed, self.call);
        let failure = |difference| Failure { seed, call, operation, difference };
        self.subject.compare(number, &outcome, words).map_err(failure)?;
        self.met.count(PLANS[self.plan].0, &before, words, operation, &outcome);
        self.calls += 1;
        self.call += 1;
        Ok(outcome)
    }
}
