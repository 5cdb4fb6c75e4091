//! The store under test: an interface, the guarded buffers that its calls are lent, and the comparison after a call.

use crate::expected::Outcome;
use crate::fence::{Ground, Side};
use crate::interface::Interface;
use crate::words::{Part, Words};
use std::fmt;
use store_tests::damage::Operation;
use store_tests::model::Call;
use store_tests::random::Random;

/// What an answer's words hold before a call, so that one left unwritten is seen.
const UNWRITTEN: u32 = 0x5EED_B00C;

/// The first word that is not as it should be.
#[derive(Clone, Debug, PartialEq, Eq)]
pub struct Difference {
    pub part: String,
    pub index: isize,
    pub expected: u32,
    pub found: u32,
}

impl fmt::Display for Difference {
    fn fmt(&self, f: &mut fmt::Formatter) -> fmt::Result {
        let Difference { part, index, expected, found } = self;
        write!(f, "{part}, word {index}: expected {expected} ({expected:#x}), found {found} ({found:#x})")
    }
}

pub struct Subject<'a> {
    interface: &'a Interface,
    parts: [Ground; 4],
    answer: Ground,
}

/// How many answer words a call has.
pub fn answer_words(operation: Operation) -> usize {
    match operation {
        Operation::Open { .. } => 0,
        Operation::Start { .. } => 1,
        Operation::Step { .. } => 8,
        Operation::Look { .. } => 2,
        Operation::Inspect | Operation::Status { .. } => 3,
    }
}

/// The parts that a call may not write: const in the header, or not lent at all.
fn kept(operation: Operation) -> &'static [Part] {
    match operation {
        Operation::Open { .. } => &[Part::Tally],
        Operation::Start { .. } => &[Part::Nodes, Part::Versions, Part::Tally],
        Operation::Step { .. } => &[],
        Operation::Look { .. } | Operation::Inspect | Operation::Status { .. } => &Part::ALL,
    }
}

impl<'a> Subject<'a> {
    pub fn new(interface: &'a Interface) -> Subject<'a> {
        Subject { interface, parts: Default::default(), answer: Ground::new() }
    }

    /// Lays these words anew; `place` decides for each part whether its start or its end touches a guard page.
    pub fn lend(&mut self, words: &Words, wide: Option<Part>, place: u64) {
        let mut random = Random::new(place);
        for part in Part::ALL {
            let side = random.pick(&[Side::Start, Side::End]);
            self.parts[part as usize].lay(words.part(part), side, wide == Some(part));
        }
    }

    /// Alters one word of what is lent.
    pub fn set(&mut self, part: Part, index: usize, to: u32) {
        self.parts[part as usize].set(index, to);
    }

    /// What is lent as it now stands.
    pub fn words(&self, part: Part) -> &[u32] {
        self.parts[part as usize].words()
    }

    /// Makes the call on what is lent; gives the number returned.
    pub fn call(&mut self, operation: Operation, side: Side) -> u32 {
        self.answer.lay(&[UNWRITTEN; 8][..answer_words(operation)], side, false);
        kept(operation).iter().for_each(|&part| self.parts[part as usize].read_only(true));
        // SAFETY: the buffers are as long as is said. Where one is wide, its further pages have no access, and reading
        // them is the fault looked for.
        let number = unsafe { self.enter(operation) };
        kept(operation).iter().for_each(|&part| self.parts[part as usize].read_only(false));
        number
    }

    unsafe fn enter(&self, operation: Operation) -> u32 {
        let [(state, s), (nodes, n), (versions, v), (tally, t)] = [0, 1, 2, 3].map(|part| self.parts[part].lent());
        let (answer, _) = self.answer.lent();
        let calls = self.interface;
        match operation {
            Operation::Open { processes, limit } => (calls.open)(state, s, nodes, n, versions, v, processes, limit),
            Operation::Start { process, call: Call::Put { key, value, timestamp, draw } } => {
                (calls.start_put)(state, s, nodes, n, versions, v, process, key, value, timestamp, draw, answer)
            }
            Operation::Start { process, call: Call::Get { key } } => {
                (calls.start_get)(state, s, nodes, n, versions, v, process, key, answer)
            }
            Operation::Start { process, call: Call::Scan { first, last } } => {
                (calls.start_sweep)(state, s, nodes, n, versions, v, process, first, last, answer)
            }
            Operation::Step { process } => (calls.step)(state, s, nodes, n, versions, v, tally, t, process, answer),
            Operation::Look { key, back } => (calls.look)(state, s, nodes, n, versions, v, key, back, answer),
            Operation::Inspect => (calls.inspect)(state, s, nodes, n, versions, v, answer),
            Operation::Status { process } => (calls.standing)(state, s, process, answer),
        }
    }

    /// Holds everything to what is expected: the number, the answer, every lent word, every canary.
    pub fn compare(&self, number: u32, outcome: &Outcome, words: &Words) -> Result<(), Difference> {
        let answer = self.answer.words();
        same("number returned", &outcome.words[..1], &[number])?;
        same("answer", &outcome.words[1..=answer.len()], answer)?;
        untouched("answer", &self.answer)?;
        for part in Part::ALL {
            let ground = &self.parts[part as usize];
            same(part.name(), words.part(part), ground.words())?;
            untouched(part.name(), ground)?;
        }
        Ok(())
    }
}

fn same(part: &str, expected: &[u32], found: &[u32]) -> Result<(), Difference> {
    if expected == found {
        return Ok(());
    }
    let unlike = |&at: &usize| expected.get(at) != found.get(at);
    let at = (0..expected.len().max(found.len())).find(unlike).unwrap_or(0);
    let word = |of: &[u32]| of.get(at).copied().unwrap_or(0);
    Err(Difference { part: part.into(), index: at as isize, expected: word(expected), found: word(found) })
}

fn untouched(part: &str, ground: &Ground) -> Result<(), Difference> {
    match ground.broken_canary() {
        None => Ok(()),
        Some((index, found)) => {
            Err(Difference { part: format!("outside the {part}"), index, expected: crate::fence::CANARY, found })
        }
    }
}
