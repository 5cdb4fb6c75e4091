//! What document 01 and the layout make of a call on lent words: the model, behind a test for words that are no state.

use crate::words::*;
use std::ops::Range;
use store_tests::damage::{Operation, Reply};
use store_tests::model::{Refusal, State, Store, PROCESSES};

/// What a call should give.
#[derive(Clone, Copy, Debug, PartialEq, Eq)]
pub struct Outcome {
    /// The number returned, then the answer's words, unused ones 0.
    pub words: [u32; 9],
    /// Why the words were no state, if that is the refusal.
    pub flaw: Option<Flaw>,
}

/// Why words are no state.
#[derive(Clone, Copy, Debug, PartialEq, Eq, PartialOrd, Ord)]
pub enum Flaw {
    Length,
    Layout,
    Opened,
    Kind,
    Phase,
    Answer,
}

impl Flaw {
    pub const ALL: [Flaw; 6] = [Flaw::Length, Flaw::Layout, Flaw::Opened, Flaw::Kind, Flaw::Phase, Flaw::Answer];
}

/// Does the call on these words. `wide` is the part lent as longer than 32 bits can count, if one is.
pub fn perform(words: &mut Words, wide: Option<Part>, operation: Operation) -> Outcome {
    let Some(part) = wide else { return on_words(words, operation) };
    // One word too many is as wrong a length as 2^32 too many, whatever is lent beside it.
    words.part_mut(part).push(0);
    let outcome = on_words(words, operation);
    words.part_mut(part).pop();
    outcome
}

fn on_words(words: &mut Words, operation: Operation) -> Outcome {
    if let Some(flaw) = flaw(words.state(), operation) {
        let reply = Reply::Refused(Refusal::AlteredState);
        return Outcome { words: reply.words(), flaw: Some(flaw) };
    }
    let read = read(words.state(), operation);
    let state = match operation {
        Operation::Open { .. } => State::CLOSED,
        _ => State::from_words(&only(words.state(), read.clone())[1..]).expect("a state"),
    };
    let [lent, nodes, versions, tally] = std::mem::take(&mut words.0);
    let mut store = Store { state, node_table: nodes, version_table: versions, tally };
    let reply = operation.perform(&mut store);
    let lent = with(lent, read, &state_words(&store.state));
    words.0 = [lent, store.node_table, store.version_table, store.tally];
    Outcome { words: reply.words(), flaw: None }
}

/// The processes whose words a call uses: its own at a start, a step and a standing, those below the count at an inspection,
/// none at a look. An open writes all.
fn read(state: &[u32], operation: Operation) -> Range<usize> {
    let known = |process: u32| (process as usize).min(PROCESSES);
    match operation {
        Operation::Start { process, .. } | Operation::Step { process } | Operation::Status { process } => {
            known(process)..known(process.saturating_add(1))
        }
        Operation::Inspect => 0..known(state[2]),
        Operation::Look { .. } => 0..0,
        Operation::Open { .. } => 0..PROCESSES,
    }
}

/// An open reads nothing of the state but its length, any other call the head and the processes that it uses.
fn flaw(state: &[u32], operation: Operation) -> Option<Flaw> {
    let open = matches!(operation, Operation::Open { .. });
    if state.len() != STATE {
        return Some(Flaw::Length);
    } else if open {
        return None;
    } else if state[0] != LAYOUT {
        return Some(Flaw::Layout);
    } else if state[1] > 1 {
        return Some(Flaw::Opened);
    }
    read(state, operation).find_map(|process| flaw_of(&state[words_of(process)]))
}

fn flaw_of(process: &[u32]) -> Option<Flaw> {
    let unknown = NUMBERS.iter().position(|&(word, greatest)| process[word] > greatest)?;
    Some([Flaw::Kind, Flaw::Phase, Flaw::Answer][unknown])
}

/// Does a process that the call does not use have a number that stands for nothing?
pub fn unknown_beside(state: &[u32], operation: Operation) -> bool {
    let other = |process: &usize| !read(state, operation).contains(process);
    state.len() == STATE && (0..PROCESSES).filter(other).any(|other| flaw_of(&state[words_of(other)]).is_some())
}

/// The state as a call sees it that uses these processes: the others idle, whatever stands there.
fn only(state: &[u32], processes: Range<usize>) -> Vec<u32> {
    let mut seen = state_words(&State::CLOSED);
    seen[..HEAD].copy_from_slice(&state[..HEAD]);
    let own = words_of_all(processes);
    seen[own.clone()].copy_from_slice(&state[own]);
    seen
}

/// The words lent with what such a call writes: the head and these processes.
fn with(mut lent: Vec<u32>, processes: Range<usize>, written: &[u32]) -> Vec<u32> {
    lent[..HEAD].copy_from_slice(&written[..HEAD]);
    let own = words_of_all(processes);
    lent[own.clone()].copy_from_slice(&written[own]);
    lent
}

fn words_of_all(processes: Range<usize>) -> Range<usize> {
    words_of(processes.start).start..words_of(processes.end).start
}
