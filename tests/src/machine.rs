//! What the checkers run: the model, or a store broken on purpose. And a recorder that writes its history.

use crate::ledger::{Ending, Entry, History, Opening};
use crate::model::{Call, Refusal, Status, Step, Store, Verdict};
use std::hash::Hash;

pub trait Machine: Clone + Hash {
    fn store(&self) -> &Store;
    fn store_mut(&mut self) -> &mut Store;

    fn start(&mut self, process: u32, call: Call) -> Result<u32, Refusal> {
        self.store_mut().start(process, call)
    }

    fn step(&mut self, process: u32) -> Result<Step, Refusal> {
        self.store_mut().step(process)
    }

    fn look(&self, key: u64, back: u32) -> Result<(u32, u32), Refusal> {
        self.store().look(key, back)
    }

    fn status(&self, process: u32) -> Result<Status, Refusal> {
        self.store().status(process)
    }

    fn inspect(&self) -> Result<Verdict, Refusal> {
        self.store().inspect()
    }
}

impl Machine for Store {
    fn store(&self) -> &Store {
        self
    }

    fn store_mut(&mut self) -> &mut Store {
        self
    }
}

impl Opening {
    /// A fresh store. The numbers must be lawful.
    pub fn fresh(&self) -> Store {
        let mut store = Store::closed(self.keys as usize, self.versions as usize);
        store.open(self.processes, self.limit).expect("a lawful opening");
        store
    }
}

/// Runs a machine and keeps the list of its entries.
pub struct Recorder<M> {
    pub machine: M,
    opening: Opening,
    entries: Vec<Entry>,
}

impl<M: Machine> Recorder<M> {
    /// `machine` is freshly opened with the numbers of `opening`.
    pub fn new(machine: M, opening: Opening) -> Self {
        Recorder { machine, opening, entries: Vec::new() }
    }

    pub fn start(&mut self, process: u32, call: Call) -> Result<u32, Refusal> {
        let answer = self.machine.start(process, call);
        self.entries.push(Entry::Start { process, call, answer });
        answer
    }

    pub fn step(&mut self, process: u32) -> Result<Step, Refusal> {
        let answer = self.machine.step(process);
        self.entries.push(Entry::Step { process, answer });
        answer
    }

    pub fn look(&mut self, key: u64, back: u32) -> Result<(u32, u32), Refusal> {
        let answer = self.machine.look(key, back);
        self.entries.push(Entry::Look { key, back, answer });
        answer
    }

    pub fn is_running(&self, process: u32) -> bool {
        matches!(self.machine.status(process), Ok(Status::Running { .. }))
    }

    /// The whole history, with what is seen at its end.
    pub fn history(&self) -> History {
        let store = self.machine.store();
        let ending = Ending {
            events: store.state.events,
            nodes: store.state.nodes,
            versions: store.state.versions,
            tally: store.tally.clone(),
            statuses: (0..self.opening.processes).map(|process| self.machine.status(process)).collect(),
            verdict: self.machine.inspect(),
        };
        History { opening: self.opening, entries: self.entries.clone(), ending }
    }
}
