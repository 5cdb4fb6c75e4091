//! What is run: calls to completion on one process, on eight in turn, and inspections.

use crate::plan::{Call, Plan};

/// A finished call.
pub struct Done {
    pub answer: u32,
    pub value: u32,
    pub timestamp: u32,
    pub start: u32,
    pub effect: u32,
    pub finish: u32,
}

/// What a step answers, with its tick.
pub enum Turn {
    On(u32),
    Wait(u32),
    Shown { tick: u32, key: u64, value: u32, timestamp: u32 },
    Done(Done),
}

pub const PROCESSES: usize = 8;

/// A store that is turned step by step. None of the calls below may be refused.
pub trait Store {
    /// Tables of these sizes, and a state not opened.
    fn closed(keys: u32, versions: u32) -> Self;
    fn open(&mut self);
    fn start(&mut self, process: u32, call: &Call);
    fn step(&mut self, process: u32) -> Turn;
    /// 0 for sound.
    fn inspect(&self) -> u32;
}

/// What a run did: how much, and sums over all answers and ticks, which do not depend on the order of finishing.
#[derive(Clone, Copy, Debug, Default, PartialEq, Eq)]
pub struct Run {
    pub calls: u64,
    pub steps: u64,
    pub waits: u64,
    pub shown: u64,
    pub answers: u64,
    pub ticks: u64,
}

impl Run {
    pub fn answered(&mut self, index: usize, answer: u32, value: u32, timestamp: u32) {
        let words = ((value as u64) << 32 | timestamp as u64) ^ (answer as u64 + 1).wrapping_mul(0x9E37_79B9_7F4A_7C15);
        self.answers = self.answers.wrapping_add(words.wrapping_mul(2 * index as u64 + 1));
        self.calls += 1;
    }

    /// A key that the scan at `index` shows.
    pub fn shows(&mut self, index: usize, key: u64, value: u32, timestamp: u32) {
        let words = ((value as u64) << 32 | timestamp as u64) ^ key.wrapping_mul(0x9E37_79B9_7F4A_7C15);
        self.answers = self.answers.wrapping_add(words.wrapping_mul(2 * index as u64 + 1));
        self.shown += 1;
    }

    /// Takes in one step of the call at `index`; true when the call is done.
    fn turned(&mut self, index: usize, turn: Turn) -> bool {
        self.steps += 1;
        match turn {
            Turn::On(tick) => self.ticks += tick as u64,
            Turn::Wait(tick) => {
                self.ticks += tick as u64;
                self.waits += 1;
            }
            Turn::Shown { tick, key, value, timestamp } => {
                self.ticks += tick as u64;
                self.shows(index, key, value, timestamp);
            }
            Turn::Done(done) => {
                self.answered(index, done.answer, done.value, done.timestamp);
                self.ticks += done.start as u64 + 3 * done.effect as u64 + 5 * done.finish as u64;
                return true;
            }
        }
        false
    }
}

/// One call after another on process 0.
pub fn alone<S: Store>(store: &mut S, calls: &[Call]) -> Run {
    let mut run = Run::default();
    for (index, call) in calls.iter().enumerate() {
        store.start(0, call);
        while !run.turned(index, store.step(0)) {}
    }
    run
}

/// Eight processes in turn, each with a call as long as there are any.
pub fn eight<S: Store>(store: &mut S, calls: &[Call]) -> Run {
    let mut run = Run::default();
    let mut rest = calls.iter().enumerate();
    let mut running: [Option<usize>; PROCESSES] = [None; PROCESSES];
    let mut next = |store: &mut S, process: u32| {
        rest.next().map(|(index, call)| {
            store.start(process, call);
            index
        })
    };
    for (process, slot) in running.iter_mut().enumerate() {
        *slot = next(store, process as u32);
    }
    while (run.calls as usize) < calls.len() {
        for (process, slot) in running.iter_mut().enumerate() {
            let Some(index) = *slot else { continue };
            if run.turned(index, store.step(process as u32)) {
                *slot = next(store, process as u32);
            }
        }
    }
    run
}

pub fn inspect<S: Store>(store: &S, times: u64) -> Run {
    let answers = (0..times).map(|_| store.inspect() as u64).sum();
    assert_eq!(answers, 0, "the store is not sound");
    Run { calls: times, answers, ..Run::default() }
}

#[derive(Clone, Copy, PartialEq, Eq)]
pub enum Workload {
    Fill,
    Get,
    Put,
    GetEight,
    PutEight,
    Sweep,
    SweepEight,
    SpanGet,
    Inspect,
}

impl Workload {
    /// A fill comes first: the others run on the store that it leaves, and leave it so.
    pub const ALL: [(Workload, &str); 9] = [
        (Workload::Fill, "fill"),
        (Workload::Get, "get"),
        (Workload::Put, "put"),
        (Workload::GetEight, "get-eight"),
        (Workload::PutEight, "put-eight"),
        (Workload::Sweep, "sweep"),
        (Workload::SweepEight, "sweep-eight"),
        (Workload::SpanGet, "span-get"),
        (Workload::Inspect, "inspect"),
    ];
}

/// An implementation under measurement. Nothing where it does not have the workload.
pub trait Contestant {
    /// What is not timed.
    fn prepare(&mut self, workload: Workload);
    fn run(&mut self, plan: &Plan, workload: Workload) -> Option<Run>;
}

impl<S: Store> Contestant for S {
    fn prepare(&mut self, _: Workload) {}

    fn run(&mut self, plan: &Plan, workload: Workload) -> Option<Run> {
        Some(match workload {
            Workload::Fill => {
                self.open();
                alone(self, &plan.fill)
            }
            Workload::Get => alone(self, &plan.gets),
            Workload::Put => alone(self, &plan.puts),
            Workload::GetEight => eight(self, &plan.gets),
            Workload::PutEight => eight(self, &plan.puts),
            Workload::Sweep => alone(self, &plan.scans),
            Workload::SweepEight => eight(self, &plan.scans),
            Workload::SpanGet => alone(self, &plan.span_gets),
            Workload::Inspect => inspect(self, plan.inspections),
        })
    }
}
