//! Demand 3 watched event by event, for the explorer.
//!
//! Stricter than the list needs: a status must show the effect from the very step that takes it on. If the watch
//! never objects, demand 3 holds for the list and for each of its beginnings. All that it keeps is what its later
//! objections hang on, so two histories with equal stores and equal watches have the same future.

use super::{Map, Opening, Outcome};
use crate::model::{Answer, Call, Done, Refusal, Status, Step, Store, Verdict, COUNTS};

#[derive(Clone, Debug, PartialEq, Eq, Hash)]
struct Running {
    call: Call,
    start: u32,
    /// Tick of the effect and the ledger's answer to it.
    effect: Option<(u32, Outcome)>,
    /// Of a scan: the keys held at its start that it has yet to show, and the last one shown (0 before).
    due: Vec<u64>,
    shown: u64,
}

#[derive(Clone, Debug, PartialEq, Eq, Hash)]
pub struct Watch {
    limit: u32,
    events: u32,
    map: Map,
    running: Vec<Option<Running>>,
    finished: [u32; COUNTS],
}

/// An objection in words.
pub type Objected = Result<(), String>;

fn must(holds: bool, text: impl FnOnce() -> String) -> Objected {
    if holds {
        Ok(())
    } else {
        Err(text())
    }
}

impl Watch {
    pub fn new(opening: &Opening) -> Watch {
        Watch {
            limit: opening.limit,
            events: 0,
            map: Map::new(opening.keys, opening.versions),
            running: vec![None; opening.processes as usize],
            finished: [0; COUNTS],
        }
    }

    /// Leaves the numbers of the ticks out, for a comparison without them.
    pub fn forget_ticks(&mut self) {
        self.events = 0;
        for running in self.running.iter_mut().flatten() {
            running.start = 0;
            running.effect = running.effect.map(|(_, outcome)| (1, outcome));
        }
    }

    pub fn events(&self) -> u32 {
        self.events
    }

    pub fn spent(&self) -> bool {
        self.events >= self.limit
    }

    pub fn is_running(&self, process: u32) -> bool {
        self.running[process as usize].is_some()
    }

    pub fn idle(&self) -> bool {
        self.running.iter().all(Option::is_none)
    }

    pub fn versions(&self) -> u32 {
        self.map.versions()
    }

    fn event(&mut self, tick: u32) -> Objected {
        must(!self.spent(), || format!("event {tick} above the limit"))?;
        self.events += 1;
        must(tick == self.events, || format!("tick {tick} at event {}", self.events))
    }

    /// A start that must be accepted.
    pub fn start(&mut self, process: u32, call: Call, answer: Result<u32, Refusal>) -> Objected {
        let tick = answer.map_err(|refusal| format!("start of {call:?} refused {}", refusal.number()))?;
        self.event(tick)?;
        let due = match call {
            Call::Scan { first, last } => self.map.held(first, last),
            _ => vec![],
        };
        self.running[process as usize] = Some(Running { call, start: tick, effect: None, due, shown: 0 });
        Ok(())
    }

    /// A step that must be accepted, and the status of its process after it.
    pub fn step(&mut self, process: u32, answer: Result<Step, Refusal>, after: Result<Status, Refusal>) -> Objected {
        let step = answer.map_err(|refusal| format!("step of {process} refused {}", refusal.number()))?;
        self.event(step.tick())?;
        let running = self.running[process as usize].take().ok_or("a step without a call")?;
        let running = match step {
            Step::Done(done) => {
                self.done(running, done)?;
                None
            }
            Step::Wait(_) => Some(running),
            Step::Shown { key, value, timestamp, .. } => Some(self.shown(running, key, (value, timestamp))?),
            Step::On(tick) if matches!(after, Ok(Status::Running { effect, .. }) if effect == tick) => {
                Some(self.effect(running, tick)?)
            }
            Step::On(_) => Some(running),
        };
        self.running[process as usize] = running;
        self.status(process, after)
    }

    /// A running call takes effect, as no scan does.
    fn effect(&mut self, running: Running, tick: u32) -> Result<Running, String> {
        must(running.effect.is_none(), || format!("a second effect of {:?}", running.call))?;
        let outcome = self.map.apply(running.call).ok_or_else(|| format!("an effect of {:?}", running.call))?;
        Ok(Running { effect: Some((tick, outcome)), ..running })
    }

    /// A scan shows a key of its span, above the one before, with its newest version.
    fn shown(&self, mut running: Running, key: u64, version: (u32, u32)) -> Result<Running, String> {
        let spans = matches!(running.call, Call::Scan { first, last } if (first..=last).contains(&key));
        let newest = self.map.get(key) == Some(version);
        must(spans && newest && key > running.shown, || format!("{running:?} showed {key} {version:?}"))?;
        running.due.retain(|&due| due != key);
        Ok(Running { shown: key, ..running })
    }

    fn done(&mut self, running: Running, done: Done) -> Objected {
        let Running { call, start, effect, .. } = running;
        let now = self.events;
        let taken = effect.or_else(|| self.map.apply(call).map(|outcome| (now, outcome)));
        let swept = (0, Outcome { answer: Answer::Swept, value: 0, timestamp: 0 });
        let (effect, Outcome { answer, value, timestamp }) = taken.unwrap_or(swept);
        let told = Done { kind: call.kind(), answer, value, timestamp, start, effect, finish: now };
        must(done == told, || format!("{call:?} ended as {done:?}, due is {told:?}"))?;
        must(running.due.is_empty(), || format!("{call:?} did not show {:?}", running.due))?;
        if let Some(place) = answer.place() {
            self.finished[place] += 1;
        }
        Ok(())
    }

    /// The status of one process, now.
    pub fn status(&self, process: u32, given: Result<Status, Refusal>) -> Objected {
        let due = match &self.running[process as usize] {
            None => Status::Idle,
            Some(running) => Status::Running {
                kind: running.call.kind(),
                start: running.start,
                effect: running.effect.map_or(0, |(tick, _)| tick),
            },
        };
        must(given == Ok(due), || format!("status of {process}: {given:?}, due is {due:?}"))
    }

    /// A look, now.
    pub fn look(&self, key: u64, back: u32, given: Result<(u32, u32), Refusal>) -> Objected {
        let due = self.map.look(key, back);
        must(given == due, || format!("look {key} {back}: {given:?}, due is {due:?}"))
    }

    /// Counts, tally and inspection, now.
    pub fn standstill(&self, store: &Store, verdict: Result<Verdict, Refusal>) -> Objected {
        let counts = (store.state.events, store.state.nodes, store.state.versions);
        let due = (self.events, self.map.keys(), self.map.versions());
        must(counts == due, || format!("counts {counts:?}, due is {due:?}"))?;
        must(store.tally[..] == self.finished, || format!("tally {:?}, due is {:?}", store.tally, self.finished))?;
        let due = if self.idle() { Ok(Verdict::Sound) } else { Err(Refusal::Busy) };
        must(verdict == due, || format!("inspection {verdict:?}, due is {due:?}"))
    }
}
