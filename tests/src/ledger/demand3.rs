//! Demand 3 held literally against one whole list ("The lists of demand 3"), with the sweeps of document 02.
//!
//! The checker sees what a caller sees: the starts, steps and looks with their answers, then the statuses, the
//! tally, the counts and an inspection at the end. It knows nothing of the store but the ledger.

mod scans;

use super::{Map, Outcome};
use crate::model::{Answer, Call, Done, Kind, Refusal, Status, Step, Verdict, COUNTS};
use scans::Shown;
use std::fmt;

/// The numbers of an accepted opening.
#[derive(Clone, Copy, Debug, PartialEq, Eq, Hash)]
pub struct Opening {
    pub keys: u32,
    pub versions: u32,
    pub processes: u32,
    pub limit: u32,
}

/// One line of the list, with the answer given.
#[derive(Clone, Copy, Debug, PartialEq, Eq)]
pub enum Entry {
    Start { process: u32, call: Call, answer: Result<u32, Refusal> },
    Step { process: u32, answer: Result<Step, Refusal> },
    Look { key: u64, back: u32, answer: Result<(u32, u32), Refusal> },
}

/// What is seen when the list is done.
#[derive(Clone, Debug, PartialEq, Eq)]
pub struct Ending {
    pub events: u32,
    pub nodes: u32,
    pub versions: u32,
    pub tally: Vec<u32>,
    /// The status of each process below the count.
    pub statuses: Vec<Result<Status, Refusal>>,
    pub verdict: Result<Verdict, Refusal>,
}

#[derive(Clone, Debug, PartialEq, Eq)]
pub struct History {
    pub opening: Opening,
    pub entries: Vec<Entry>,
    pub ending: Ending,
}

/// What an objection is about. `Refusal` is strictly demand 2's: a refusal other than the one due. Of scans: `Shown`, a
/// version that was not its key's newest, or one shown by another call; `Span`, a key outside the span; `Rise`, a key
/// not above the one before; `Once`, a key not shown as often as it must be.
#[derive(Clone, Copy, Debug, PartialEq, Eq)]
pub enum Aspect {
    Tick,
    Call,
    Effect,
    Answer,
    Look,
    Tally,
    Counts,
    Running,
    Damage,
    Unsound,
    Refusal,
    Shown,
    Span,
    Rise,
    Once,
}

#[derive(Clone, Debug, PartialEq, Eq)]
pub struct Objection {
    pub aspect: Aspect,
    pub text: String,
}

impl fmt::Display for Objection {
    fn fmt(&self, f: &mut fmt::Formatter) -> fmt::Result {
        write!(f, "{:?}: {}", self.aspect, self.text)
    }
}

/// A call as the list shows it.
struct Record {
    process: u32,
    call: Call,
    start: u32,
    /// Ticks of the steps of its process from its start to its end.
    steps: Vec<u32>,
    done: Option<Done>,
    /// Where it took effect, if it did.
    effect: Option<u32>,
    /// What its steps showed.
    shown: Vec<Shown>,
    /// The keys of a scan's span that the ledger held at its start.
    held: Vec<u64>,
}

impl Record {
    fn new(process: u32, call: Call, start: u32) -> Record {
        Record { process, call, start, steps: vec![], done: None, effect: None, shown: vec![], held: vec![] }
    }

    /// An effect tick is that of a step of the call's process, after its start and not after its finish; a scan's is 0.
    fn has_stray_effect(&self) -> bool {
        match (self.call, self.effect) {
            (_, None) => false,
            (Call::Scan { .. }, Some(tick)) => tick != 0,
            (_, Some(tick)) => !self.steps.contains(&tick),
        }
    }
}

/// What is held against the ledger as it stood behind so many events.
struct Moment {
    events: u32,
    sight: Sight,
}

/// Entries and calls by their places in the list and in `records`; of a call, the place of what it showed.
enum Sight {
    Look { entry: usize },
    ScanStart { call: usize },
    Shown { call: usize, place: usize },
}

struct Checker<'a> {
    history: &'a History,
    events: u32,
    records: Vec<Record>,
    /// For each process its running call, as a place in `records`.
    running: Vec<Option<usize>>,
    /// Accepted starts.
    starts: usize,
    moments: Vec<Moment>,
    objections: Vec<Objection>,
}

/// All objections to a history; none if demand 3 holds for it.
pub fn check(history: &History) -> Vec<Objection> {
    let mut checker = Checker {
        history,
        events: 0,
        records: Vec::new(),
        running: vec![None; history.opening.processes as usize],
        starts: 0,
        moments: Vec::new(),
        objections: Vec::new(),
    };
    for (at, entry) in history.entries.iter().enumerate() {
        checker.entry(at, entry);
    }
    checker.running_calls();
    checker.effects();
    checker.ledger();
    checker.scans();
    checker.tally();
    checker.inspection();
    checker.objections
}

impl Checker<'_> {
    fn object(&mut self, aspect: Aspect, text: String) {
        self.objections.push(Objection { aspect, text });
    }

    fn entry(&mut self, at: usize, entry: &Entry) {
        match *entry {
            Entry::Start { process, call, answer } => self.start(at, process, call, answer),
            Entry::Step { process, answer } => self.step(at, process, answer),
            Entry::Look { answer, .. } => {
                self.no_damage(at, answer.err());
                self.sees(Sight::Look { entry: at });
            }
        }
    }

    fn sees(&mut self, sight: Sight) {
        self.moments.push(Moment { events: self.events, sight });
    }

    fn no_damage(&mut self, at: usize, refusal: Option<Refusal>) {
        if let Some(refusal @ (Refusal::AlteredState | Refusal::AlteredMemory)) = refusal {
            self.object(Aspect::Damage, format!("entry {at}: refused {}", refusal.number()));
        }
    }

    /// Was the refusal (or none) the one due?
    fn refusal(&mut self, at: usize, given: Option<Refusal>, due: Option<Refusal>) {
        self.no_damage(at, given);
        if given != due {
            self.object(Aspect::Refusal, format!("entry {at}: refusal {given:?}, due is {due:?}"));
        }
    }

    /// Counts one event and compares its tick.
    fn event(&mut self, at: usize, tick: u32) {
        self.events += 1;
        if tick != self.events || tick > self.history.opening.limit {
            self.object(Aspect::Tick, format!("entry {at}: tick {tick}, event {}", self.events));
        }
    }

    fn spent(&self) -> bool {
        self.events >= self.history.opening.limit
    }

    fn start(&mut self, at: usize, process: u32, call: Call, answer: Result<u32, Refusal>) {
        let due = if process >= self.history.opening.processes {
            Some(Refusal::NoSuchProcess)
        } else if let Some(wrong) = call.wrong_keys() {
            Some(wrong)
        } else if self.running[process as usize].is_some() {
            Some(Refusal::Busy)
        } else {
            self.spent().then_some(Refusal::LimitSpent)
        };
        self.refusal(at, answer.err(), due);
        let Ok(tick) = answer else { return };
        self.event(at, tick);
        self.starts += 1;
        if let Some(running) = self.running.get_mut(process as usize) {
            *running = Some(self.records.len());
            if call.kind() == Kind::Scan {
                self.sees(Sight::ScanStart { call: self.records.len() });
            }
            self.records.push(Record::new(process, call, self.events));
        }
    }

    fn step(&mut self, at: usize, process: u32, answer: Result<Step, Refusal>) {
        let running = self.running.get(process as usize).copied();
        let due = match running {
            None => Some(Refusal::NoSuchProcess),
            Some(None) => Some(Refusal::NoCallRunning),
            Some(Some(_)) => self.spent().then_some(Refusal::LimitSpent),
        };
        self.refusal(at, answer.err(), due);
        let Ok(step) = answer else { return };
        self.event(at, step.tick());
        let Some(Some(index)) = running else { return };
        self.records[index].steps.push(self.events);
        match step {
            Step::On(_) | Step::Wait(_) => {}
            Step::Shown { key, value, timestamp, .. } => self.shows(index, Shown { key, value, timestamp }),
            Step::Done(done) => {
                self.finish(at, index, done);
                self.running[process as usize] = None;
            }
        }
    }

    /// Kind and start tick of a finished call are those of its accepted start.
    fn finish(&mut self, at: usize, index: usize, done: Done) {
        let record = &mut self.records[index];
        record.done = Some(done);
        record.effect = Some(done.effect);
        if done.kind != record.call.kind() || done.start != record.start {
            let text = format!("entry {at}: {done:?} ends {:?} of start {}", record.call, record.start);
            self.object(Aspect::Call, text);
        }
    }

    /// The running calls are those that the statuses show.
    fn running_calls(&mut self) {
        let statuses = &self.history.ending.statuses;
        if statuses.len() != self.running.len() {
            self.object(Aspect::Running, format!("{} statuses for {} processes", statuses.len(), self.running.len()));
        }
        for (process, status) in statuses.iter().enumerate().take(self.running.len()) {
            let running = self.running[process];
            let due = running.map(|index| (self.records[index].call.kind(), self.records[index].start));
            let shown = match *status {
                Ok(Status::Idle) => None,
                Ok(Status::Running { kind, start, effect }) => {
                    if let Some(index) = running {
                        self.records[index].effect = (effect > 0).then_some(effect);
                    }
                    Some((kind, start))
                }
                Err(_) => Some((Kind::Idle, 0)),
            };
            if shown != due {
                self.object(Aspect::Running, format!("process {process} shows {status:?}, the list has {due:?}"));
            }
        }
        self.no_call_lost();
    }

    /// Accepted starts are finished calls and running calls, scans among them.
    fn no_call_lost(&mut self) {
        let finished = self.records.iter().filter(|record| record.done.is_some()).count();
        let statuses = self.history.ending.statuses.iter();
        let running = statuses.filter(|status| matches!(status, Ok(Status::Running { .. }))).count();
        if self.starts != finished + running {
            self.object(Aspect::Running, format!("{} starts, {finished} finished, {running} running", self.starts));
        }
    }

    fn effects(&mut self) {
        let stray: Vec<String> = self
            .records
            .iter()
            .filter(|record| record.has_stray_effect())
            .map(|record| format!("{:?} of process {}: effect at {:?}", record.call, record.process, record.effect))
            .collect();
        for text in stray {
            self.object(Aspect::Effect, text);
        }
    }

    /// Feeds the ledger in the order of the effects; each moment meets the effects of the events before it.
    fn ledger(&mut self) {
        let Opening { keys, versions, .. } = self.history.opening;
        let mut map = Map::new(keys, versions);
        let mut order: Vec<(u32, usize)> =
            (0..self.records.len()).filter_map(|index| Some((self.records[index].effect?, index))).collect();
        order.sort_unstable();
        let mut order = order.into_iter().peekable();
        for Moment { events, sight } in std::mem::take(&mut self.moments) {
            while let Some((_, index)) = order.next_if(|&(tick, _)| tick <= events) {
                self.fed(&mut map, index);
            }
            match sight {
                Sight::Look { entry } => self.look(&map, entry),
                Sight::ScanStart { call } => self.scan_start(&map, call),
                Sight::Shown { call, place } => self.newest(&map, call, place),
            }
        }
        for (_, index) in order {
            self.fed(&mut map, index);
        }
        let Ending { events, nodes, versions, .. } = self.history.ending;
        if (events, nodes, versions) != (self.events, map.keys(), map.versions()) {
            let text = format!("counts {events} {nodes} {versions}, ledger {} {}", map.keys(), map.versions());
            self.object(Aspect::Counts, text);
        }
    }

    /// One call takes effect in the ledger; a finished one must have its answer.
    fn fed(&mut self, map: &mut Map, index: usize) {
        let Some(due) = map.apply(self.records[index].call) else { return };
        let Some(Done { answer, value, timestamp, .. }) = self.records[index].done else { return };
        if due != (Outcome { answer, value, timestamp }) {
            let record = &self.records[index];
            let text = format!("{:?} of process {}: {:?}, ledger {due:?}", record.call, record.process, record.done);
            self.object(Aspect::Answer, text);
        }
    }

    fn look(&mut self, map: &Map, entry: usize) {
        let Entry::Look { key, back, answer } = self.history.entries[entry] else { return };
        let due = map.look(key, back);
        if answer != due {
            self.object(Aspect::Look, format!("entry {entry}: look {key} {back}: {answer:?}, ledger {due:?}"));
        }
    }

    /// Each count equals the finished calls with its answer. No scan is counted.
    fn tally(&mut self) {
        let mut due = [0; COUNTS];
        let counted = self.records.iter().filter(|record| record.call.kind() != Kind::Scan);
        for place in counted.filter_map(|record| record.done?.answer.place()) {
            due[place] += 1;
        }
        let given = &self.history.ending.tally;
        if given[..] != due {
            self.object(Aspect::Tally, format!("tally {given:?}, finished calls {due:?} of {:?}", Answer::ALL));
        }
    }

    /// An idle store is sound; inspection of another is refused 7.
    fn inspection(&mut self) {
        let idle = self.running.iter().all(Option::is_none);
        let due = if idle { Ok(Verdict::Sound) } else { Err(Refusal::Busy) };
        let given = self.history.ending.verdict;
        if given != due {
            self.object(Aspect::Unsound, format!("inspection {given:?}, due is {due:?}"));
        }
    }
}
