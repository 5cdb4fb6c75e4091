//! All interleavings of a small store: at each state every process that can move is moved.
//!
//! Two ways to the same machine, watch and places in the scripts have the same future, so each such point is gone
//! through once. A point is known by a 128-bit hash of all of it. For wider scopes [`Memo::NoTicks`] leaves the
//! numbers of the ticks out: a store only copies them and the watch has compared them, so what is left to come is the
//! same but for those numbers. (The event limit must then be out of reach; a wait leads back to its own point.)

use crate::ledger::{check, History, Opening, Watch};
use crate::machine::{Machine, Recorder};
use crate::meetings::{since, Meetings, Move, Since};
use crate::model::{Call, Kind, Refusal, Step, Store, FIRST_KEY, LAST_KEY};
use std::collections::hash_map::DefaultHasher;
use std::collections::HashSet;
use std::fmt::Debug;
use std::hash::{Hash, Hasher};

/// What tells points apart.
#[derive(Clone, Copy, Debug, PartialEq, Eq)]
pub enum Memo {
    Full,
    NoTicks,
}

/// A store and what its processes are to do.
#[derive(Clone, Debug)]
pub struct Scope {
    pub opening: Opening,
    pub memo: Memo,
    /// Calls that process 0 finishes alone before the rest begins.
    pub first: Vec<Call>,
    /// The calls of each process, one after another.
    pub scripts: Vec<Vec<Call>>,
}

#[derive(Clone, Copy, Debug, Default)]
pub struct Report {
    /// Different points, arrivals at a point by any way, and points where no process can move.
    pub points: u64,
    pub arrivals: u64,
    pub ends: u64,
    /// Events at the latest point gone through.
    pub latest: u32,
    /// What scans met on all ways gone.
    pub meetings: Meetings,
}

/// An objection and the way to it: the processes in the order of their moves.
#[derive(Clone, Debug)]
pub struct Found {
    pub schedule: Vec<u32>,
    pub objection: String,
}

#[derive(Clone, Hash)]
struct Point<M> {
    machine: M,
    watch: Watch,
    /// How many calls of its script each process has started.
    started: Vec<usize>,
    /// For each process that has a scan, what was in use at its start.
    since: Vec<Option<Since>>,
}

struct Explorer<'a, M> {
    scope: &'a Scope,
    fresh: M,
    /// Keys to look for.
    keys: Vec<u64>,
    seen: HashSet<u128>,
    schedule: Vec<u32>,
    report: Report,
}

/// Goes through all interleavings; `fresh` is opened with the scope's numbers.
pub fn explore<M: Machine>(fresh: M, scope: &Scope) -> Result<Report, Found> {
    let processes = scope.scripts.len();
    let (started, since) = (vec![0; processes], vec![None; processes]);
    let mut point = Point { machine: fresh.clone(), watch: Watch::new(&scope.opening), started, since };
    let (keys, seen, schedule) = (scope.keys(), HashSet::new(), Vec::new());
    let mut explorer = Explorer { scope, fresh, keys, seen, schedule, report: Report::default() };
    let result = explorer.prepare(&mut point).and_then(|()| explorer.visit(&point));
    result.map(|()| explorer.report).map_err(|objection| Found { schedule: explorer.schedule, objection })
}

/// Runs one schedule again, looks everywhere at its end and gives the whole history.
pub fn replay<M: Machine>(fresh: M, scope: &Scope, schedule: &[u32]) -> History {
    let mut recorder = Recorder::new(fresh, scope.opening);
    let mut scripts = scope.scripts.clone();
    scripts.iter_mut().for_each(|script| script.reverse());
    for &call in &scope.first {
        let _ = recorder.start(0, call);
        while recorder.is_running(0) && recorder.step(0).is_ok() {}
    }
    for &process in schedule {
        if recorder.is_running(process) {
            let _ = recorder.step(process);
        } else if let Some(call) = scripts[process as usize].pop() {
            let _ = recorder.start(process, call);
        }
    }
    for key in scope.keys() {
        for back in 0..=recorder.machine.store().state.versions {
            let _ = recorder.look(key, back);
        }
    }
    recorder.history()
}

impl Scope {
    /// The keys that any put or get names, the first, the last of 32 bits and the two unlawful ones.
    fn keys(&self) -> Vec<u64> {
        let calls = self.first.iter().chain(self.scripts.iter().flatten());
        let calls = calls.filter(|call| call.kind() != Kind::Scan);
        let others = [FIRST_KEY - 1, FIRST_KEY, u32::MAX.into(), LAST_KEY + 1];
        let mut keys: Vec<u64> = calls.map(|call| call.key()).chain(others).collect();
        keys.sort_unstable();
        keys.dedup();
        keys
    }
}

impl<M: Machine> Explorer<'_, M> {
    /// Process 0 runs the first calls alone.
    fn prepare(&mut self, point: &mut Point<M>) -> Result<(), String> {
        for &call in &self.scope.first {
            let answer = point.machine.start(0, call);
            point.watch.start(0, call, answer)?;
            while point.watch.is_running(0) {
                step(point, 0)?;
                self.examine(point)?;
            }
        }
        Ok(())
    }

    fn visit(&mut self, point: &Point<M>) -> Result<(), String> {
        self.report.arrivals += 1;
        if !self.seen.insert(self.fingerprint(point)) {
            return Ok(());
        }
        self.report.points += 1;
        self.report.latest = self.report.latest.max(point.watch.events());
        self.examine(point)?;
        let mut moved = false;
        for process in 0..self.scope.scripts.len() as u32 {
            self.schedule.push(process);
            if let Some(next) = self.advance(point, process)? {
                moved = true;
                self.visit(&next)?;
            }
            self.schedule.pop();
        }
        if moved {
            Ok(())
        } else {
            self.end()
        }
    }

    /// The next move of a process, if it has one.
    fn advance(&mut self, point: &Point<M>, process: u32) -> Result<Option<Point<M>>, String> {
        if point.watch.spent() {
            return Ok(None);
        }
        let mut next = point.clone();
        if next.watch.is_running(process) {
            let step = step(&mut next, process)?;
            let (before, after) = (point.machine.store(), next.machine.store());
            let since = point.since[process as usize];
            self.report.meetings.count(&Move { before, after, process, step, since });
            return Ok(Some(next));
        }
        let place = &mut next.started[process as usize];
        let Some(&call) = self.scope.scripts[process as usize].get(*place) else { return Ok(None) };
        *place += 1;
        next.since[process as usize] = since(point.machine.store(), call);
        let answer = next.machine.start(process, call);
        next.watch.start(process, call, answer)?;
        Ok(Some(next))
    }

    /// No process can move: the whole list is held against demand 3 literally.
    fn end(&mut self) -> Result<(), String> {
        self.report.ends += 1;
        let history = replay(self.fresh.clone(), self.scope, &self.schedule);
        check(&history).first().map_or(Ok(()), |objection| Err(objection.to_string()))
    }

    /// All that can be asked at a point without moving it.
    fn examine(&self, point: &Point<M>) -> Result<(), String> {
        let Point { machine, watch, .. } = point;
        for &key in &self.keys {
            for back in 0..=watch.versions() {
                watch.look(key, back, machine.look(key, back))?;
            }
        }
        for process in 0..self.scope.opening.processes {
            watch.status(process, machine.status(process))?;
        }
        watch.standstill(machine.store(), machine.inspect())?;
        let mut copy = machine.clone();
        self.refusals(point, &mut copy)?;
        wrong_lengths(&mut copy)?;
        let same = machine.store() == copy.store();
        same.then_some(()).ok_or_else(|| "a refusal changed the store".to_string())
    }

    /// Every refusal due to a process is given.
    fn refusals(&self, point: &Point<M>, machine: &mut M) -> Result<(), String> {
        let (beyond, spent) = (self.scope.opening.processes, point.watch.spent());
        refused_start(machine, beyond, 0, Refusal::NoSuchProcess)?;
        refused(machine.step(beyond), Refusal::NoSuchProcess)?;
        for process in 0..beyond {
            refused_start(machine, process, FIRST_KEY - 1, Refusal::KeyOutOfRange)?;
            refused_start(machine, process, LAST_KEY + 1, Refusal::KeyOutOfRange)?;
            refused_spans(machine, process)?;
            if point.watch.is_running(process) {
                refused_start(machine, process, FIRST_KEY, Refusal::Busy)?;
                refused_start(machine, process, u32::MAX.into(), Refusal::Busy)?;
                if spent {
                    refused(machine.step(process), Refusal::LimitSpent)?;
                }
            } else {
                refused(machine.step(process), Refusal::NoCallRunning)?;
                if spent {
                    refused_start(machine, process, LAST_KEY, Refusal::LimitSpent)?;
                }
            }
        }
        Ok(())
    }

    fn fingerprint(&self, point: &Point<M>) -> u128 {
        let mut gathered = Gathered(Vec::new());
        if self.scope.memo == Memo::Full {
            point.hash(&mut gathered);
        } else {
            let mut point = point.clone();
            point.watch.forget_ticks();
            let state = &mut point.machine.store_mut().state;
            state.events = 0;
            for process in &mut state.process {
                process.start = 0;
                process.effect = process.effect.min(1);
            }
            point.hash(&mut gathered);
        }
        gathered.digest()
    }
}

fn step<M: Machine>(point: &mut Point<M>, process: u32) -> Result<Step, String> {
    let answer = point.machine.step(process);
    let after = point.machine.status(process);
    point.watch.step(process, answer, after)?;
    answer.map_err(|refusal| format!("refused {}", refusal.number()))
}

/// Calls of every kind on a key.
fn refused_start<M: Machine>(machine: &mut M, process: u32, key: u64, due: Refusal) -> Result<(), String> {
    refused(machine.start(process, Call::Get { key }), due)?;
    refused(machine.start(process, Call::Put { key, value: 1, timestamp: 1, draw: 1 }), due)?;
    refused(machine.start(process, Call::Scan { first: key, last: key }), due)
}

/// Either end out of range, also where the first is above the last; a first above the last, busy or spent or neither.
fn refused_spans<M: Machine>(machine: &mut M, process: u32) -> Result<(), String> {
    let spans = [
        (FIRST_KEY - 1, LAST_KEY, Refusal::KeyOutOfRange),
        (LAST_KEY + 1, FIRST_KEY, Refusal::KeyOutOfRange),
        (LAST_KEY, FIRST_KEY - 1, Refusal::KeyOutOfRange),
        (FIRST_KEY, LAST_KEY + 1, Refusal::KeyOutOfRange),
        (FIRST_KEY + 1, FIRST_KEY, Refusal::BadSpan),
        (1 << 32, u32::MAX.into(), Refusal::BadSpan),
    ];
    let mut spans = spans.into_iter();
    spans.try_for_each(|(first, last, due)| refused(machine.start(process, Call::Scan { first, last }), due))
}

/// Tables or a tally of another length are refused 10 first of all; they are put right again.
fn wrong_lengths<M: Machine>(machine: &mut M) -> Result<(), String> {
    let table: [fn(&mut Store) -> &mut Vec<u32>; 2] = [|store| &mut store.node_table, |store| &mut store.version_table];
    for table in table {
        table(machine.store_mut()).push(0);
        refused_start(machine, 99, 0, Refusal::AlteredState)?;
        refused(machine.step(99), Refusal::AlteredState)?;
        refused(machine.look(0, 0), Refusal::AlteredState)?;
        refused(machine.inspect(), Refusal::AlteredState)?;
        refused(machine.status(99), Refusal::NoSuchProcess)?;
        table(machine.store_mut()).pop();
    }
    let count = machine.store_mut().tally.pop();
    refused(machine.step(99), Refusal::AlteredState)?;
    machine.store_mut().tally.extend(count);
    Ok(())
}

fn refused<T: Debug>(answer: Result<T, Refusal>, due: Refusal) -> Result<(), String> {
    let right = answer.as_ref().is_err_and(|&refusal| refusal == due);
    right.then_some(()).ok_or_else(|| format!("answered {answer:?}, due is refusal {}", due.number()))
}

/// All bytes that are hashed, in a row: then one quick pass for each half of the digest.
struct Gathered(Vec<u8>);

impl Hasher for Gathered {
    fn write(&mut self, bytes: &[u8]) {
        self.0.extend_from_slice(bytes);
    }

    fn finish(&self) -> u64 {
        self.digest() as u64
    }
}

impl Gathered {
    fn digest(&self) -> u128 {
        let half = |salt: u64| {
            let mut hasher = DefaultHasher::new();
            hasher.write_u64(salt);
            hasher.write(&self.0);
            hasher.finish() as u128
        };
        half(1) << 64 | half(2)
    }
}
