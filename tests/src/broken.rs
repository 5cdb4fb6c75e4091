//! Stores broken on purpose, each with one slip: the proof that the checkers can object.

mod scans;

use crate::machine::Machine;
use crate::model::*;

#[derive(Clone, Copy, Debug, PartialEq, Eq, Hash)]
pub enum Slip {
    /// The link is not read again under the lock: the one seen in seek is taken for it.
    StaleLink,
    /// An update locks the key's own node, not its predecessor.
    OwnNodeLocked,
    /// A put with the newest timestamp is called too old.
    EqualDropped,
    /// A new node is linked from its top level down, level 0 last.
    TopFirst,
    /// Trays full is said while one node is left.
    FullEarly,
    /// A get answers none always.
    GetNone,
    /// The tick of a step that goes on is one too high.
    InventedTicks,
    /// The finish is given as the effect tick.
    LateEffects,
    /// Each finished call is counted as found too.
    InventedTally,
    /// A step compares the low halves of keys alone.
    HighIgnored,
    /// A step compares the low halves of keys first.
    LowFirst,
    /// The halves of its key are changed over in a new node's record.
    HalvesSwapped,
    /// A look compares the low halves of keys alone.
    LookByLow,
    /// An inspection compares the low halves of keys alone.
    InspectByLow,
    /// A start refuses 6 from 4,294,967,295 on, the bound of 32 bits.
    OldBound,
    /// A scan follows the links of p's own top level.
    ScanByTop,
    /// A scan's walk takes the node of its first key as p, as a get's does.
    ScanFindsFirst,
    /// A scan follows to the end, whatever its last key.
    ScanPastLast,
    /// A scan shows keys below its first.
    ScanBelowFirst,
    /// A scan finishes at a key below its first.
    ScanEndsBelow,
    /// A scan shows the version before the newest, where there is one.
    ScanOlder,
    /// A scan shows the versions that were newest when its walk ended.
    ScanOfWalk,
    /// A scan that has come to its end begins once more.
    ScanAgain,
    /// A finished scan is counted as none.
    ScanCounted,
    /// A scan's finish is given as its effect tick.
    ScanEffect,
    /// A scan finishes with the value and timestamp that it showed last.
    ScanKeeps,
    /// A start accepts a span of which the first is above the last.
    SpanAccepted,
    /// A put that is too old ends as swept, and is not counted.
    PutSwept,
    /// A get shows what it is about to read.
    GetShows,
    /// A scan does not move p at a key below its first, and never ends. Demand 3 cannot see it.
    ScanStays,
    /// A scan passes the keys made since its walk. Demand 3 allows it.
    ScanOfOldKeys,
    /// The last step of a scan's walk shows a key. Demand 3 allows it.
    ScanShowsInWalk,
    /// A get ends at the level where it meets its key. Demand 3 cannot see it.
    GetEndsHigh,
    /// A free lock is waited for at odd ticks. Demand 3 cannot see it.
    WaitAtFree,
}

/// Those that break demand 3, and those that only a comparison step by step shows.
const SEEN: [Slip; 16] = [
    Slip::StaleLink,
    Slip::OwnNodeLocked,
    Slip::EqualDropped,
    Slip::TopFirst,
    Slip::FullEarly,
    Slip::GetNone,
    Slip::InventedTicks,
    Slip::LateEffects,
    Slip::InventedTally,
    Slip::HighIgnored,
    Slip::LowFirst,
    Slip::HalvesSwapped,
    Slip::LookByLow,
    Slip::InspectByLow,
    Slip::OldBound,
    Slip::PutSwept,
];
const UNSEEN: [Slip; 2] = [Slip::GetEndsHigh, Slip::WaitAtFree];
/// The same of what no sheet comes to: it has no command for a scan and no line for what is shown.
const SEEN_OF_SCANS: [Slip; 13] = [
    Slip::ScanByTop,
    Slip::ScanFindsFirst,
    Slip::ScanPastLast,
    Slip::ScanBelowFirst,
    Slip::ScanEndsBelow,
    Slip::ScanOlder,
    Slip::ScanOfWalk,
    Slip::ScanAgain,
    Slip::ScanCounted,
    Slip::ScanEffect,
    Slip::ScanKeeps,
    Slip::SpanAccepted,
    Slip::GetShows,
];
const UNSEEN_OF_SCANS: [Slip; 3] = [Slip::ScanStays, Slip::ScanOfOldKeys, Slip::ScanShowsInWalk];

impl Slip {
    /// Those that break demand 3.
    pub fn seen() -> impl Iterator<Item = Slip> {
        SEEN.into_iter().chain(SEEN_OF_SCANS)
    }

    /// Those that only a comparison step by step shows.
    pub fn unseen() -> impl Iterator<Item = Slip> {
        UNSEEN.into_iter().chain(UNSEEN_OF_SCANS)
    }

    pub fn all() -> impl Iterator<Item = Slip> {
        Slip::seen().chain(Slip::unseen())
    }

    /// Those that a sheet comes to.
    pub fn of_sheets() -> impl Iterator<Item = Slip> {
        SEEN.into_iter().chain(UNSEEN)
    }
}

#[derive(Clone, Hash)]
pub struct Broken {
    pub store: Store,
    pub slip: Slip,
}

impl Machine for Broken {
    fn store(&self) -> &Store {
        &self.store
    }

    fn store_mut(&mut self) -> &mut Store {
        &mut self.store
    }

    fn start(&mut self, process: u32, call: Call) -> Result<u32, Refusal> {
        let beyond = call.key() >= u32::MAX.into() && process < self.store.state.processes;
        if self.slip == Slip::OldBound && beyond {
            return Err(Refusal::KeyOutOfRange);
        }
        if self.slip == Slip::SpanAccepted {
            return self.span_accepted(process, call);
        }
        self.store.start(process, call)
    }

    fn step(&mut self, process: u32) -> Result<Step, Refusal> {
        let Some(call) = self.ready(process) else { return self.store.step(process) };
        let slipped = match self.slip {
            Slip::StaleLink => self.stale_link(process, &call),
            Slip::OwnNodeLocked => self.own_node_locked(process, &call),
            Slip::EqualDropped => self.equal_dropped(process, &call),
            Slip::TopFirst => self.top_first(process, &call),
            Slip::FullEarly => self.full_early(process, &call),
            Slip::GetNone => self.get_none(process, &call),
            Slip::GetEndsHigh => self.get_ends_high(process, &call),
            Slip::WaitAtFree => self.wait_at_free(&call),
            Slip::HighIgnored => self.step_seeing(process, low_alone),
            Slip::LowFirst => self.step_seeing(process, |key| key.rotate_left(32)),
            Slip::HalvesSwapped => self.halves_swapped(process, &call),
            Slip::InventedTicks | Slip::LateEffects | Slip::InventedTally => None,
            Slip::LookByLow | Slip::InspectByLow | Slip::OldBound => None,
            _ => self.scan_slip(process, &call),
        };
        match slipped {
            Some(step) => Ok(step),
            None => self.store.step(process).map(|step| self.invented(step)),
        }
    }

    fn look(&self, key: u64, back: u32) -> Result<(u32, u32), Refusal> {
        let right = self.store.look(key, back);
        let searched = !matches!(right, Err(Refusal::AlteredState | Refusal::KeyOutOfRange));
        if self.slip != Slip::LookByLow || !searched {
            return right;
        }
        let mut keys = (1..=self.store.state.nodes).map(|node| self.store.key(node));
        let met = keys.find(|&met| low_alone(met) == low_alone(key));
        met.map_or(right, |met| self.store.look(met, back))
    }

    fn inspect(&self) -> Result<Verdict, Refusal> {
        let right = self.store.inspect();
        if self.slip == Slip::InspectByLow && right.is_ok() {
            self.seeing(low_alone).inspect()
        } else {
            right
        }
    }
}

fn low_alone(key: u64) -> u64 {
    low_half(key).into()
}

fn set_key(store: &mut Store, node: u32, key: u64) {
    store.set_node_word(node, KEY_LOW, low_half(key));
    store.set_node_word(node, KEY_HIGH, high_half(key));
}

impl Broken {
    /// The call of a process that may step.
    fn ready(&self, process: u32) -> Option<Process> {
        let State { processes, events, limit, .. } = self.store.state;
        let call = *self.store.state.process[..processes as usize].get(process as usize)?;
        (call.kind != Kind::Idle && events < limit).then_some(call)
    }

    /// Ends a step that went another way: one event, the process as given.
    fn goes_on(&mut self, process: u32, call: Process) -> Option<Step> {
        self.store.state.process[process as usize] = call;
        self.store.state.events += 1;
        Some(Step::On(self.store.state.events))
    }

    fn takes_effect(&mut self, process: u32, call: &Process, answer: Answer) -> Option<Step> {
        let effect = self.store.state.events + 1;
        self.goes_on(process, Process { answer, effect, phase: Phase::Release, ..*call })
    }

    /// The store with other keys in its nodes in use, each as `seen` makes it of the right one.
    fn seeing(&self, seen: fn(u64) -> u64) -> Store {
        let mut store = self.store.clone();
        (0..=store.state.nodes).for_each(|node| set_key(&mut store, node, seen(self.store.key(node))));
        store
    }

    /// A step that sees its own key and those of the nodes like this. It leaves the right ones.
    fn step_seeing(&mut self, process: u32, seen: fn(u64) -> u64) -> Option<Step> {
        let index = process as usize;
        let Process { key: own, last, .. } = self.store.state.process[index];
        let mut store = self.seeing(seen);
        (store.state.process[index].key, store.state.process[index].last) = (seen(own), seen(last));
        let step = store.step(process).ok()?;
        (0..=self.store.state.nodes).for_each(|node| set_key(&mut store, node, self.store.key(node)));
        if store.state.nodes > self.store.state.nodes {
            let made = store.state.nodes;
            set_key(&mut store, made, own);
        }
        if store.state.process[index].kind != Kind::Idle {
            (store.state.process[index].key, store.state.process[index].last) = (own, last);
        }
        self.store = store;
        let pred = self.store.state.process[index].pred;
        Some(match step {
            Step::Shown { tick, value, timestamp, .. } => {
                Step::Shown { tick, key: self.store.key(pred), value, timestamp }
            }
            step => step,
        })
    }

    fn halves_swapped(&mut self, process: u32, call: &Process) -> Option<Step> {
        let nodes = self.store.state.nodes;
        let step = self.store.step(process).ok()?;
        if self.store.state.nodes > nodes {
            set_key(&mut self.store, nodes + 1, call.key.rotate_left(32));
        }
        Some(step)
    }

    fn invented(&mut self, step: Step) -> Step {
        match (self.slip, step) {
            (Slip::InventedTicks, Step::On(tick)) => Step::On(tick + 1),
            (Slip::LateEffects, Step::Done(done)) => Step::Done(Done { effect: done.finish, ..done }),
            (Slip::InventedTally, Step::Done(_)) => {
                self.store.tally[Answer::Found as usize] += 1;
                step
            }
            (_, Step::Done(done)) => Step::Done(self.invented_end(done)),
            _ => step,
        }
    }

    /// Seek keeps the link that it saw in the level's own remembered node, which is needed no more.
    fn stale_link(&mut self, process: u32, call: &Process) -> Option<Step> {
        let level = call.level;
        let now = self.store.next(call.pred, level);
        match call.phase {
            Phase::Seek => {
                let step = self.store.step(process).ok();
                let after = &mut self.store.state.process[process as usize];
                if after.phase == Phase::Lock {
                    after.preds[level as usize] = now;
                }
                step
            }
            Phase::Check | Phase::Make | Phase::Update | Phase::Link => {
                let saw = call.preds[level as usize];
                self.store.set_next(call.pred, level, saw);
                let step = self.store.step(process).ok();
                if self.store.next(call.pred, level) == saw {
                    self.store.set_next(call.pred, level, now);
                }
                step
            }
            _ => None,
        }
    }

    /// The node locked at level 0 is kept in the remembered node of level 0, which is needed no more.
    fn own_node_locked(&mut self, process: u32, call: &Process) -> Option<Step> {
        if call.level > 0 {
            return None;
        }
        let locked = call.preds[0];
        match call.phase {
            Phase::Lock => self.lock_own(process, call),
            Phase::Check | Phase::Release if locked != call.pred => {
                let others = self.store.lock(call.pred, 0);
                let step = self.store.step(process).ok();
                let frees =
                    call.phase == Phase::Release || self.store.state.process[process as usize].phase == Phase::Seek;
                if frees {
                    self.store.set_lock(call.pred, 0, others);
                    self.store.set_lock(locked, 0, 0);
                }
                step
            }
            _ => None,
        }
    }

    fn lock_own(&mut self, process: u32, call: &Process) -> Option<Step> {
        let next = self.store.next(call.pred, 0);
        let own = next != 0 && self.store.key(next) == call.key;
        let mut after = *call;
        after.preds[0] = if own { next } else { call.pred };
        if self.store.lock(after.preds[0], 0) != 0 {
            return self.waits();
        }
        self.store.set_lock(after.preds[0], 0, process + 1);
        after.phase = Phase::Check;
        self.goes_on(process, after)
    }

    fn waits(&mut self) -> Option<Step> {
        self.store.state.events += 1;
        Some(Step::Wait(self.store.state.events))
    }

    fn equal_dropped(&mut self, process: u32, call: &Process) -> Option<Step> {
        if call.phase != Phase::Update {
            return None;
        }
        let newest = self.store.node_word(self.store.next(call.pred, 0), NEWEST);
        let equal = self.store.version_word(newest, TIMESTAMP) == call.timestamp;
        if equal {
            self.takes_effect(process, call, Answer::TooOld)
        } else {
            None
        }
    }

    fn top_first(&mut self, process: u32, call: &Process) -> Option<Step> {
        let new = call.answer == Answer::New && call.top > 0;
        match call.phase {
            Phase::Make if call.top > 0 => {
                let next = self.store.next(call.pred, 0);
                let step = self.store.step(process).ok();
                self.store.set_next(call.pred, 0, next);
                step
            }
            Phase::Check if new && call.level == 0 => {
                let next = self.store.next(call.pred, 0);
                let before = next != 0 && self.store.key(next) < call.key;
                if before {
                    None
                } else {
                    self.goes_on(process, Process { phase: Phase::Link, ..*call })
                }
            }
            Phase::Release if new && call.level == 0 && self.store.next(call.pred, 0) == call.made => {
                self.store.state.process[process as usize].top = 0;
                None
            }
            Phase::Release if new => {
                let level = if call.level == 0 { call.top } else { call.level - 1 };
                self.store.set_lock(call.pred, call.level, 0);
                let pred = call.preds[level as usize];
                self.goes_on(process, Process { phase: Phase::Seek, level, pred, ..*call })
            }
            _ => None,
        }
    }

    fn full_early(&mut self, process: u32, call: &Process) -> Option<Step> {
        let one_left = self.store.state.nodes + 1 == self.store.state.max_keys();
        let full = call.phase == Phase::Make && one_left;
        if full {
            self.takes_effect(process, call, Answer::TraysFull)
        } else {
            None
        }
    }

    fn get_none(&mut self, process: u32, call: &Process) -> Option<Step> {
        if call.phase != Phase::Read {
            return None;
        }
        self.goes_on(process, Process::IDLE);
        self.store.tally[Answer::None as usize] += 1;
        let tick = self.store.state.events;
        let Process { kind, start, .. } = *call;
        Some(Step::Done(Done { kind, answer: Answer::None, value: 0, timestamp: 0, start, effect: tick, finish: tick }))
    }

    fn get_ends_high(&mut self, process: u32, call: &Process) -> Option<Step> {
        if call.kind != Kind::Get || call.phase != Phase::Walk || call.level == 0 {
            return None;
        }
        let next = self.store.next(call.pred, call.level);
        let met = next != 0 && self.store.key(next) == call.key;
        if met {
            self.goes_on(process, Process { pred: next, phase: Phase::Read, ..*call })
        } else {
            None
        }
    }

    fn wait_at_free(&mut self, call: &Process) -> Option<Step> {
        let even = self.store.state.events.is_multiple_of(2);
        if call.phase == Phase::Lock && even {
            self.waits()
        } else {
            None
        }
    }
}
