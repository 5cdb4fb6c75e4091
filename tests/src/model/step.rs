//! One step of a process: document 01, "Steps of a station", and document 02, the sweep. Each phase is one function; it
//! makes all its tests (refusal 11) before its first write.

use super::*;

/// The answer of a step that is not refused.
#[derive(Clone, Copy, Debug, PartialEq, Eq, Hash)]
pub enum Step {
    On(u32),
    Wait(u32),
    /// A scan shows a key and its newest version.
    Shown {
        tick: u32,
        key: u64,
        value: u32,
        timestamp: u32,
    },
    Done(Done),
}

impl Step {
    pub fn tick(self) -> u32 {
        match self {
            Step::On(tick) | Step::Wait(tick) | Step::Shown { tick, .. } => tick,
            Step::Done(done) => done.finish,
        }
    }
}

/// A finished call. Value and timestamp are a put's own, those found by a get, or 0 and 0. A scan takes no effect: 0.
#[derive(Clone, Copy, Debug, PartialEq, Eq, Hash)]
pub struct Done {
    pub kind: Kind,
    pub answer: Answer,
    pub value: u32,
    pub timestamp: u32,
    pub start: u32,
    pub effect: u32,
    pub finish: u32,
}

/// What became of a call in one step.
enum Turn {
    On,
    Wait,
    Show { key: u64, value: u32, timestamp: u32 },
    Finish { answer: Answer, value: u32, timestamp: u32, effect: u32 },
}

impl Store {
    /// One step of a process. Refusals 10, 5, 8, 9, 11.
    pub fn step(&mut self, process: u32) -> Result<Step, Refusal> {
        self.check_lent()?;
        require(self.tally.len() == COUNTS, Refusal::AlteredState)?;
        let index = self.check_process(process)?;
        let mut call = self.state.process[index];
        require(call.kind != Kind::Idle, Refusal::NoCallRunning)?;
        let tick = self.next_tick()?;
        self.check_call(&call)?;
        let turn = match call.phase {
            Phase::Walk => self.walk(&mut call, tick),
            Phase::Read => self.read(&call, tick),
            Phase::Seek => self.seek(&mut call),
            Phase::Lock => self.take_lock(&mut call, process),
            Phase::Check => self.check(&mut call),
            Phase::Update => self.update(&mut call, tick),
            Phase::Make => self.make(&mut call, tick),
            Phase::Link => self.link(&mut call),
            Phase::Release => self.release(&mut call),
            Phase::Follow => self.follow(&mut call),
        }?;
        self.state.events = tick;
        self.state.process[index] = call;
        Ok(match turn {
            Turn::On => Step::On(tick),
            Turn::Wait => Step::Wait(tick),
            Turn::Show { key, value, timestamp } => Step::Shown { tick, key, value, timestamp },
            Turn::Finish { answer, value, timestamp, effect } => {
                self.state.process[index] = Process::IDLE;
                self.count(answer);
                Step::Done(Done { kind: call.kind, answer, value, timestamp, start: call.start, effect, finish: tick })
            }
        })
    }

    fn count(&mut self, answer: Answer) {
        if let Some(place) = answer.place() {
            self.tally[place] = self.tally[place].saturating_add(1);
        }
    }

    /// The part of refusal 11 that holds at any step.
    fn check_call(&self, call: &Process) -> Result<(), Refusal> {
        let (in_place, effect) = match call.kind {
            Kind::Put => {
                let answered = call.phase == Phase::Release || call.effect != 0;
                (!matches!(call.phase, Phase::Read | Phase::Follow), !answered || call.answer.of_put())
            }
            Kind::Scan => (matches!(call.phase, Phase::Walk | Phase::Follow), call.effect == 0),
            Kind::Get | Kind::Idle => (matches!(call.phase, Phase::Walk | Phase::Read), call.effect == 0),
        };
        let lawful = in_place && effect && call.level <= TOP_LEVEL && call.pred <= self.state.nodes;
        require(lawful, Refusal::AlteredMemory)
    }

    /// The link of p at a level, if it leads to a node in use or is the end.
    fn next_in_use(&self, call: &Process, level: u32) -> Result<u32, Refusal> {
        let next = self.next(call.pred, level);
        require(next <= self.state.nodes, Refusal::AlteredMemory)?;
        Ok(next)
    }

    /// "Before": is `next` a node, and of a smaller key than the call's?
    fn before(&self, next: u32, call: &Process) -> bool {
        next != 0 && self.key(next) < call.key
    }

    fn leads_to_key(&self, next: u32, call: &Process) -> bool {
        next != 0 && self.key(next) == call.key
    }

    fn walk(&self, call: &mut Process, tick: u32) -> Result<Turn, Refusal> {
        let next = self.next_in_use(call, call.level)?;
        if self.before(next, call) {
            call.pred = next;
            return Ok(Turn::On);
        }
        call.preds[call.level as usize] = call.pred;
        if call.level > 0 {
            call.level -= 1;
        } else if call.kind == Kind::Put {
            call.phase = Phase::Seek;
        } else if call.kind == Kind::Scan {
            call.phase = Phase::Follow;
        } else if self.leads_to_key(next, call) {
            call.pred = next;
            call.phase = Phase::Read;
        } else {
            return Ok(Turn::Finish { answer: Answer::None, value: 0, timestamp: 0, effect: tick });
        }
        Ok(Turn::On)
    }

    fn read(&self, call: &Process, tick: u32) -> Result<Turn, Refusal> {
        let (value, timestamp) = self.version(self.newest_in_use(call.pred)?);
        Ok(Turn::Finish { answer: Answer::Found, value, timestamp, effect: tick })
    }

    /// Along level 0, whatever the level at hand. The last key is compared before the first.
    fn follow(&self, call: &mut Process) -> Result<Turn, Refusal> {
        let next = self.next_in_use(call, 0)?;
        if next == 0 || self.key(next) > call.last {
            return Ok(Turn::Finish { answer: Answer::Swept, value: 0, timestamp: 0, effect: 0 });
        }
        let turn = if self.before(next, call) {
            Turn::On
        } else {
            let (value, timestamp) = self.version(self.newest_in_use(next)?);
            Turn::Show { key: self.key(next), value, timestamp }
        };
        call.pred = next;
        Ok(turn)
    }

    fn seek(&self, call: &mut Process) -> Result<Turn, Refusal> {
        let next = self.next_in_use(call, call.level)?;
        if self.before(next, call) {
            call.pred = next;
        } else {
            call.phase = Phase::Lock;
        }
        Ok(Turn::On)
    }

    fn take_lock(&mut self, call: &mut Process, process: u32) -> Result<Turn, Refusal> {
        if self.lock(call.pred, call.level) != 0 {
            return Ok(Turn::Wait);
        }
        self.set_lock(call.pred, call.level, process + 1);
        call.phase = Phase::Check;
        Ok(Turn::On)
    }

    /// The link is read again, now under the lock.
    fn check(&mut self, call: &mut Process) -> Result<Turn, Refusal> {
        let next = self.next_in_use(call, call.level)?;
        if self.before(next, call) {
            self.set_lock(call.pred, call.level, 0);
            call.pred = next;
            call.phase = Phase::Seek;
        } else if call.level > 0 {
            call.phase = Phase::Link;
        } else if self.leads_to_key(next, call) {
            call.phase = Phase::Update;
        } else {
            call.phase = Phase::Make;
        }
        Ok(Turn::On)
    }

    /// The ledger's put on a key that has a list: the node behind p at level 0.
    fn update(&mut self, call: &mut Process, tick: u32) -> Result<Turn, Refusal> {
        let node = self.next(call.pred, 0);
        require(node != 0 && node <= self.state.nodes, Refusal::AlteredMemory)?;
        let newest = self.newest_in_use(node)?;
        let answer = if call.timestamp < self.version_word(newest, TIMESTAMP) {
            Answer::TooOld
        } else if self.state.versions == self.state.max_versions() {
            Answer::ReadingsFull
        } else {
            let place = self.add_version(call, newest);
            self.set_node_word(node, NEWEST, place);
            Answer::Added
        };
        Ok(take_effect(call, answer, tick))
    }

    /// The ledger's put on a key that has no list: a new node behind p at level 0.
    fn make(&mut self, call: &mut Process, tick: u32) -> Result<Turn, Refusal> {
        let answer = if self.state.nodes == self.state.max_keys() {
            Answer::TraysFull
        } else if self.state.versions == self.state.max_versions() {
            Answer::ReadingsFull
        } else {
            require(call.top <= TOP_LEVEL, Refusal::AlteredMemory)?;
            self.add_node(call);
            Answer::New
        };
        Ok(take_effect(call, answer, tick))
    }

    fn add_node(&mut self, call: &mut Process) {
        let mut record = [0; NODE_WORDS];
        (record[KEY_LOW], record[KEY_HIGH]) = (low_half(call.key), high_half(call.key));
        record[NEWEST] = self.add_version(call, 0);
        record[TOP] = call.top;
        record[NEXT] = self.next(call.pred, 0);
        self.state.nodes += 1;
        call.made = self.state.nodes;
        let first = call.made as usize * NODE_WORDS;
        self.node_table[first..first + NODE_WORDS].copy_from_slice(&record);
        self.set_next(call.pred, 0, call.made);
    }

    /// Fills the next unused place; answers it.
    fn add_version(&mut self, call: &Process, prev: u32) -> u32 {
        self.state.versions += 1;
        let place = self.state.versions;
        let first = place as usize * VERSION_WORDS;
        self.version_table[first..first + VERSION_WORDS].copy_from_slice(&[call.value, call.timestamp, prev]);
        place
    }

    fn link(&mut self, call: &mut Process) -> Result<Turn, Refusal> {
        require(call.made != 0 && call.made <= self.state.nodes, Refusal::AlteredMemory)?;
        let next = self.next(call.pred, call.level);
        self.set_next(call.made, call.level, next);
        self.set_next(call.pred, call.level, call.made);
        call.phase = Phase::Release;
        Ok(Turn::On)
    }

    fn release(&mut self, call: &mut Process) -> Result<Turn, Refusal> {
        let new = call.answer == Answer::New;
        require(!new || call.top <= TOP_LEVEL, Refusal::AlteredMemory)?;
        let Process { pred, level, answer, value, timestamp, effect, .. } = *call;
        if !new || level >= call.top {
            self.set_lock(pred, level, 0);
            return Ok(Turn::Finish { answer, value, timestamp, effect });
        }
        call.level += 1;
        call.pred = call.preds[call.level as usize];
        call.phase = Phase::Seek;
        require(call.pred <= self.state.nodes, Refusal::AlteredMemory)?;
        self.set_lock(pred, level, 0);
        Ok(Turn::On)
    }
}

fn take_effect(call: &mut Process, answer: Answer, tick: u32) -> Turn {
    call.answer = answer;
    call.effect = tick;
    call.phase = Phase::Release;
    Turn::On
}
