//! Altered memory: states, tables, tallies and arguments that no run leaves, each with one operation to try on it.
//!
//! [`case`] gives the case of a seed. [`Operation::perform`] runs it on the model and [`Reply::words`] gives the
//! answer in words; with `State::to_words`, the two tables and the tally this is all that another implementation has
//! to agree with.

use crate::generate::{any_call, call, live_store, near, EDGE_KEYS};
use crate::model::*;
use crate::random::Random;

/// One call of the store with any arguments.
#[derive(Clone, Copy, Debug, PartialEq, Eq)]
pub enum Operation {
    Open { processes: u32, limit: u32 },
    Start { process: u32, call: Call },
    Step { process: u32 },
    Look { key: u64, back: u32 },
    Inspect,
    Status { process: u32 },
}

#[derive(Clone, Copy, Debug, PartialEq, Eq)]
pub enum Reply {
    Refused(Refusal),
    Opened,
    Started(u32),
    Stepped(Step),
    Looked(u32, u32),
    Inspected(Verdict),
    Status(Status),
}

impl Operation {
    pub fn perform(self, store: &mut Store) -> Reply {
        let reply = match self {
            Operation::Open { processes, limit } => store.open(processes, limit).map(|()| Reply::Opened),
            Operation::Start { process, call } => store.start(process, call).map(Reply::Started),
            Operation::Step { process } => store.step(process).map(Reply::Stepped),
            Operation::Look { key, back } => {
                store.look(key, back).map(|(value, timestamp)| Reply::Looked(value, timestamp))
            }
            Operation::Inspect => store.inspect().map(Reply::Inspected),
            Operation::Status { process } => store.status(process).map(Reply::Status),
        };
        reply.unwrap_or_else(Reply::Refused)
    }
}

impl Reply {
    /// The reply as nine words, unused ones 0. Word 0 is the refusal number, 0 if not refused. Then: started: tick;
    /// step: 0 on, 1 wait, 2 done, 3 shown, and the tick, and for done kind, answer, value, timestamp, start, effect,
    /// for shown the key's low and high half, value, timestamp; look: value, timestamp; inspection: 0 sound or 1 fault,
    /// level, node; status: kind (0 idle), start, effect.
    pub fn words(self) -> [u32; 9] {
        let mut words = [0; 9];
        let mut fill = |from: &[u32]| words[1..=from.len()].copy_from_slice(from);
        match self {
            Reply::Refused(refusal) => words[0] = refusal.number(),
            Reply::Opened | Reply::Inspected(Verdict::Sound) | Reply::Status(Status::Idle) => {}
            Reply::Started(tick) => fill(&[tick]),
            Reply::Stepped(Step::On(tick)) => fill(&[0, tick]),
            Reply::Stepped(Step::Wait(tick)) => fill(&[1, tick]),
            Reply::Stepped(Step::Done(d)) => {
                fill(&[2, d.finish, d.kind as u32, d.answer as u32, d.value, d.timestamp, d.start, d.effect])
            }
            Reply::Stepped(Step::Shown { tick, key, value, timestamp }) => {
                fill(&[3, tick, low_half(key), high_half(key), value, timestamp])
            }
            Reply::Looked(value, timestamp) => fill(&[value, timestamp]),
            Reply::Inspected(Verdict::Fault { level, node }) => fill(&[1, level, node]),
            Reply::Status(Status::Running { kind, start, effect }) => fill(&[kind as u32, start, effect]),
        }
        words
    }
}

#[derive(Clone, Debug, PartialEq, Eq)]
pub struct Case {
    pub store: Store,
    pub operation: Operation,
}

/// The case of a seed: a live store, then by `seed % 4` 0 one alteration, 1 up to six, 2 all of it from random but
/// mostly plausible numbers, 3 calls set by hand at random phases, half of the time with one alteration.
pub fn case(seed: u64) -> Case {
    let mut damage = Damage { random: Random::new(seed ^ 0xDA3A_6E00_0000_0000), store: live_store(seed) };
    damage.liven();
    match seed % 4 {
        0 => damage.alter(),
        1 => (0..damage.random.within(2, 6)).for_each(|_| damage.alter()),
        2 => damage.invent(),
        _ => damage.stage(),
    }
    let operation = damage.operation();
    Case { store: damage.store, operation }
}

struct Damage {
    random: Random,
    store: Store,
}

impl Damage {
    /// A number near an edge of something, or a wild one.
    fn number(&mut self) -> u32 {
        let State { nodes, versions, events, limit, processes, .. } = self.store.state;
        let edge = match self.random.below(12) {
            0..=3 => return self.random.below(8),
            4 => nodes,
            5 => versions,
            6 => return self.random.below(nodes.saturating_add(2).min(5_000)),
            7 => return self.random.below(versions.saturating_add(2).min(5_000)),
            8 => self.random.pick(&[events, limit, processes, MAX_LIMIT, MAX_KEYS, MAX_VERSIONS]),
            9 => self.random.pick(&[0, 1 << 31, (1 << 28) - 1, 1 << 28]),
            10 => u32::MAX,
            _ => return self.random.word(),
        };
        edge.wrapping_add(self.random.below(3)).wrapping_sub(1)
    }

    /// Half of the time gives process 0 a call, if it has none, and steps it a little.
    fn liven(&mut self) {
        if self.random.once_in(2) {
            let call = any_call(&mut self.random, self.store.state.nodes + 2);
            let _ = self.store.start(0, call);
            for _ in 0..self.random.below(25) {
                let _ = self.store.step(0);
            }
        }
    }

    /// One alteration anywhere.
    fn alter(&mut self) {
        match self.random.below(13) {
            0 => self.alter_head(),
            1..=5 => self.alter_process(),
            6..=8 => self.alter_node(),
            9 => self.alter_version(),
            10 => self.alter_lengths(),
            11 => self.alter_key(),
            _ => self.garbage(),
        }
    }

    fn alter_head(&mut self) {
        let number = self.number();
        let state = &mut self.store.state;
        match self.random.below(8) {
            0 => state.opened = !state.opened,
            1 => state.processes = number,
            2 => state.limit = number,
            3 => state.events = number,
            4 => state.node_words = number,
            5 => state.version_words = number,
            6 => state.nodes = number,
            _ => state.versions = number,
        }
    }

    fn alter_process(&mut self) {
        let number = self.number();
        let key = self.key();
        let index = self.random.below(PROCESSES as u32) as usize;
        let process = &mut self.store.state.process[index];
        match self.random.below(14) {
            0 => process.kind = self.random.pick(&Kind::ALL),
            1 => process.key = key,
            2 => process.timestamp = number,
            3 => process.top = number,
            4 => process.start = number,
            5 => process.phase = self.random.pick(&Phase::ALL),
            6 => process.level = number,
            7 => process.pred = number,
            8 => process.made = number,
            9 => process.answer = self.random.pick(&Answer::ALL),
            10 => process.effect = number,
            11 => process.value = number,
            12 => process.last = key,
            _ => process.preds[self.random.below(LEVELS as u32) as usize] = number,
        }
    }

    /// A word of a node in use or one behind.
    fn alter_node(&mut self) {
        let nodes = (self.store.node_table.len() / NODE_WORDS) as u32;
        let node = self.random.below(self.store.state.nodes.saturating_add(2).min(nodes).max(1));
        let word = self.random.below(NODE_WORDS as u32) as usize;
        let number = self.number();
        if let Some(at) = self.store.node_table.get_mut(node as usize * NODE_WORDS + word) {
            *at = number;
        }
    }

    /// One half of a node's key, at times that of another node: two keys then agree in it.
    fn alter_key(&mut self) {
        let nodes = (self.store.node_table.len() / NODE_WORDS) as u32;
        let nodes = nodes.min(self.store.state.nodes.saturating_add(1));
        if nodes == 0 {
            return;
        }
        let (node, other) = (self.random.below(nodes), self.random.below(nodes));
        let word = self.random.pick(&[KEY_LOW, KEY_HIGH]);
        let number = self.number();
        let to = if self.random.once_in(2) { self.store.node_word(other, word) } else { number };
        self.store.set_node_word(node, word, to);
    }

    fn alter_version(&mut self) {
        let places = (self.store.version_table.len() / VERSION_WORDS) as u32;
        let place = self.random.below(self.store.state.versions.saturating_add(2).min(places).max(1));
        let word = self.random.below(VERSION_WORDS as u32) as usize;
        let number = self.number();
        if let Some(at) = self.store.version_table.get_mut(place as usize * VERSION_WORDS + word) {
            *at = number;
        }
    }

    /// Tables and tally longer, shorter or empty; sometimes the state follows.
    fn alter_lengths(&mut self) {
        let table = match self.random.below(3) {
            0 => &mut self.store.node_table,
            1 => &mut self.store.version_table,
            _ => &mut self.store.tally,
        };
        let now = table.len();
        let lengths = [0, 1, 3, now.saturating_sub(1), now + 1, now + 3, now + 16, now.saturating_sub(16)];
        table.resize(self.random.pick(&lengths), 1);
        if self.random.once_in(3) {
            self.store.state.node_words = self.store.node_table.len() as u32;
            self.store.state.version_words = self.store.version_table.len() as u32;
        }
        if self.random.once_in(3) {
            self.store.tally.fill(u32::MAX);
        }
    }

    /// Fills the nodes and places not in use, and place 0, with anything.
    fn garbage(&mut self) {
        let Store { state, node_table, version_table, .. } = &mut self.store;
        let nodes = (state.nodes as usize).saturating_add(1).saturating_mul(NODE_WORDS);
        let places = (state.versions as usize).saturating_add(1).saturating_mul(VERSION_WORDS);
        let random = &mut self.random;
        node_table.iter_mut().skip(nodes).for_each(|word| *word = random.below(9));
        version_table.iter_mut().take(VERSION_WORDS).for_each(|word| *word = random.below(9));
        version_table.iter_mut().skip(places).for_each(|word| *word = random.below(9));
    }

    /// Everything anew: lengths and counts mostly lawful, the words mostly small.
    fn invent(&mut self) {
        let largest = self.random.once_in(100);
        let (keys, versions) =
            if largest { (MAX_KEYS, MAX_VERSIONS) } else { (self.random.within(1, 5), self.random.within(1, 6)) };
        let mut store = Store::closed(keys as usize, versions as usize);
        let _ = store.open(self.random.within(1, 8), self.random.within(1, 50));
        store.state.nodes = self.random.within(0, keys);
        store.state.versions = self.random.within(0, versions);
        store.state.events = self.random.below(store.state.limit + 1);
        self.store = store;
        for at in 0..self.store.node_table.len() {
            let lock = at % NODE_WORDS >= 10;
            self.store.node_table[at] = if lock && !self.random.once_in(4) { 0 } else { self.number() };
        }
        for at in 0..self.store.version_table.len() {
            self.store.version_table[at] = self.number();
        }
        for index in 0..PROCESSES {
            self.store.state.process[index] = self.invent_process();
        }
        if self.random.once_in(8) {
            self.alter();
        }
    }

    fn invent_process(&mut self) -> Process {
        let kind = self.random.pick(&[Kind::Idle, Kind::Put, Kind::Put, Kind::Get, Kind::Scan]);
        let calm = self.random.once_in(2);
        Process {
            kind,
            key: self.any_key(),
            last: self.any_key(),
            value: self.number(),
            timestamp: self.number(),
            top: self.random.below(if calm { 6 } else { 8 }),
            start: self.number(),
            phase: self.random.pick(&Phase::ALL),
            level: self.random.below(if calm { 6 } else { 8 }),
            pred: self.number(),
            made: self.number(),
            answer: self.random.pick(&Answer::ALL),
            effect: if calm { 0 } else { self.number() },
            preds: std::array::from_fn(|_| self.number()),
        }
    }

    /// Lawful calls at random phases, levels and nodes, so that most tests of refusal 11 are passed.
    fn stage(&mut self) {
        for index in 0..PROCESSES {
            self.store.state.process[index] = self.stage_process();
        }
        if self.random.once_in(2) {
            self.alter();
        }
    }

    fn stage_process(&mut self) -> Process {
        let nodes = self.store.state.nodes;
        let wild = self.invent_process();
        let pred = self.random.below(nodes + 1);
        let behind = self.store.next(pred, 0);
        let near = behind != 0 && self.random.once_in(2);
        let (met, other) = (self.store.key(behind), call(&mut self.random, nodes + 2).key());
        let key = if near { met } else { other };
        let phase = match wild.kind {
            Kind::Get => self.random.pick(&[Phase::Walk, Phase::Read]),
            Kind::Scan => self.random.pick(&[Phase::Walk, Phase::Follow, Phase::Follow]),
            _ => wild.phase,
        };
        let effect = if wild.kind == Kind::Put && self.random.once_in(4) { self.random.word() } else { 0 };
        let answered = phase == Phase::Release || effect != 0;
        Process {
            key,
            last: self.random.pick(&[met, other, LAST_KEY, wild.last]),
            timestamp: 1_000 + self.random.below(6),
            top: self.random.below(6),
            phase,
            level: if near { 0 } else { self.random.below(6) },
            pred,
            made: self.random.below(nodes + 1),
            answer: if answered { self.random.pick(&Answer::ALL[..5]) } else { wild.answer },
            effect,
            preds: std::array::from_fn(|_| self.random.below(nodes + 1)),
            ..wild
        }
    }

    fn process(&mut self) -> u32 {
        if self.random.once_in(10) {
            return self.number();
        }
        let processes = self.store.state.processes.clamp(1, PROCESSES as u32);
        let running: Vec<u32> =
            (0..processes).filter(|&p| self.store.state.process[p as usize].kind != Kind::Idle).collect();
        if running.is_empty() {
            self.random.below(processes)
        } else {
            self.random.pick(&running)
        }
    }

    /// A key at an edge, or of numbers at edges.
    fn any_key(&mut self) -> u64 {
        match self.random.below(3) {
            0 => self.number().into(),
            1 => key_of_halves(self.number(), self.number()),
            _ => self.random.pick(&EDGE_KEYS),
        }
    }

    /// A key that some node has, or one that agrees with it in one half, or any.
    fn key(&mut self) -> u64 {
        let nodes = (self.store.node_table.len() / NODE_WORDS) as u32;
        let last = nodes.saturating_sub(1).min(self.store.state.nodes);
        if last == 0 || self.random.once_in(5) {
            return self.any_key();
        }
        let node = self.random.within(1, last);
        let key = self.store.key(node);
        if self.random.once_in(5) {
            near(&mut self.random, key)
        } else {
            key
        }
    }

    fn back(&mut self) -> u32 {
        if self.random.once_in(5) {
            self.number()
        } else {
            self.random.below(4)
        }
    }

    fn operation(&mut self) -> Operation {
        match self.random.below(20) {
            0 => Operation::Open { processes: self.number(), limit: self.number() },
            1 => Operation::Open { processes: self.random.within(1, 8), limit: self.random.word() },
            2..=3 => {
                let call = match any_call(&mut self.random, 6) {
                    Call::Get { .. } => Call::Get { key: self.key() },
                    Call::Put { value, timestamp, draw, .. } => Call::Put { key: self.key(), value, timestamp, draw },
                    Call::Scan { .. } => Call::Scan { first: self.key(), last: self.key() },
                };
                let process = if self.random.once_in(2) { self.process() } else { self.random.below(PROCESSES as u32) };
                Operation::Start { process, call }
            }
            4..=6 => Operation::Look { key: self.key(), back: self.back() },
            7..=8 => self.inspection(),
            9 => Operation::Status { process: self.process() },
            _ => Operation::Step { process: self.process() },
        }
    }

    /// Mostly with all processes idle, since another inspection is refused at once.
    fn inspection(&mut self) -> Operation {
        if !self.random.once_in(8) {
            self.store.state.process.iter_mut().for_each(|process| process.kind = Kind::Idle);
        }
        Operation::Inspect
    }
}

/// The same case with other words in the nodes and places not in use: the reply must not change.
pub fn other_garbage(case: &Case, seed: u64) -> Case {
    let mut damage = Damage { random: Random::new(seed), store: case.store.clone() };
    damage.garbage();
    Case { store: damage.store, operation: case.operation }
}
