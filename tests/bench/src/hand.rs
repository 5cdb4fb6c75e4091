//! The same algorithm by hand in safe Rust: the state is a struct, changed in place, and the tables are lent words. It
//! makes every test of the C, but those that the types make for it (a kind, phase or answer that has no such number).

mod inspect;
mod step;

use crate::drive::{self, Done, Turn};
use crate::plan::{self, Call};

const LEVELS: usize = 6;
const TOP_LEVEL: u32 = 5;
const PROCESSES: usize = 8;
const NODE_WORDS: usize = 16;
const VERSION_WORDS: usize = 3;
const MAX_LIMIT: u32 = 1_000_000_000;
/// Words of the tally: the answers that it counts come first.
const COUNTS: usize = 7;

// Words of a node and of a version.
const KEY_LOW: usize = 0;
const NEWEST: usize = 1;
const TOP: usize = 2;
const KEY_HIGH: usize = 3;
const NEXT: usize = 4;
const LOCK: usize = 10;
const TIMESTAMP: usize = 1;

type Node = [u32; NODE_WORDS];
type Version = [u32; VERSION_WORDS];

/// A node's key: two words, one number wherever it is compared.
#[inline]
fn key_at(node: &Node) -> u64 {
    (node[KEY_HIGH] as u64) << 32 | node[KEY_LOW] as u64
}

#[derive(Clone, Copy, Debug, PartialEq, Eq)]
pub enum Refusal {
    NodeLength = 1,
    VersionLength = 2,
    ProcessCount = 3,
    EventLimit = 4,
    NoProcess = 5,
    BadKey = 6,
    Busy = 7,
    NoCall = 8,
    Spent = 9,
    Corrupt = 10,
    Damaged = 11,
    BadSpan = 17,
}

#[derive(Clone, Copy, PartialEq, Eq)]
enum Kind {
    Idle,
    Put,
    Get,
    Scan,
}

#[derive(Clone, Copy, PartialEq, Eq)]
enum Phase {
    Walk,
    Read,
    Seek,
    Lock,
    Check,
    Update,
    Make,
    Link,
    Release,
    Follow,
}

#[derive(Clone, Copy, PartialEq, Eq, PartialOrd)]
enum Answer {
    TooOld,
    VersionsFull,
    Added,
    KeysFull,
    New,
    Found,
    None,
    Swept,
}

#[derive(Clone, Copy)]
struct Process {
    kind: Kind,
    key: u64,
    /// A scan's last key; of other calls their key once more.
    last: u64,
    value: u32,
    timestamp: u32,
    top: u32,
    start: u32,
    phase: Phase,
    level: u32,
    pred: u32,
    made: u32,
    answer: Answer,
    effect: u32,
    preds: [u32; LEVELS],
}

impl Process {
    const IDLE: Process = Process {
        kind: Kind::Idle,
        key: 0,
        last: 0,
        value: 0,
        timestamp: 0,
        top: 0,
        start: 0,
        phase: Phase::Walk,
        level: 0,
        pred: 0,
        made: 0,
        answer: Answer::None,
        effect: 0,
        preds: [0; LEVELS],
    };
}

pub struct State {
    opened: bool,
    processes: u32,
    limit: u32,
    events: u32,
    node_words: u32,
    version_words: u32,
    nodes: u32,
    versions: u32,
    process: [Process; PROCESSES],
}

fn refuse_unless(lawful: bool, refusal: Refusal) -> Result<(), Refusal> {
    if lawful {
        Ok(())
    } else {
        Err(refusal)
    }
}

fn lawful_node_words(words: usize) -> bool {
    (32..=16_384).contains(&words) && words.is_multiple_of(NODE_WORDS)
}

fn lawful_version_words(words: usize) -> bool {
    (6..=12_288).contains(&words) && words.is_multiple_of(VERSION_WORDS)
}

fn lawful_processes(processes: u32) -> bool {
    (1..=PROCESSES as u32).contains(&processes)
}

fn lawful_limit(limit: u32) -> bool {
    (1..=MAX_LIMIT).contains(&limit)
}

fn lawful_key(key: u64) -> bool {
    key != 0 && key != u64::MAX
}

impl State {
    const CLOSED: State = State {
        opened: false,
        processes: 0,
        limit: 0,
        events: 0,
        node_words: 0,
        version_words: 0,
        nodes: 0,
        versions: 0,
        process: [Process::IDLE; PROCESSES],
    };

    fn open(nodes: &mut [u32], versions: &mut [u32], processes: u32, limit: u32) -> Result<State, Refusal> {
        refuse_unless(lawful_node_words(nodes.len()), Refusal::NodeLength)?;
        refuse_unless(lawful_version_words(versions.len()), Refusal::VersionLength)?;
        refuse_unless(lawful_processes(processes), Refusal::ProcessCount)?;
        refuse_unless(lawful_limit(limit), Refusal::EventLimit)?;
        nodes.fill(0);
        nodes[TOP] = TOP_LEVEL;
        versions.fill(0);
        let (node_words, version_words) = (nodes.len() as u32, versions.len() as u32);
        Ok(State { opened: true, processes, limit, node_words, version_words, ..State::CLOSED })
    }

    /// Refusal 10.
    #[inline]
    fn lawful(&self, nodes: &[u32], versions: &[u32]) -> bool {
        self.opened
            && lawful_processes(self.processes)
            && lawful_limit(self.limit)
            && self.events <= self.limit
            && lawful_node_words(self.node_words as usize)
            && lawful_version_words(self.version_words as usize)
            && self.nodes < self.node_words / NODE_WORDS as u32
            && self.versions < self.version_words / VERSION_WORDS as u32
            && nodes.len() == self.node_words as usize
            && versions.len() == self.version_words as usize
    }

    /// Gives a call to a process; answers its tick. Not inlined and named, as the step is.
    #[inline(never)]
    #[export_name = "rust_tray_start"]
    fn start(&mut self, nodes: &[u32], versions: &[u32], process: u32, call: &Call) -> Result<u32, Refusal> {
        refuse_unless(self.lawful(nodes, versions), Refusal::Corrupt)?;
        refuse_unless(process < self.processes, Refusal::NoProcess)?;
        let last = if let plan::Kind::Scan { last } = call.kind { last } else { call.key };
        refuse_unless(lawful_key(call.key) && lawful_key(last), Refusal::BadKey)?;
        refuse_unless(call.key <= last, Refusal::BadSpan)?;
        let slot = &mut self.process[process as usize];
        refuse_unless(slot.kind == Kind::Idle, Refusal::Busy)?;
        refuse_unless(self.events < self.limit, Refusal::Spent)?;
        self.events += 1;
        let fresh = Process { kind: Kind::Get, key: call.key, last, start: self.events, level: TOP_LEVEL, ..Process::IDLE };
        *slot = match call.kind {
            plan::Kind::Get => fresh,
            plan::Kind::Scan { .. } => Process { kind: Kind::Scan, ..fresh },
            plan::Kind::Put { value, timestamp, draw } => {
                let top = draw.trailing_zeros().min(TOP_LEVEL);
                Process { kind: Kind::Put, value, timestamp, top, ..fresh }
            }
        };
        Ok(self.events)
    }
}

/// The state and all that is lent with it.
pub struct HandRust {
    state: State,
    nodes: Vec<u32>,
    versions: Vec<u32>,
    tally: [u32; COUNTS],
}

impl drive::Store for HandRust {
    fn closed(keys: u32, versions: u32) -> HandRust {
        let nodes = vec![0; NODE_WORDS * (keys as usize + 1)];
        let versions = vec![0; VERSION_WORDS * (versions as usize + 1)];
        HandRust { state: State::CLOSED, nodes, versions, tally: [0; COUNTS] }
    }

    fn open(&mut self) {
        self.state = State::open(&mut self.nodes, &mut self.versions, PROCESSES as u32, MAX_LIMIT).unwrap();
    }

    fn start(&mut self, process: u32, call: &Call) {
        self.state.start(&self.nodes, &self.versions, process, call).unwrap();
    }

    fn step(&mut self, process: u32) -> Turn {
        step::step(&mut self.state, &mut self.nodes, &mut self.versions, &mut self.tally, process).unwrap()
    }

    fn inspect(&self) -> u32 {
        inspect::inspect(&self.state, &self.nodes, &self.versions).unwrap().is_some() as u32
    }
}
