//! The store of document 01 as plain data and plain functions.
//!
//! [`Store`] holds everything a caller lends: the state, the node table, the version table and the tally. Every
//! call is total: whatever stands in them, it answers or refuses, and a refusal changes nothing (except that a
//! refused [`Store::open`] leaves a closed state).

mod key;
mod read;
mod step;
mod words;

pub use key::{high_half, key_of_halves, lawful_key, low_half, FIRST_KEY, LAST_KEY};
pub use read::{Status, Verdict};
pub use step::{Done, Step};
pub use words::STATE_WORDS;

/// Most processes (document 01: stations) of a store.
pub const PROCESSES: usize = 8;
/// Levels 0 to 5.
pub const LEVELS: usize = 6;
pub const TOP_LEVEL: u32 = 5;
pub const NODE_WORDS: usize = 16;
pub const VERSION_WORDS: usize = 3;
/// Most keys (trays) and versions (readings) of a store.
pub const MAX_KEYS: u32 = 1_023;
pub const MAX_VERSIONS: u32 = 4_095;
pub const MAX_LIMIT: u32 = 1_000_000_000;
/// Counts of a tally: one for each [`Answer`] but a scan's, in their order.
pub const COUNTS: usize = 7;

// Words of a node.
pub(crate) const KEY_LOW: usize = 0;
pub(crate) const NEWEST: usize = 1;
pub(crate) const TOP: usize = 2;
pub(crate) const KEY_HIGH: usize = 3;
pub(crate) const NEXT: usize = 4;
pub(crate) const LOCK: usize = 10;
// Words of a version.
pub(crate) const VALUE: usize = 0;
pub(crate) const TIMESTAMP: usize = 1;
pub(crate) const PREV: usize = 2;

/// Why a call is refused; the number is the documents'. 14 to 16 are given by the sheet program only.
#[derive(Clone, Copy, Debug, PartialEq, Eq, Hash, PartialOrd, Ord)]
#[repr(u8)]
pub enum Refusal {
    NodeTableLength = 1,
    VersionTableLength = 2,
    ProcessCount = 3,
    EventLimit = 4,
    NoSuchProcess = 5,
    KeyOutOfRange = 6,
    Busy = 7,
    NoCallRunning = 8,
    LimitSpent = 9,
    AlteredState = 10,
    AlteredMemory = 11,
    NoSuchKey = 12,
    FewerVersions = 13,
    NotOpened = 14,
    UnknownByte = 15,
    CutShort = 16,
    BadSpan = 17,
}

impl Refusal {
    pub fn number(self) -> u32 {
        self as u32
    }
}

#[derive(Clone, Copy, Debug, PartialEq, Eq, Hash, PartialOrd, Ord)]
pub enum Kind {
    Idle = 0,
    Put = 1,
    Get = 2,
    /// Document 02: a sweep.
    Scan = 3,
}

/// What the next step of a process will do.
#[derive(Clone, Copy, Debug, PartialEq, Eq, Hash, PartialOrd, Ord)]
pub enum Phase {
    Walk = 0,
    Read = 1,
    Seek = 2,
    Lock = 3,
    Check = 4,
    Update = 5,
    Make = 6,
    Link = 7,
    Release = 8,
    Follow = 9,
}

/// The answers. A scan's is in no count; the number of any other is the place of its count in the tally.
#[derive(Clone, Copy, Debug, PartialEq, Eq, Hash, PartialOrd, Ord)]
pub enum Answer {
    TooOld = 0,
    ReadingsFull = 1,
    Added = 2,
    TraysFull = 3,
    New = 4,
    Found = 5,
    None = 6,
    Swept = COUNTS as isize,
}

impl Answer {
    pub const ALL: [Answer; COUNTS + 1] = [
        Answer::TooOld,
        Answer::ReadingsFull,
        Answer::Added,
        Answer::TraysFull,
        Answer::New,
        Answer::Found,
        Answer::None,
        Answer::Swept,
    ];

    /// The place of its count in the tally, if it has one.
    pub fn place(self) -> Option<usize> {
        (self != Answer::Swept).then_some(self as usize)
    }

    /// Is this an answer of a put?
    pub fn of_put(self) -> bool {
        !matches!(self, Answer::Found | Answer::None | Answer::Swept)
    }
}

/// A call with its arguments, as it is started.
#[derive(Clone, Copy, Debug, PartialEq, Eq, Hash)]
pub enum Call {
    Put {
        key: u64,
        value: u32,
        timestamp: u32,
        draw: u16,
    },
    Get {
        key: u64,
    },
    /// All keys from the first to the last, both included, in order.
    Scan {
        first: u64,
        last: u64,
    },
}

impl Call {
    /// The key that it walks to; a scan's first.
    pub fn key(self) -> u64 {
        match self {
            Call::Put { key, .. } | Call::Get { key } => key,
            Call::Scan { first, .. } => first,
        }
    }

    /// A scan's last key; another call has one key, its first and its last.
    pub fn last(self) -> u64 {
        match self {
            Call::Put { key, .. } | Call::Get { key } => key,
            Call::Scan { last, .. } => last,
        }
    }

    /// What is wrong with its keys: refusal 6 reads both ends of a span, and 17 comes behind it.
    pub fn wrong_keys(self) -> Option<Refusal> {
        let (first, last) = (self.key(), self.last());
        if !lawful_key(first) || !lawful_key(last) {
            Some(Refusal::KeyOutOfRange)
        } else {
            (first > last).then_some(Refusal::BadSpan)
        }
    }

    pub fn kind(self) -> Kind {
        match self {
            Call::Put { .. } => Kind::Put,
            Call::Get { .. } => Kind::Get,
            Call::Scan { .. } => Kind::Scan,
        }
    }
}

/// One process and its call, if it has one.
#[derive(Clone, Copy, Debug, PartialEq, Eq, Hash)]
pub struct Process {
    pub kind: Kind,
    /// The key that the call walks to, and its last.
    pub key: u64,
    pub last: u64,
    pub value: u32,
    pub timestamp: u32,
    pub top: u32,
    /// Tick of the start.
    pub start: u32,
    pub phase: Phase,
    pub level: u32,
    /// The node at hand (p).
    pub pred: u32,
    /// The node that this put made; 0 before.
    pub made: u32,
    /// Answer and tick of the effect; none and 0 before it.
    pub answer: Answer,
    pub effect: u32,
    /// The node remembered at each level.
    pub preds: [u32; LEVELS],
}

impl Process {
    pub const IDLE: Process = Process {
        kind: Kind::Idle,
        key: 0,
        last: 0,
        value: 0,
        timestamp: 0,
        top: 0,
        start: 0,
        phase: Phase::Walk,
        level: 0,
        pred: 0,
        made: 0,
        answer: Answer::None,
        effect: 0,
        preds: [0; LEVELS],
    };
}

/// What the store keeps beside the tables.
#[derive(Clone, Debug, PartialEq, Eq, Hash)]
pub struct State {
    pub opened: bool,
    /// How many processes there are.
    pub processes: u32,
    pub limit: u32,
    pub events: u32,
    /// Lengths of the two tables, in words.
    pub node_words: u32,
    pub version_words: u32,
    /// Nodes made and versions held; node 0 and place 0 are not counted.
    pub nodes: u32,
    pub versions: u32,
    pub process: [Process; PROCESSES],
}

impl State {
    pub const CLOSED: State = State {
        opened: false,
        processes: 0,
        limit: 0,
        events: 0,
        node_words: 0,
        version_words: 0,
        nodes: 0,
        versions: 0,
        process: [Process::IDLE; PROCESSES],
    };

    /// K, for a state that passes refusal 10.
    pub fn max_keys(&self) -> u32 {
        (self.node_words / NODE_WORDS as u32).saturating_sub(1)
    }

    /// V, for a state that passes refusal 10.
    pub fn max_versions(&self) -> u32 {
        (self.version_words / VERSION_WORDS as u32).saturating_sub(1)
    }

    /// Refusal 10 as far as the state alone shows it.
    fn check(&self) -> Result<(), Refusal> {
        let lawful = self.opened
            && lawful_processes(self.processes)
            && lawful_limit(self.limit)
            && lawful_node_words(self.node_words as usize)
            && lawful_version_words(self.version_words as usize)
            && self.nodes <= self.max_keys()
            && self.versions <= self.max_versions()
            && self.events <= self.limit;
        require(lawful, Refusal::AlteredState)
    }
}

fn lawful_node_words(words: usize) -> bool {
    (32..=16_384).contains(&words) && words.is_multiple_of(NODE_WORDS)
}

fn lawful_version_words(words: usize) -> bool {
    (6..=12_288).contains(&words) && words.is_multiple_of(VERSION_WORDS)
}

fn lawful_processes(processes: u32) -> bool {
    (1..=PROCESSES as u32).contains(&processes)
}

fn lawful_limit(limit: u32) -> bool {
    (1..=MAX_LIMIT).contains(&limit)
}

/// The state and all that is lent with it.
#[derive(Clone, Debug, PartialEq, Eq, Hash)]
pub struct Store {
    pub state: State,
    pub node_table: Vec<u32>,
    pub version_table: Vec<u32>,
    pub tally: Vec<u32>,
}

impl Store {
    /// A closed store with zeroed tables for `keys` trays and `versions` readings and a zeroed tally.
    pub fn closed(keys: usize, versions: usize) -> Store {
        Store {
            state: State::CLOSED,
            node_table: vec![0; (keys + 1) * NODE_WORDS],
            version_table: vec![0; (versions + 1) * VERSION_WORDS],
            tally: vec![0; COUNTS],
        }
    }

    /// Opens a fresh store on the tables lent. Refusals 1, 2, 3, 4; a refused one leaves the tables and closes the state.
    pub fn open(&mut self, processes: u32, limit: u32) -> Result<(), Refusal> {
        self.state = State::CLOSED;
        let refusals = [
            (lawful_node_words(self.node_table.len()), Refusal::NodeTableLength),
            (lawful_version_words(self.version_table.len()), Refusal::VersionTableLength),
            (lawful_processes(processes), Refusal::ProcessCount),
            (lawful_limit(limit), Refusal::EventLimit),
        ];
        for (lawful, refusal) in refusals {
            require(lawful, refusal)?;
        }
        self.node_table.fill(0);
        self.node_table[TOP] = TOP_LEVEL;
        self.version_table.fill(0);
        self.state.opened = true;
        self.state.processes = processes;
        self.state.limit = limit;
        self.state.node_words = self.node_table.len() as u32;
        self.state.version_words = self.version_table.len() as u32;
        Ok(())
    }

    pub fn start_put(&mut self, process: u32, key: u64, value: u32, timestamp: u32, draw: u16) -> Result<u32, Refusal> {
        self.start(process, Call::Put { key, value, timestamp, draw })
    }

    pub fn start_get(&mut self, process: u32, key: u64) -> Result<u32, Refusal> {
        self.start(process, Call::Get { key })
    }

    pub fn start_scan(&mut self, process: u32, first: u64, last: u64) -> Result<u32, Refusal> {
        self.start(process, Call::Scan { first, last })
    }

    /// Gives a call to a process; answers its tick. Refusals 10, 5, 6, 17 (of a scan), 7, 9.
    pub fn start(&mut self, process: u32, call: Call) -> Result<u32, Refusal> {
        self.check_lent()?;
        let index = self.check_process(process)?;
        call.wrong_keys().map_or(Ok(()), Err)?;
        require(self.state.process[index].kind == Kind::Idle, Refusal::Busy)?;
        let tick = self.next_tick()?;
        let (kind, key, last) = (call.kind(), call.key(), call.last());
        let fresh = Process { kind, key, last, start: tick, level: TOP_LEVEL, ..Process::IDLE };
        self.state.process[index] = match call {
            Call::Get { .. } | Call::Scan { .. } => fresh,
            Call::Put { value, timestamp, draw, .. } => Process { value, timestamp, top: top_of(draw), ..fresh },
        };
        self.state.events = tick;
        Ok(tick)
    }

    /// Refusal 10 as the state and the tables lent show it.
    fn check_lent(&self) -> Result<(), Refusal> {
        self.state.check()?;
        let like = self.node_table.len() == self.state.node_words as usize
            && self.version_table.len() == self.state.version_words as usize;
        require(like, Refusal::AlteredState)
    }

    fn check_process(&self, process: u32) -> Result<usize, Refusal> {
        require(process < self.state.processes, Refusal::NoSuchProcess)?;
        Ok(process as usize)
    }

    /// The tick of the next event, if the limit allows one.
    fn next_tick(&self) -> Result<u32, Refusal> {
        require(self.state.events < self.state.limit, Refusal::LimitSpent)?;
        Ok(self.state.events + 1)
    }

    // Words of the tables. The callers have made sure that the node or place is in use and the level at most 5.

    pub(crate) fn node_word(&self, node: u32, word: usize) -> u32 {
        self.node_table[node as usize * NODE_WORDS + word]
    }

    pub(crate) fn set_node_word(&mut self, node: u32, word: usize, to: u32) {
        self.node_table[node as usize * NODE_WORDS + word] = to;
    }

    pub(crate) fn version_word(&self, place: u32, word: usize) -> u32 {
        self.version_table[place as usize * VERSION_WORDS + word]
    }

    /// Of all that reads a node, this alone knows that its key has two halves.
    pub(crate) fn key(&self, node: u32) -> u64 {
        key_of_halves(self.node_word(node, KEY_LOW), self.node_word(node, KEY_HIGH))
    }

    pub(crate) fn next(&self, node: u32, level: u32) -> u32 {
        self.node_word(node, NEXT + level as usize)
    }

    pub(crate) fn set_next(&mut self, node: u32, level: u32, to: u32) {
        self.set_node_word(node, NEXT + level as usize, to);
    }

    pub(crate) fn lock(&self, node: u32, level: u32) -> u32 {
        self.node_word(node, LOCK + level as usize)
    }

    pub(crate) fn set_lock(&mut self, node: u32, level: u32, to: u32) {
        self.set_node_word(node, LOCK + level as usize, to);
    }

    /// A node's newest version, if its place is in use. Refusal 11.
    fn newest_in_use(&self, node: u32) -> Result<u32, Refusal> {
        let newest = self.node_word(node, NEWEST);
        require(newest != 0 && newest <= self.state.versions, Refusal::AlteredMemory)?;
        Ok(newest)
    }

    /// Value and timestamp of the version at a place.
    pub(crate) fn version(&self, place: u32) -> (u32, u32) {
        (self.version_word(place, VALUE), self.version_word(place, TIMESTAMP))
    }
}

fn require(holds: bool, refusal: Refusal) -> Result<(), Refusal> {
    if holds {
        Ok(())
    } else {
        Err(refusal)
    }
}

/// The top level that a draw gives.
pub fn top_of(draw: u16) -> u32 {
    draw.trailing_zeros().min(TOP_LEVEL)
}
