//! The words that a store's calls are lent, and where the numbers of a state stand in them.

use store_tests::model::{key_of_halves, Kind, Phase, State, Store, LEVELS, STATE_WORDS};

/// Word 0 of every state.
pub const LAYOUT: u32 = 3;
/// Words of a state: the layout's number, then those of the model.
pub const STATE: usize = 1 + STATE_WORDS;
/// Words before the first process.
pub const HEAD: usize = 9;
// Two of them: the counts of trays made and of readings held.
pub const NODES_MADE: usize = 7;
pub const VERSIONS_HELD: usize = 8;
pub const PROCESS: usize = 15 + LEVELS;
// Words of a process that are numbers of an enum, each with its greatest number.
pub const KIND: usize = 0;
pub const PHASE: usize = 9;
pub const ANSWER: usize = 13;
pub const NUMBERS: [(usize, u32); 3] = [(KIND, GREATEST_KIND), (PHASE, 9), (ANSWER, 7)];
pub const GREATEST_KIND: u32 = 3;
// Other words of a process.
pub const LEVEL: usize = 10;
pub const PRED: usize = 11;
pub const EFFECT: usize = 14;
const PRED_OF_LEVEL_0: usize = 15;
// The halves of a key, low and high, in a process (its call's own and a scan's last) and in a node; a node's links and
// locks, each from level 0 on, the place of its newest version, and its top level.
pub const KEY_OF_PROCESS: [usize; 2] = [1, 2];
pub const LAST_OF_PROCESS: [usize; 2] = [3, 4];
pub const KEY_OF_NODE: [usize; 2] = [0, 3];
pub const NEXT: usize = 4;
pub const LOCK: usize = 10;
pub const NEWEST: usize = 1;
pub const TOP: usize = 2;
// Words of a version.
pub const TIMESTAMP: usize = 1;
pub const PREV: usize = 2;

#[derive(Clone, Copy, Debug, PartialEq, Eq)]
pub enum Part {
    State,
    Nodes,
    Versions,
    Tally,
}

impl Part {
    pub const ALL: [Part; 4] = [Part::State, Part::Nodes, Part::Versions, Part::Tally];

    pub fn name(self) -> &'static str {
        ["state", "node table", "reading table", "tally"][self as usize]
    }
}

/// All that is lent but the answer's words: state, node table, reading table, tally.
#[derive(Clone, Debug, PartialEq, Eq)]
pub struct Words(pub [Vec<u32>; 4]);

impl Words {
    pub fn of(store: Store) -> Words {
        Words([state_words(&store.state), store.node_table, store.version_table, store.tally])
    }

    pub fn part(&self, part: Part) -> &[u32] {
        &self.0[part as usize]
    }

    pub fn part_mut(&mut self, part: Part) -> &mut Vec<u32> {
        &mut self.0[part as usize]
    }

    pub fn state(&self) -> &[u32] {
        self.part(Part::State)
    }

    /// A word of the state, 0 where the state is too short.
    pub fn state_word(&self, index: usize) -> u32 {
        self.state().get(index).copied().unwrap_or(0)
    }

    /// A word of a process, 0 where there is none.
    pub fn process_word(&self, process: u32, word: usize) -> u32 {
        self.state_word((process as usize).saturating_mul(PROCESS).saturating_add(HEAD + word))
    }

    /// A key of a process, by the words of its halves; 0 where there is none.
    pub fn process_key(&self, process: u32, halves: [usize; 2]) -> u64 {
        let [low, high] = halves.map(|word| self.process_word(process, word));
        key_of_halves(low, high)
    }

    /// A word of a node, 0 where the table has no such node.
    pub fn node_word(&self, node: u32, word: usize) -> u32 {
        self.part(Part::Nodes).get(node as usize * 16 + word).copied().unwrap_or(0)
    }

    /// The key of a node, 0 where the table has no such node.
    pub fn node_key(&self, node: u32) -> u64 {
        let [low, high] = KEY_OF_NODE.map(|word| self.node_word(node, word));
        key_of_halves(low, high)
    }

    /// A node's link at a level up to 5, 0 where there is none.
    pub fn next(&self, node: u32, level: u32) -> u32 {
        self.node_word(node, NEXT + level.min(5) as usize)
    }

    /// Sets a word of a node, if the table has such a node.
    pub fn set_node_word(&mut self, node: u32, word: usize, to: u32) {
        if let Some(word) = self.part_mut(Part::Nodes).get_mut(node as usize * 16 + word) {
            *word = to;
        }
    }

    /// The first place behind the reading table.
    pub fn room(&self) -> u32 {
        self.part(Part::Versions).len() as u32 / 3
    }

    /// A word of the version at a place, 0 where the table has no such place.
    pub fn version_word(&self, place: u32, word: usize) -> u32 {
        self.part(Part::Versions).get(place as usize * 3 + word).copied().unwrap_or(0)
    }

    /// Sets a word of the version at a place, if the table has such a place.
    pub fn set_version_word(&mut self, place: u32, word: usize, to: u32) {
        if let Some(word) = self.part_mut(Part::Versions).get_mut(place as usize * 3 + word) {
            *word = to;
        }
    }

    pub fn is_running(&self, process: u32) -> bool {
        self.process_word(process, KIND) != 0
    }

    /// Is this a scan that follows?
    pub fn follows(&self, process: u32) -> bool {
        let [kind, phase] = [KIND, PHASE].map(|word| self.process_word(process, word));
        kind == Kind::Scan as u32 && phase == Phase::Follow as u32
    }

    /// Is this a scan at the end of its walk? It is often left there, so that keys are made between p and its first.
    pub fn lingers(&self, process: u32) -> bool {
        self.follows(process) && self.process_word(process, PRED) == self.process_word(process, PRED_OF_LEVEL_0)
    }
}

pub fn state_words(state: &State) -> Vec<u32> {
    [vec![LAYOUT], state.to_words()].concat()
}

/// The words of a process in a state.
pub fn words_of(process: usize) -> std::ops::Range<usize> {
    HEAD + process * PROCESS..HEAD + (process + 1) * PROCESS
}
