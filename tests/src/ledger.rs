//! The plain ledger of document 01: the sequential map that the store must be equal to, and the checkers of demand 3.

mod demand3;
mod watch;

pub use demand3::{check, Aspect, Ending, Entry, History, Objection, Opening};
pub use watch::Watch;

use crate::model::{lawful_key, Answer, Call, Refusal};
use std::collections::{BTreeMap, VecDeque};

/// What the ledger answers to a call.
#[derive(Clone, Copy, Debug, PartialEq, Eq, Hash)]
pub struct Outcome {
    pub answer: Answer,
    pub value: u32,
    pub timestamp: u32,
}

/// For each key its versions (value, timestamp), newest first; and the limits K and V.
#[derive(Clone, Debug, PartialEq, Eq, Hash)]
pub struct Map {
    max_keys: u32,
    max_versions: u32,
    lists: BTreeMap<u64, VecDeque<(u32, u32)>>,
    versions: u32,
}

impl Map {
    pub fn new(max_keys: u32, max_versions: u32) -> Map {
        Map { max_keys, max_versions, lists: BTreeMap::new(), versions: 0 }
    }

    /// Count of keys that have a list.
    pub fn keys(&self) -> u32 {
        self.lists.len() as u32
    }

    /// Count of versions held in all lists.
    pub fn versions(&self) -> u32 {
        self.versions
    }

    pub fn put(&mut self, key: u64, value: u32, timestamp: u32) -> Answer {
        let keys_full = self.keys() >= self.max_keys;
        let versions_full = self.versions >= self.max_versions;
        let answer = match self.lists.get(&key).map(|list| list[0].1) {
            Some(newest) if timestamp < newest => return Answer::TooOld,
            Some(_) if versions_full => return Answer::ReadingsFull,
            Some(_) => Answer::Added,
            None if keys_full => return Answer::TraysFull,
            None if versions_full => return Answer::ReadingsFull,
            None => Answer::New,
        };
        self.lists.entry(key).or_default().push_front((value, timestamp));
        self.versions += 1;
        answer
    }

    pub fn get(&self, key: u64) -> Option<(u32, u32)> {
        self.lists.get(&key).map(|list| list[0])
    }

    /// The keys from a first to a last that have a list, rising.
    pub fn held(&self, first: u64, last: u64) -> Vec<u64> {
        self.lists.keys().copied().filter(|key| (first..=last).contains(key)).collect()
    }

    /// Feeds a call. A put's outcome carries its own value and timestamp, none carries 0 and 0. A scan takes no effect:
    /// the ledger has no outcome for it.
    pub fn apply(&mut self, call: Call) -> Option<Outcome> {
        Some(match call {
            Call::Put { key, value, timestamp, .. } => {
                Outcome { answer: self.put(key, value, timestamp), value, timestamp }
            }
            Call::Get { key } => match self.get(key) {
                Some((value, timestamp)) => Outcome { answer: Answer::Found, value, timestamp },
                None => Outcome { answer: Answer::None, value: 0, timestamp: 0 },
            },
            Call::Scan { .. } => return None,
        })
    }

    /// What a look must answer.
    pub fn look(&self, key: u64, back: u32) -> Result<(u32, u32), Refusal> {
        if !lawful_key(key) {
            return Err(Refusal::KeyOutOfRange);
        }
        let list = self.lists.get(&key).ok_or(Refusal::NoSuchKey)?;
        list.get(back as usize).copied().ok_or(Refusal::FewerVersions)
    }
}
