//! The plain map: one call is one lookup, nothing is cut into steps and nothing is tested.

use crate::drive::{Contestant, Run, Workload};
use crate::plan::{Call, Kind, Plan};
use std::collections::BTreeMap;

const TOO_OLD: u32 = 0;
const VERSIONS_FULL: u32 = 1;
const ADDED: u32 = 2;
const KEYS_FULL: u32 = 3;
const NEW: u32 = 4;
const FOUND: u32 = 5;
const NONE: u32 = 6;
const SWEPT: u32 = 7;

pub struct Map {
    lists: BTreeMap<u64, Vec<(u32, u32)>>,
    held: u32,
    keys: u32,
    versions: u32,
}

impl Contestant for Map {
    fn prepare(&mut self, workload: Workload) {
        if workload == Workload::Fill {
            *self = Map::new(self.keys, self.versions);
        }
    }

    fn run(&mut self, plan: &Plan, workload: Workload) -> Option<Run> {
        match workload {
            Workload::Fill => Some(self.play(&plan.fill)),
            Workload::Get => Some(self.play(&plan.gets)),
            Workload::Put => Some(self.play(&plan.puts)),
            Workload::Sweep => Some(self.play(&plan.scans)),
            Workload::SpanGet => Some(self.play(&plan.span_gets)),
            _ => None,
        }
    }
}

impl Map {
    pub fn new(keys: u32, versions: u32) -> Map {
        Map { lists: BTreeMap::new(), held: 0, keys, versions }
    }

    fn play(&mut self, calls: &[Call]) -> Run {
        let mut run = Run::default();
        for (index, call) in calls.iter().enumerate() {
            let (answer, value, timestamp) = match call.kind {
                Kind::Get => self.get(call.key),
                Kind::Put { value, timestamp, .. } => (self.put(call.key, value, timestamp), value, timestamp),
                Kind::Scan { last } => {
                    for (&key, list) in self.lists.range(call.key..=last) {
                        let &(value, timestamp) = list.last().expect("a key has a version");
                        run.shows(index, key, value, timestamp);
                    }
                    (SWEPT, 0, 0)
                }
            };
            run.answered(index, answer, value, timestamp);
        }
        run
    }

    fn get(&self, key: u64) -> (u32, u32, u32) {
        match self.lists.get(&key).and_then(|list| list.last()) {
            Some(&(value, timestamp)) => (FOUND, value, timestamp),
            None => (NONE, 0, 0),
        }
    }

    fn put(&mut self, key: u64, value: u32, timestamp: u32) -> u32 {
        let full = self.held == self.versions;
        let Some(list) = self.lists.get_mut(&key) else { return self.put_new(key, value, timestamp) };
        if list.last().is_some_and(|newest| timestamp < newest.1) {
            return TOO_OLD;
        }
        if full {
            return VERSIONS_FULL;
        }
        list.push((value, timestamp));
        self.held += 1;
        ADDED
    }

    fn put_new(&mut self, key: u64, value: u32, timestamp: u32) -> u32 {
        if self.lists.len() == self.keys as usize {
            return KEYS_FULL;
        }
        if self.held == self.versions {
            return VERSIONS_FULL;
        }
        self.lists.insert(key, vec![(value, timestamp)]);
        self.held += 1;
        NEW
    }
}
