//! The part of demand 3 that is about scans (document 02: sweeps).

use super::{Aspect, Checker, Record, Sight};
use crate::ledger::Map;
use crate::model::{Answer, Call, Done};

/// A key and its version, as a step showed them.
#[derive(Clone, Copy, Debug, PartialEq, Eq)]
pub struct Shown {
    pub key: u64,
    pub value: u32,
    pub timestamp: u32,
}

/// What an objection is about, and what it says.
type Fault = (Aspect, String);

impl Checker<'_> {
    /// A step of this call showed something: it is compared with the ledger of its tick.
    pub fn shows(&mut self, call: usize, shown: Shown) {
        self.sees(Sight::Shown { call, place: self.records[call].shown.len() });
        self.records[call].shown.push(shown);
    }

    /// What the ledger holds of a scan's span at its start.
    pub fn scan_start(&mut self, map: &Map, call: usize) {
        let Call::Scan { first, last } = self.records[call].call else { return };
        self.records[call].held = map.held(first, last);
    }

    /// Each version shown is its key's newest in the ledger at its tick.
    pub fn newest(&mut self, map: &Map, call: usize, place: usize) {
        let shown = self.records[call].shown[place];
        let due = map.get(shown.key);
        if due != Some((shown.value, shown.timestamp)) {
            let record = &self.records[call];
            let text = format!("{:?} of process {}: {shown:?}, ledger {due:?}", record.call, record.process);
            self.object(Aspect::Shown, text);
        }
    }

    pub fn scans(&mut self) {
        for index in 0..self.records.len() {
            let record = &self.records[index];
            let call = format!("{:?} of process {}", record.call, record.process);
            for (aspect, text) in faults(record) {
                self.object(aspect, format!("{call}: {text}"));
            }
        }
    }
}

/// What is wrong with the keys that a call showed, and with the end of a scan.
fn faults(record: &Record) -> Vec<Fault> {
    let Call::Scan { first, last } = record.call else {
        let shown = record.shown.iter();
        return shown.map(|shown| (Aspect::Shown, format!("no scan, and {shown:?}"))).collect();
    };
    let keys: Vec<u64> = record.shown.iter().map(|shown| shown.key).collect();
    let outside = keys.iter().filter(|key| !(first..=last).contains(key));
    let outside = outside.map(|key| (Aspect::Span, format!("{key} is shown")));
    let falls = keys.windows(2).filter(|pair| pair[0] >= pair[1]);
    let falls = falls.map(|pair| (Aspect::Rise, format!("{} is shown behind {}", pair[1], pair[0])));
    let end = record.done.iter().flat_map(|done| faults_of_end(done, &record.held, &keys));
    outside.chain(falls).chain(end).collect()
}

/// A finished scan says swept, 0 and 0, and has shown each key held at its start exactly once, any other at most once.
fn faults_of_end(done: &Done, held: &[u64], shown: &[u64]) -> Vec<Fault> {
    let times = |key: &u64| shown.iter().filter(|&shown| shown == key).count();
    let missed = held.iter().filter(|key| times(key) != 1);
    let again = shown.iter().filter(|key| !held.contains(key) && times(key) > 1);
    let counted = missed.chain(again).map(|key| (Aspect::Once, format!("{key} is shown {} times", times(key))));
    let swept = (done.answer, done.value, done.timestamp) == (Answer::Swept, 0, 0);
    let answer = (!swept).then(|| (Aspect::Answer, format!("it ended as {done:?}")));
    counted.chain(answer).collect()
}
