//! Inspections of idle stores with few words of their chains altered: what a pass over a chain has to see, and what it
//! may not look at.

use super::Case;
use crate::words::*;
use std::iter::{once, successors};
use store_tests::damage::Operation;
use store_tests::generate::key_of;
use store_tests::ledger::Opening;
use store_tests::model::{Call, Step, Store, MAX_KEYS, MAX_LIMIT, MAX_VERSIONS};
use store_tests::random::Random;

/// Inspections of one store: to make it costs more than any of them.
const CASES: u32 = 60;
/// Once in so many stores one chain of the most versions, and once the most keys.
const LARGEST: u64 = 16;

pub fn chains(seed: u64) -> Vec<Case> {
    let mut random = Random::new(seed ^ 0xC4A1_2500);
    let lengths = lengths(&mut random, seed);
    let words = Words::of(store(&mut random, &lengths));
    let chains: Vec<Vec<u32>> = (0..=words.state_word(NODES_MADE)).map(|node| chain(&words, node)).collect();
    let case = |number| {
        let mut damage = Damage { random: &mut random, chains: &chains, words: words.clone() };
        damage.alter(number);
        Case { words: damage.words, operation: Operation::Inspect, wide: None }
    };
    (0..CASES).map(case).collect()
}

/// How many versions each key gets.
fn lengths(random: &mut Random, seed: u64) -> Vec<u32> {
    match seed % LARGEST {
        5 => vec![MAX_VERSIONS],
        13 => (0..MAX_KEYS).map(|_| random.within(1, 4)).collect(),
        _ => {
            let keys = random.within(1, 8);
            let long = random.within(4, 60);
            (0..keys).map(|_| random.pick(&[1, 1, 2, 2, 3, 3, long])).collect()
        }
    }
}

/// A store with chains of these lengths, made by puts in a mixed order: neighbours in a chain are seldom neighbours in
/// the table, nor are nodes in the order of their keys. Mostly some nodes and places are left.
fn store(random: &mut Random, lengths: &[u32]) -> Store {
    let (keys, versions) = (lengths.len() as u32, lengths.iter().sum::<u32>());
    let opening = Opening {
        keys: (keys + random.below(3)).min(MAX_KEYS),
        versions: (versions + random.below(4)).min(MAX_VERSIONS),
        processes: random.within(1, 8),
        limit: MAX_LIMIT,
    };
    let mut store = opening.fresh();
    let rises = random.pick(&[&[0][..], &[1], &[0, 1, 2, 40]]);
    let mut clocks: Vec<u32> = lengths.iter().map(|_| random.pick(&[0, 1_000, u32::MAX - 60])).collect();
    let mut turns: Vec<u32> = (0..keys).flat_map(|key| (0..lengths[key as usize]).map(move |_| key)).collect();
    while !turns.is_empty() {
        let key = turns.swap_remove(random.below(turns.len() as u32) as usize);
        let clock = &mut clocks[key as usize];
        *clock = clock.saturating_add(random.pick(rises));
        let call = Call::Put { key: key_of(key), value: random.word(), timestamp: *clock, draw: random.word() as u16 };
        store.start(0, call).expect("an idle process");
        while !matches!(store.step(0).expect("a lawful step"), Step::Done(_)) {}
    }
    store
}

/// The places of a node's chain, newest first; none for node 0.
fn chain(words: &Words, node: u32) -> Vec<u32> {
    let some = |place: u32| Some(place).filter(|&place| place != 0);
    successors(some(words.node_word(node, NEWEST)), |&place| some(words.version_word(place, PREV))).collect()
}

struct Damage<'a> {
    random: &'a mut Random,
    /// The places of each node's chain as they were made.
    chains: &'a [Vec<u32>],
    words: Words,
}

impl Damage<'_> {
    /// In turn nothing in use, chains that differ and are in order, wrong places, wrong timestamps, both, and a chain
    /// that no link reaches; often with words where nothing is in use, at times with a lock left.
    fn alter(&mut self, turn: u32) {
        let turn = turn % 10;
        match turn {
            0 => {}
            1 => self.few(Self::equal_timestamps),
            2 => self.few(Self::rejoin),
            3 | 4 => self.few(Self::wrong_place),
            5 | 6 => self.few(Self::wrong_timestamp),
            7 => self.both_in_one_chain(),
            8 => {
                self.few(Self::wrong_place);
                self.few(Self::wrong_timestamp);
            }
            _ => self.unlink(),
        }
        if self.random.once_in(2) {
            self.fill_unused();
        }
        if turn != 0 && self.random.once_in(8) {
            self.leave_lock();
        }
    }

    /// One to three times, and once more where one took another back.
    fn few(&mut self, alter: fn(&mut Self)) {
        let before = self.words.clone();
        (0..self.random.pick(&[1, 1, 2, 3])).for_each(|_| alter(self));
        if self.words == before {
            alter(self);
        }
    }

    /// A node whose chain has so many versions, if there is one, and its chain.
    fn node(&mut self, least: usize) -> Option<(u32, Vec<u32>)> {
        let long = |&node: &usize| self.chains[node].len() >= least;
        let nodes: Vec<usize> = (1..self.chains.len()).filter(long).collect();
        let node = *nodes.get(self.random.below(nodes.len().max(1) as u32) as usize)?;
        Some((node as u32, self.chains[node].clone()))
    }

    /// One of so many things in a row: as often the first or the last as any.
    fn spot(&mut self, count: usize) -> usize {
        let any = self.random.below(count as u32) as usize;
        self.random.pick(&[0, any, count - 1])
    }

    fn held(&self) -> u32 {
        self.words.state_word(VERSIONS_HELD)
    }

    fn timestamp(&self, place: u32) -> u32 {
        self.words.version_word(place, TIMESTAMP)
    }

    /// Timestamps made equal, a pair that is not yet or the whole chain at another number: in order.
    fn equal_timestamps(&mut self) {
        let Some((_, chain)) = self.node(1) else { return };
        let falls = |&at: &usize| self.timestamp(chain[at]) < self.timestamp(chain[at - 1]);
        let unequal: Vec<usize> = (1..chain.len()).filter(falls).collect();
        if !unequal.is_empty() && self.random.once_in(2) {
            let at = unequal[self.spot(unequal.len())];
            return self.words.set_version_word(chain[at], TIMESTAMP, self.timestamp(chain[at - 1]));
        }
        let to = self.timestamp(chain[0]).wrapping_add(self.random.pick(&[1, 1_000]));
        chain.iter().for_each(|&place| self.words.set_version_word(place, TIMESTAMP, to));
    }

    /// A chain that goes on at another place, shorter or into another one: in order. A single version has no other
    /// place to go on at.
    fn rejoin(&mut self) {
        let held = self.held();
        if held == 1 {
            return self.equal_timestamps();
        }
        let Some((node, chain)) = self.node(1) else { return };
        let place = chain[self.spot(chain.len())];
        let older = self.random.below(place);
        let prev = if self.timestamp(older) <= self.timestamp(place) { older } else { 0 };
        if prev != self.words.version_word(place, PREV) && self.random.once_in(2) {
            return self.words.set_version_word(place, PREV, prev);
        }
        let newest = self.words.node_word(node, NEWEST) + self.random.below(held - 1);
        self.words.set_node_word(node, NEWEST, newest % held + 1);
    }

    fn wrong_place(&mut self) {
        let Some((node, chain)) = self.node(1) else { return };
        let (held, room) = (self.held(), self.words.room());
        if self.random.once_in(3) {
            let place = self.random.pick(&[0, held + 1, room, u32::MAX]);
            return self.words.set_node_word(node, NEWEST, place);
        }
        let place = chain[self.spot(chain.len())];
        self.wrong_prev(place);
    }

    fn wrong_prev(&mut self, place: u32) {
        let (held, room) = (self.held(), self.words.room());
        let to = match self.random.below(5) {
            0 => place,
            1 => self.random.within((place + 1).min(held), held),
            2 => self.random.within(held + 1, room),
            // The last but one comes back to the table's first words where 32 bits count them.
            _ => self.random.pick(&[room, 1 << 31, u32::MAX / 3 + 1, u32::MAX]),
        };
        self.words.set_version_word(place, PREV, to);
    }

    fn wrong_timestamp(&mut self) {
        let Some((_, chain)) = self.node(2) else { return self.wrong_place() };
        let pair = self.spot(chain.len() - 1);
        self.turn_pair(chain[pair], chain[pair + 1]);
    }

    /// Makes the older timestamp greater or the newer one less; the pairs beside this one stay in order.
    fn turn_pair(&mut self, newer: u32, older: u32) {
        let (high, low) = (self.timestamp(newer), self.timestamp(older));
        let more = 2 + self.random.below(1_000);
        if low == 0 || (high < u32::MAX && self.random.once_in(2)) {
            let to = self.random.pick(&[high.saturating_add(1), high.saturating_add(more), u32::MAX]);
            self.words.set_version_word(older, TIMESTAMP, to);
        } else {
            let to = self.random.pick(&[low - 1, low.saturating_sub(more), 0]);
            self.words.set_version_word(newer, TIMESTAMP, to);
        }
    }

    /// A wrong timestamp, and behind it a wrong place: both lie on the way.
    fn both_in_one_chain(&mut self) {
        let Some((_, chain)) = self.node(2) else { return self.wrong_place() };
        let at = self.spot(chain.len() - 1) + 1;
        let pair = self.spot(at);
        self.turn_pair(chain[pair], chain[pair + 1]);
        self.wrong_prev(chain[at]);
    }

    /// Takes a node out of level 0, with a chain that is wrong.
    fn unlink(&mut self) {
        let least = self.random.pick(&[1, 2, 2]);
        let Some((node, chain)) = self.node(least).or_else(|| self.node(1)) else { return };
        let before = (0..self.chains.len() as u32).find(|&before| self.words.next(before, 0) == node);
        let behind = self.words.next(node, 0);
        self.words.set_node_word(before.expect("every node is linked"), NEXT, behind);
        match chain[..] {
            [newest, older, ..] if least == 2 => self.turn_pair(newest, older),
            _ => self.wrong_prev(chain[0]),
        }
    }

    /// Words at place 0 and at the places not in use: a chain that led there could look in order.
    fn fill_unused(&mut self) {
        let held = self.held();
        for place in once(0).chain(held + 1..self.words.room()) {
            let timestamp = self.random.pick(&[0, 1_000, u32::MAX]);
            let version = [self.random.word(), timestamp, self.random.below(held + 2)];
            version.iter().enumerate().for_each(|(word, &to)| self.words.set_version_word(place, word, to));
        }
    }

    fn leave_lock(&mut self) {
        let node = self.random.below(self.chains.len() as u32);
        let level = self.spot(6);
        let holder = self.random.within(1, 8);
        self.words.set_node_word(node, LOCK + level, holder);
    }
}
