//! Calls with arguments at the edges, and some that fit the words they are made on.

use crate::words::*;
use store_tests::damage::Operation;
use store_tests::generate::{near, EDGE_KEYS};
use store_tests::model::{Call, FIRST_KEY, LAST_KEY, MAX_LIMIT};
use store_tests::random::Random;

const PROCESSES: [u32; 12] = [0, 1, 6, 7, 8, 9, 255, 256, 1 << 16, 1 << 29, 1 << 31, u32::MAX];
const BACKS: [u32; 9] = [4, 14, 4_094, 4_095, 4_096, 65_535, 1 << 16, 1 << 31, u32::MAX];
const DRAWS: [u16; 10] = [0, 1, 2, 16, 32, 64, 128, 1 << 14, 1 << 15, u16::MAX];
const LIMITS: [u32; 7] = [0, 1, 2, MAX_LIMIT - 1, MAX_LIMIT, MAX_LIMIT + 1, u32::MAX];

/// The calls, and how often each is made where nothing else decides.
#[derive(Clone, Copy, Debug, PartialEq, Eq)]
pub enum Asked {
    Open,
    Put,
    Get,
    Scan,
    Step,
    Look,
    Inspect,
    Standing,
}

impl Asked {
    pub const ALL: [Asked; 8] =
        [Asked::Open, Asked::Put, Asked::Get, Asked::Scan, Asked::Step, Asked::Look, Asked::Inspect, Asked::Standing];
    const SHARES: [u32; 8] = [2, 3, 2, 2, 9, 4, 3, 2];

    fn any(random: &mut Random) -> Asked {
        let mut place = random.below(Asked::SHARES.iter().sum());
        for (asked, share) in Asked::ALL.into_iter().zip(Asked::SHARES) {
            if place < share {
                return asked;
            }
            place -= share;
        }
        Asked::Step
    }
}

/// Any call. `focus` is a process that it should often name.
pub fn operation(random: &mut Random, words: &Words, focus: Option<u32>) -> Operation {
    let asked = Asked::any(random);
    asking(asked, random, words, focus)
}

pub fn asking(asked: Asked, random: &mut Random, words: &Words, focus: Option<u32>) -> Operation {
    match asked {
        Asked::Open => open(random),
        Asked::Put => {
            let draw = if random.once_in(2) { random.pick(&DRAWS) } else { random.word() as u16 };
            let timestamp = random.pick(&[0, 1_002, u32::MAX]);
            let call = Call::Put { key: key(random, words), value: random.word(), timestamp, draw };
            Operation::Start { process: process(random, words, focus), call }
        }
        Asked::Get => {
            let call = Call::Get { key: key(random, words) };
            Operation::Start { process: process(random, words, focus), call }
        }
        Asked::Scan => {
            let call = span(random, words);
            Operation::Start { process: process(random, words, focus), call }
        }
        Asked::Step => Operation::Step { process: process(random, words, focus) },
        Asked::Look => Operation::Look { key: key(random, words), back: back(random) },
        Asked::Inspect => Operation::Inspect,
        Asked::Standing => Operation::Status { process: process(random, words, focus) },
    }
}

fn open(random: &mut Random) -> Operation {
    let processes = if random.once_in(3) { random.pick(&PROCESSES) } else { random.within(1, 8) };
    let limit = if random.once_in(2) { random.pick(&LIMITS) } else { random.within(1, MAX_LIMIT) };
    Operation::Open { processes, limit }
}

/// At an edge, or the one in focus, or rather one that has a call.
fn process(random: &mut Random, words: &Words, focus: Option<u32>) -> u32 {
    if random.once_in(6) {
        return random.pick(&PROCESSES);
    }
    if let (true, Some(process)) = (random.once_in(2), focus) {
        return process;
    }
    let processes = words.state_word(2).clamp(1, 8);
    let one = random.below(processes);
    let running = (0..processes).map(|more| (one + more) % processes).find(|&process| words.is_running(process));
    if random.once_in(3) {
        one
    } else {
        running.unwrap_or(one)
    }
}

/// At an edge, often out of range, or one that stands in the node table or agrees with it in one half, or any.
fn key(random: &mut Random, words: &Words) -> u64 {
    let nodes = (words.part(Part::Nodes).len() / 16) as u32;
    let last = words.state_word(NODES_MADE).min(nodes.saturating_sub(1));
    match random.below(8) {
        0 if random.once_in(3) => random.pick(&[FIRST_KEY - 1, LAST_KEY + 1]),
        0 => random.pick(&EDGE_KEYS),
        1 => random.long(),
        2 if last > 0 => {
            let key = words.node_key(random.within(1, last));
            near(random, key)
        }
        _ if last > 0 => words.node_key(random.within(1, last)),
        _ => random.below(8).into(),
    }
}

/// Two such keys, mostly the lesser one first; at times one of them is out of range.
fn span(random: &mut Random, words: &Words) -> Call {
    let (one, other) = (key(random, words), key(random, words));
    let (low, high) = (one.min(other), one.max(other));
    let outside = random.pick(&[FIRST_KEY - 1, LAST_KEY + 1]);
    let (first, last) = match random.below(16) {
        0 => (outside, other),
        1 => (one, outside),
        2..=4 => (one, other),
        _ => (low, high),
    };
    Call::Scan { first, last }
}

fn back(random: &mut Random) -> u32 {
    if random.once_in(5) {
        random.pick(&BACKS)
    } else {
        random.below(4)
    }
}
