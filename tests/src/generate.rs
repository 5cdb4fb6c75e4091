//! Random sheets and random histories. Everything follows from the seed: a failure repeats from its number.

mod plans;
mod writer;

pub use plans::{long_sheet, plan, sheet, Plan, ROUND, SHARES};

use crate::ledger::{History, Opening};
use crate::machine::{Machine, Recorder};
use crate::model::*;
use crate::random::Random;

const LAST_OF_32: u64 = u32::MAX as u64;

/// The keys at both ends of 64 and of 32 bits, lawful and not.
pub const EDGE_KEYS: [u64; 11] = [
    FIRST_KEY - 1,
    FIRST_KEY,
    FIRST_KEY + 1,
    LAST_OF_32 - 2,
    LAST_OF_32 - 1,
    LAST_OF_32,
    LAST_OF_32 + 1,
    LAST_OF_32 + 2,
    LAST_KEY - 1,
    LAST_KEY,
    LAST_KEY + 1,
];

/// Few keys are wanted often, so the first ones are outer ones; of the last three each agrees in one half with another.
const FIRST_KEYS: [u64; 5] = [FIRST_KEY, LAST_KEY, LAST_OF_32, LAST_OF_32 + 1, LAST_OF_32 + 2];

/// A key for each number, another for each: the first ones, then fours spread over the whole range. In a four each key
/// agrees in one half with the next, and the high half of its first is 0.
pub fn key_of(number: u32) -> u64 {
    if let Some(&key) = FIRST_KEYS.get(number as usize) {
        return key;
    }
    let spread = u64::from(number / 4).wrapping_mul(0x9E37_79B9_7F4A_7C15);
    let (low, high) = (low_half(spread), high_half(spread));
    match number % 4 {
        0 => key_of_halves(low, 0),
        1 => spread,
        2 => key_of_halves(!low, high),
        _ => key_of_halves(!low, !high),
    }
}

/// A key that agrees with this one in one half at least.
pub fn near(random: &mut Random, key: u64) -> u64 {
    let (low, high) = (low_half(key), high_half(key));
    match random.below(5) {
        0 => key_of_halves(low, 0),
        1 => key_of_halves(low, high.wrapping_add(1)),
        2 => key_of_halves(low, random.word()),
        3 => key_of_halves(low.wrapping_sub(1), high),
        _ => key_of_halves(random.word(), high),
    }
}

/// A random call of any kind.
pub fn any_call(random: &mut Random, keys: u32) -> Call {
    if random.once_in(5) {
        scan(random, keys)
    } else {
        call(random, keys)
    }
}

/// A random scan: of one of `keys` keys, from one of them or a little above it to another, or of all.
fn scan(random: &mut Random, keys: u32) -> Call {
    let (one, other) = (key_of(random.below(keys)), key_of(random.below(keys)));
    let (first, last) = (one.min(other), one.max(other));
    match random.below(6) {
        0 => Call::Scan { first: one, last: one },
        1 => Call::Scan { first: FIRST_KEY, last: LAST_KEY },
        2 if first < last => Call::Scan { first: first + 1, last },
        _ => Call::Scan { first, last },
    }
}

/// A call that its keys refuse: one out of range, at either end of a span, or a first above the last.
pub fn unlawful_call(random: &mut Random) -> Call {
    let (key, other) = (random.pick(&[FIRST_KEY - 1, LAST_KEY + 1]), random.pick(&EDGE_KEYS));
    match random.below(5) {
        0 => Call::Scan { first: key, last: other },
        1 => Call::Scan { first: other, last: key },
        2 => Call::Scan { first: random.pick(&FIRST_KEYS[1..]), last: FIRST_KEY },
        _ => Call::Get { key },
    }
}

/// A random put or get, as a sheet can start it, on one of `keys` keys; timestamps lie near each other so that equal and
/// older ones are common.
pub fn call(random: &mut Random, keys: u32) -> Call {
    let key = key_of(random.below(keys));
    if random.once_in(4) {
        return Call::Get { key };
    }
    let timestamp = match random.below(20) {
        0 => 0,
        1 => u32::MAX,
        _ => 1_000 + random.below(6),
    };
    Call::Put { key, value: random.word(), timestamp, draw: draw(random) }
}

/// Draws that give each top level often.
fn draw(random: &mut Random) -> u16 {
    match random.below(4) {
        0 => random.word() as u16,
        1 => 0,
        _ => (random.word() as u16 | 1).checked_shl(random.below(7)).unwrap_or(1),
    }
}

/// A random lawful opening, mostly small.
pub fn opening(random: &mut Random) -> Opening {
    let large = random.once_in(10);
    Opening {
        keys: if large { random.within(20, 100) } else { random.within(1, 6) },
        versions: if large { random.within(20, 300) } else { random.within(1, 14) },
        processes: random.within(1, PROCESSES as u32),
        limit: if random.once_in(4) { random.within(1, 300) } else { MAX_LIMIT },
    }
}

/// A random history of a machine: starts, steps, looks, some refused. `build` makes the machine of a fresh store.
pub fn history<M: Machine>(seed: u64, build: impl FnOnce(Store) -> M) -> History {
    recording(seed, build).history()
}

/// The same with the machine that it leaves.
pub fn recording<M: Machine>(seed: u64, build: impl FnOnce(Store) -> M) -> Recorder<M> {
    recorded(seed, 1_500, build)
}

/// The store that a short random history leaves; some processes are in the middle of a call.
pub fn live_store(seed: u64) -> Store {
    recorded(seed, 250, |store| store).machine
}

fn recorded<M: Machine>(seed: u64, most: u32, build: impl FnOnce(Store) -> M) -> Recorder<M> {
    let mut random = Random::new(seed);
    let opening = opening(&mut random);
    let mut recorder = Recorder::new(build(opening.fresh()), opening);
    let entries = random.within(20, most);
    let pool = opening.keys + random.within(1, 2);
    let mut favourite = 0;
    for _ in 0..entries {
        if random.once_in(5) {
            favourite = random.below(opening.processes);
        }
        let process = if random.once_in(3) { random.below(opening.processes) } else { favourite };
        let passed_over = lingers(recorder.machine.store(), process) && !random.once_in(8);
        let process = if passed_over { random.below(opening.processes) } else { process };
        entry(&mut random, &mut recorder, process, pool);
    }
    if random.once_in(2) {
        finish_all(&mut recorder, opening.processes);
    }
    recorder
}

/// Is this a scan at the end of its walk? It is often left there, so that keys are made between p and its first.
fn lingers(store: &Store, process: u32) -> bool {
    let Process { phase, pred, preds, .. } = store.state.process[process as usize];
    phase == Phase::Follow && pred == preds[0]
}

/// One entry: a look, a strange call, or the next move of the process.
fn entry<M: Machine>(random: &mut Random, recorder: &mut Recorder<M>, process: u32, pool: u32) {
    match random.below(40) {
        0..=2 => drop(recorder.look(call(random, pool).key(), random.below(4))),
        3 => drop(recorder.look(stranger(random, pool), 0)),
        4 => drop(recorder.step(random.below(10))),
        5 => drop(recorder.start(random.below(10), any_call(random, pool))),
        6 => drop(recorder.start(process, unlawful_call(random))),
        _ if recorder.is_running(process) => drop(recorder.step(process)),
        _ => drop(recorder.start(process, any_call(random, pool))),
    }
}

/// A key that is not lawful, or one that the calls name seldom if ever.
fn stranger(random: &mut Random, pool: u32) -> u64 {
    if random.once_in(2) {
        return random.pick(&EDGE_KEYS);
    }
    let key = call(random, pool).key();
    near(random, key)
}

/// Steps round and round until no process has a call, or nothing moves any more.
fn finish_all<M: Machine>(recorder: &mut Recorder<M>, processes: u32) {
    for _ in 0..2_000 {
        let running: Vec<u32> = (0..processes).filter(|&process| recorder.is_running(process)).collect();
        if running.is_empty() {
            return;
        }
        for process in running {
            if recorder.step(process).is_err() {
                return;
            }
        }
    }
}
