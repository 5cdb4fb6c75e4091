//! The inspection of chains, answers worked by hand from document 01: request P2 may change how they are followed, not these.

use store_tests::model::*;

const TIMESTAMP: usize = 1;
const PREV: usize = 2;
const SOUND: Verdict = Verdict::Sound;
/// The fault of a chain names level 0 and the node.
const FAULT_1: Verdict = Verdict::Fault { level: 0, node: 1 };
const FAULT_2: Verdict = Verdict::Fault { level: 0, node: 2 };
const FAULT_3: Verdict = Verdict::Fault { level: 0, node: 3 };

type Change = fn(&mut Store);

/// Trays 9, 4, 6 are nodes 1, 2, 3; along level 0 come nodes 2, 3, 1. Six of eight readings are held:
///
/// | node | places, newest first | timestamps |
/// |---|---|---|
/// | 1 | 6, 5, 3, 1 | 40, 30, 20, 10 |
/// | 2 | 2 | 50 |
/// | 3 | 4 | 60 |
fn store() -> Store {
    let mut store = Store::closed(4, 8);
    store.open(1, 1_000).unwrap();
    for (key, timestamp) in [(9, 10), (4, 50), (9, 20), (6, 60), (9, 30), (9, 40)] {
        store.start_put(0, key, 7, timestamp, 1).unwrap();
        while !matches!(store.step(0).unwrap(), Step::Done(_)) {}
    }
    store
}

fn set(store: &mut Store, place: usize, word: usize, to: u32) {
    store.version_table[3 * place + word] = to;
}

fn set_newest(store: &mut Store, node: usize, to: u32) {
    store.node_table[16 * node + 1] = to;
}

fn set_next(store: &mut Store, node: usize, level: usize, to: u32) {
    store.node_table[16 * node + 4 + level] = to;
}

fn set_lock(store: &mut Store, node: usize, level: usize, to: u32) {
    store.node_table[16 * node + 10 + level] = to;
}

fn inspected(changes: &[(&str, Verdict, Change)]) {
    for (name, due, change) in changes {
        let mut store = store();
        assert_eq!(store.inspect(), Ok(SOUND));
        change(&mut store);
        assert_eq!(store.inspect(), Ok(*due), "{name}");
    }
}

#[test]
fn places() {
    inspected(&[
        ("newest 0", FAULT_1, |s| set_newest(s, 1, 0)),
        ("newest not in use", FAULT_1, |s| set_newest(s, 1, 7)),
        ("newest beyond the table", FAULT_2, |s| set_newest(s, 2, 9)),
        ("newest another in use", SOUND, |s| set_newest(s, 1, 3)),
        ("newest of another chain", SOUND, |s| set_newest(s, 2, 5)),
        ("its own, at the newest", FAULT_1, |s| set(s, 6, PREV, 6)),
        ("its own, in the middle", FAULT_1, |s| set(s, 3, PREV, 3)),
        ("its own, at the oldest", FAULT_1, |s| set(s, 1, PREV, 1)),
        ("its own, of a single reading", FAULT_3, |s| set(s, 4, PREV, 4)),
        ("greater, in use", FAULT_1, |s| set(s, 3, PREV, 4)),
        ("greater, of the chain itself", FAULT_1, |s| set(s, 3, PREV, 6)),
        ("not in use", FAULT_1, |s| set(s, 1, PREV, 7)),
        ("beyond the table", FAULT_1, |s| set(s, 5, PREV, u32::MAX)),
        ("none, in the middle", SOUND, |s| set(s, 5, PREV, 0)),
        ("one left out", SOUND, |s| set(s, 6, PREV, 3)),
    ]);
}

#[test]
fn timestamps() {
    inspected(&[
        ("greater by one, first pair", FAULT_1, |s| set(s, 5, TIMESTAMP, 41)),
        ("greater by one, in the middle, not above the newest", FAULT_1, |s| set(s, 3, TIMESTAMP, 31)),
        ("greater by one, last pair", FAULT_1, |s| set(s, 1, TIMESTAMP, 21)),
        ("the newest is less", FAULT_1, |s| set(s, 6, TIMESTAMP, 0)),
        ("one in the middle is less", FAULT_1, |s| set(s, 5, TIMESTAMP, 19)),
        ("the oldest is greatest", FAULT_1, |s| set(s, 1, TIMESTAMP, u32::MAX)),
        ("equal pairs", SOUND, |s| {
            set(s, 5, TIMESTAMP, 40);
            set(s, 1, TIMESTAMP, 20);
        }),
        ("all equal", SOUND, |s| [6, 5, 3, 1].iter().for_each(|&place| set(s, place, TIMESTAMP, 9))),
        ("any, of a single reading", SOUND, |s| set(s, 2, TIMESTAMP, u32::MAX)),
    ]);
}

/// A chain may lead into another: what counts is its own order.
#[test]
fn shared_readings() {
    inspected(&[
        ("less on the way", SOUND, |s| set(s, 4, PREV, 3)),
        ("greater on the way", FAULT_1, |s| set(s, 5, PREV, 4)),
        ("a fault that two chains share is the first one's", FAULT_3, |s| {
            set(s, 4, PREV, 3);
            set(s, 1, TIMESTAMP, 21);
        }),
    ]);
}

#[test]
fn the_first_of_several_is_reported() {
    inspected(&[
        ("both in one chain", FAULT_1, |s| {
            set(s, 5, TIMESTAMP, 99);
            set(s, 1, PREV, 1);
        }),
        ("stamps, then places behind them", FAULT_3, |s| {
            set(s, 4, PREV, 2);
            set(s, 4, TIMESTAMP, 49);
            set_newest(s, 1, 0);
        }),
        ("places, then stamps behind them", FAULT_2, |s| {
            set_newest(s, 2, 0);
            set(s, 1, TIMESTAMP, 99);
        }),
        ("a chain, then a lock of a higher level", FAULT_1, |s| {
            set_newest(s, 1, 0);
            set_lock(s, 0, 5, 1);
        }),
        ("a lock, then a chain", FAULT_2, |s| {
            set_lock(s, 2, 0, 1);
            set_newest(s, 1, 0);
        }),
    ]);
}

#[test]
fn what_is_not_looked_at() {
    inspected(&[
        ("place 0", SOUND, |s| s.version_table[..3].fill(u32::MAX)),
        ("places not in use", SOUND, |s| s.version_table[3 * 7..].fill(u32::MAX)),
        ("values", SOUND, |s| (1..=6).for_each(|place| set(s, place, 0, u32::MAX))),
        // Node 3 is left out of level 0: the end comes early at node 1, whatever the chain of node 3 holds.
        ("a chain that no link reaches", FAULT_1, |s| {
            set_next(s, 2, 0, 1);
            set_newest(s, 3, 0);
        }),
        ("what stands at a place not in use, though it would be in order", FAULT_1, |s| {
            set(s, 7, TIMESTAMP, 99);
            set(s, 7, PREV, 6);
            set_newest(s, 1, 7);
        }),
    ]);
}
