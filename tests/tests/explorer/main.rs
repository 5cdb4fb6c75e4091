//! All interleavings of small stores: at every point the model keeps demand 3, is sound when idle and refuses
//! exactly what it must. Draws 1, 2 and 4 give the tops 0, 1 and 2.

mod scans;

use store_tests::explore::{explore, Memo, Report, Scope};
use store_tests::ledger::Opening;
use store_tests::model::{Call, MAX_LIMIT};

fn put(key: u64, timestamp: u32, draw: u16) -> Call {
    Call::Put { key, value: (key % 1_000) as u32 * 100 + timestamp * 10 + draw as u32, timestamp, draw }
}

fn get(key: u64) -> Call {
    Call::Get { key }
}

fn run(scope: &Scope) -> Report {
    match explore(scope.opening.fresh(), scope) {
        Ok(report) => report,
        Err(found) => panic!("{} after {:?} in {scope:?}", found.objection, found.schedule),
    }
}

/// All points told apart by their ticks too; the limit bounds the waits, and is itself run into.
fn with_ticks(keys: u32, versions: u32, limit: u32, scripts: &[&[Call]]) {
    let opening = Opening { keys, versions, processes: scripts.len() as u32, limit };
    let scripts = scripts.iter().map(|script| script.to_vec()).collect();
    let report = run(&Scope { opening, memo: Memo::Full, first: vec![], scripts });
    println!("limit {limit}: {}", told(&report));
}

fn told(report: &Report) -> String {
    let Report { points, arrivals, ends, latest, .. } = report;
    format!("{points} points, {arrivals} arrivals, {ends} ends, latest event {latest}")
}

fn scope(keys: u32, versions: u32, first: &[Call], scripts: &[&[Call]]) -> Scope {
    let opening = Opening { keys, versions, processes: scripts.len() as u32, limit: MAX_LIMIT };
    let scripts = scripts.iter().map(|script| script.to_vec()).collect();
    Scope { opening, memo: Memo::NoTicks, first: first.to_vec(), scripts }
}

#[test]
fn ticks_two_puts_of_one_new_key() {
    with_ticks(1, 2, 32, &[&[put(5, 2, 2)], &[put(5, 2, 2)]]);
    with_ticks(1, 1, 28, &[&[put(5, 2, 1)], &[put(5, 2, 4)]]);
}

#[test]
fn ticks_put_and_gets() {
    with_ticks(2, 2, 30, &[&[put(5, 2, 4)], &[get(5), get(5)]]);
}

#[test]
fn ticks_three_processes_and_a_short_limit() {
    with_ticks(2, 2, 13, &[&[put(5, 2, 1)], &[put(3, 2, 1)], &[get(5)]]);
}

/// Two processes with one call each, after the first calls: every pair.
fn explore_pairs(first: &[Call], calls: &[Call]) {
    let mut total = 0;
    for (place, &one) in calls.iter().enumerate() {
        for &other in &calls[place..] {
            total += run(&scope(4, 4, first, &[&[one], &[other]])).points;
        }
    }
    println!("{} calls, {total} points", calls.len());
}

/// On a store that has the keys 4 (top 1) and 8 (top 0).
#[test]
fn every_pair_of_calls() {
    let first = [put(8, 5, 1), put(4, 5, 2)];
    let mut calls = vec![get(4), get(6), get(8)];
    calls.extend([2, 4, 6, 8, 9].iter().flat_map(|&key| [put(key, 5, 1), put(key, 6, 4)]));
    calls.extend([put(4, 4, 2), put(6, 4, 2), put(8, 4, 2)]);
    explore_pairs(&first, &calls);
}

/// Too few nodes or versions for all: who comes first gets them.
#[test]
fn full_tables() {
    for (keys, versions) in [(1, 1), (1, 2), (2, 1), (2, 2), (2, 3), (3, 2)] {
        let one = [put(5, 2, 2), put(3, 1, 1)];
        let other = [put(3, 2, 4), put(5, 3, 1), get(3)];
        let report = run(&scope(keys, versions, &[], &[&one, &other]));
        println!("K {keys} V {versions}: {}", told(&report));
    }
}

#[test]
fn three_processes_on_an_empty_store() {
    let triples: [[Call; 3]; 3] = [
        [put(5, 2, 2), put(3, 2, 2), put(4, 2, 2)],
        [put(5, 2, 4), put(3, 2, 2), get(5)],
        [put(5, 2, 4), put(5, 2, 1), get(5)],
    ];
    for [one, two, three] in triples {
        println!("{}", told(&run(&scope(3, 4, &[], &[&[one], &[two], &[three]]))));
    }
}

/// Three processes with one call each, on a store that has the key 5 (top 1): every triple of these calls.
#[test]
fn every_triple_of_some_calls() {
    let calls = [put(5, 2, 1), put(4, 2, 2), put(5, 1, 4), put(6, 2, 1), get(5)];
    let mut total = 0;
    for one in 0..calls.len() {
        for two in one..calls.len() {
            for three in two..calls.len() {
                let scripts: [&[Call]; 3] = [&[calls[one]], &[calls[two]], &[calls[three]]];
                total += run(&scope(3, 4, &[put(5, 2, 2)], &scripts)).points;
            }
        }
    }
    println!("{total} points");
}

/// Updates of a key while neighbours arrive, two calls in a row.
#[test]
fn three_processes_on_a_filled_store() {
    let first = [put(5, 2, 2)];
    let scripts: [&[Call]; 3] = [&[put(5, 2, 1), get(3)], &[put(3, 2, 2)], &[put(5, 3, 4)]];
    println!("{}", told(&run(&scope(4, 5, &first, &scripts))));
}

/// Keys that differ in one half only. By their numbers: 5, 2^32 - 1, 2^32, 2^32 + 5; by their low halves alone 5 and
/// 2^32 + 5 are one, and 2^32 is the least.
const SHORT: u64 = 5;
const LAST_OF_32: u64 = 0xFFFF_FFFF;
const FIRST_BEYOND: u64 = 1 << 32;
const SAME_LOW: u64 = FIRST_BEYOND + SHORT;

/// On a store that has a key of 32 bits and one above.
#[test]
fn every_pair_of_calls_on_keys_that_agree_in_one_half() {
    let first = [put(LAST_OF_32, 5, 1), put(SAME_LOW, 5, 2)];
    let keys = [SHORT, LAST_OF_32, FIRST_BEYOND, SAME_LOW];
    let calls: Vec<Call> = keys.iter().flat_map(|&key| [get(key), put(key, 5, 1), put(key, 6, 4)]).collect();
    explore_pairs(&first, &calls);
}

#[test]
fn three_processes_on_keys_that_agree_in_one_half() {
    let triples: [[Call; 3]; 3] = [
        [put(SHORT, 2, 2), put(SAME_LOW, 2, 2), put(FIRST_BEYOND, 2, 2)],
        [put(SHORT, 2, 4), put(SAME_LOW, 2, 2), get(SAME_LOW)],
        [put(LAST_OF_32, 2, 4), put(FIRST_BEYOND, 2, 1), get(FIRST_BEYOND)],
    ];
    for [one, two, three] in triples {
        println!("{}", told(&run(&scope(3, 4, &[], &[&[one], &[two], &[three]]))));
    }
}

#[test]
fn four_processes() {
    let scripts: [&[Call]; 4] = [&[put(5, 2, 1)], &[put(5, 3, 1)], &[put(3, 2, 1)], &[get(5)]];
    println!("{}", told(&run(&scope(2, 3, &[], &scripts))));
}
