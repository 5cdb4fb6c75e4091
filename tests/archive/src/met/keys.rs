//! What outcomes show of keys above 32 bits and of the ends of their range.

use super::{name, ANSWERS, DONE, ON, SHOWN};
use crate::expected::Outcome;
use crate::words::{Words, KEY_OF_PROCESS, LAST_OF_PROCESS, LEVEL, NODES_MADE, PHASE, PRED};
use std::cmp::Ordering;
use store_tests::damage::Operation;
use store_tests::model::{high_half, lawful_key, low_half, Call, Phase, FIRST_KEY, LAST_KEY};

/// The key of a step's call, and whether its high half decides.
#[derive(Default)]
pub struct Before {
    key: u64,
    /// Would the low halves alone compare the key that p's link leads to otherwise?
    by_high: bool,
}

impl Before {
    pub fn of(words: &Words, process: u32) -> Before {
        let [phase, level, pred] = [PHASE, LEVEL, PRED].map(|word| words.process_word(process, word));
        let [key, last] = [KEY_OF_PROCESS, LAST_OF_PROCESS].map(|halves| words.process_key(process, halves));
        let follows = phase == Phase::Follow as u32;
        let next = words.next(pred, if follows { 0 } else { level });
        let met = words.node_key(next);
        let low = |key: u64| u64::from(low_half(key));
        let last = if follows { last } else { key };
        let by_high = next != 0 && way(met, key, last) != way(low(met), low(key), low(last));
        Before { key, by_high }
    }
}

/// Where a key lies: past the last, looked at first, or before the first, or between.
fn way(met: u64, first: u64, last: u64) -> Ordering {
    if met > last {
        Ordering::Greater
    } else {
        met.cmp(&first).min(Ordering::Equal)
    }
}

/// Steps that compare keys; those that follow are told apart by what they do.
const COMPARING: [&str; 3] = ["walk", "seek", "check"];
const FOLLOWING: [(u32, &str); 3] = [(ON, "passed"), (DONE, "swept"), (SHOWN, "shown")];

pub fn key_kinds(before: &super::Before, words: &Words, operation: Operation, outcome: &Outcome) -> Vec<String> {
    let number = outcome.words[0];
    match (number, operation) {
        (0, Operation::Step { .. }) => step_kinds(before, outcome),
        (0, Operation::Inspect) => inspected_by_high(words, outcome).into_iter().collect(),
        (_, Operation::Start { call: Call::Scan { first, last }, .. }) => span_kinds(number, first, last),
        (0 | 6, Operation::Start { call, .. }) => point_kinds(operation, number, call.key()),
        (0 | 6 | 11..=13, Operation::Look { key, .. }) => point_kinds(operation, number, key),
        _ => vec![],
    }
}

fn is_long(key: u64) -> bool {
    high_half(key) != 0
}

/// A call on one key.
fn point_kinds(operation: Operation, number: u32, key: u64) -> Vec<String> {
    let name = name(operation);
    let start = matches!(operation, Operation::Start { .. });
    match number {
        6 => vec![format!("{name} 6 {key}")],
        0 if start && [FIRST_KEY, LAST_KEY].contains(&key) => vec![format!("{name} 0 {key}")],
        _ if is_long(key) => vec![format!("{name} {number}, long tray")],
        _ => vec![],
    }
}

/// The start of a sweep: which end is refused, is the first or the last of all, or is long; and whether high halves
/// decide that the span is lawful, or that it is not.
fn span_kinds(number: u32, first: u64, last: u64) -> Vec<String> {
    let ends = [("first", first), ("last", last)];
    let wrong = ends.into_iter().find(|&(_, key)| !lawful_key(key));
    let outer = ends.into_iter().filter(|&(_, key)| [FIRST_KEY, LAST_KEY].contains(&key));
    let long = ends.into_iter().filter(|&(_, key)| is_long(key));
    let by_high = (first <= last) != (low_half(first) <= low_half(last));
    match (number, wrong) {
        (6, Some((end, key))) => vec![format!("start-sweep 6, {end} {key}")],
        (0 | 17, _) => {
            let outer = outer.filter(|_| number == 0).map(|(end, key)| format!("start-sweep 0, {end} {key}"));
            let long = long.map(|(end, _)| format!("start-sweep {number}, {end} long"));
            let by_high = by_high.then(|| format!("start-sweep {number} by the high half"));
            outer.chain(long).chain(by_high).collect()
        }
        _ => vec![],
    }
}

fn step_kinds(before: &super::Before, outcome: &Outcome) -> Vec<String> {
    let [_, what, _, _, fourth, ..] = outcome.words;
    let (phase, by_high) = (before.phase(), before.keys.by_high);
    let long = match what {
        DONE if is_long(before.keys.key) => Some(format!("step 0 {}, long tray", ANSWERS[fourth as usize])),
        SHOWN if fourth != 0 => Some("step 0 shown, long tray".to_string()),
        _ => None,
    };
    let compared = (by_high && COMPARING.contains(&phase)).then(|| format!("step 0 {phase} by the high half"));
    let followed = FOLLOWING.iter().find(|&&(did, _)| by_high && phase == "follow" && did == what);
    let followed = followed.map(|(_, name)| format!("step 0 {name} by the high half"));
    long.into_iter().chain(compared).chain(followed).collect()
}

/// Does a sound inspection, or a fault, hang on high halves: do keys rise, or fail to, otherwise than their low halves?
fn inspected_by_high(words: &Words, outcome: &Outcome) -> Option<String> {
    let [_, fault, level, node, ..] = outcome.words;
    let rises = |node: u32, level: u32| {
        let next = words.next(node, level);
        let (key, behind) = (words.node_key(node), words.node_key(next));
        (next != 0 && next <= words.state_word(NODES_MADE)).then_some((key < behind, low_half(key) < low_half(behind)))
    };
    if fault == 1 {
        return (rises(node, level) == Some((false, true))).then(|| "inspect 0 fault by the high half".to_string());
    }
    let mut nodes = 0..=words.state_word(NODES_MADE);
    let sound = nodes.any(|node| rises(node, 0) == Some((true, false)));
    sound.then(|| "inspect 0 sound by the high half".to_string())
}

/// All kinds of keys that can be met.
pub fn possible() -> Vec<String> {
    let mut kinds = Vec::new();
    for name in ["start-put", "start-get"] {
        kinds.extend([FIRST_KEY, LAST_KEY].map(|key| format!("{name} 0 {key}")));
        kinds.push(format!("{name} 0, long tray"));
    }
    for name in ["start-put", "start-get", "look"] {
        kinds.extend([0, LAST_KEY + 1].map(|key| format!("{name} 6 {key}")));
    }
    kinds.extend([0, 11, 12, 13].map(|number| format!("look {number}, long tray")));
    kinds.extend(ANSWERS.map(|answer| format!("step 0 {answer}, long tray")));
    kinds.push("step 0 shown, long tray".to_string());
    let following = FOLLOWING.map(|(_, name)| name);
    kinds.extend(COMPARING.into_iter().chain(following).map(|step| format!("step 0 {step} by the high half")));
    kinds.extend(["sound", "fault"].map(|what| format!("inspect 0 {what} by the high half")));
    kinds.extend(possible_of_spans());
    kinds
}

fn possible_of_spans() -> Vec<String> {
    let mut kinds = Vec::new();
    for end in ["first", "last"] {
        kinds.extend([0, LAST_KEY + 1].map(|key| format!("start-sweep 6, {end} {key}")));
        kinds.extend([FIRST_KEY, LAST_KEY].map(|key| format!("start-sweep 0, {end} {key}")));
        kinds.extend([0, 17].map(|number| format!("start-sweep {number}, {end} long")));
    }
    kinds.extend([0, 17].map(|number| format!("start-sweep {number} by the high half")));
    kinds
}
