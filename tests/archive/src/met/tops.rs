//! What inspections show of tops: sound with one above 5, which counts as 5; and faults above level 0 that a top alone
//! decides, by the count of a level's nodes or at a link.

use crate::expected::Outcome;
use crate::words::{Words, LOCK, NODES_MADE, TOP};
use std::iter::successors;
use store_tests::damage::Operation;
use store_tests::model::TOP_LEVEL;

const SOUND_ABOVE: &str = "inspect 0 sound with a top above 5";
const SOUND_NODE_0: &str = "inspect 0 sound with another top at node 0";

fn by_count(level: u32) -> String {
    format!("inspect 0 fault {level} by the count alone")
}

fn by_count_above(level: u32) -> String {
    format!("inspect 0 fault {level} by the count of tops above 5")
}

fn by_link(level: u32) -> String {
    format!("inspect 0 fault {level} by the next node's top")
}

pub fn top_kinds(words: &Words, operation: Operation, outcome: &Outcome) -> Vec<String> {
    let [number, at_fault, level, node, ..] = outcome.words;
    match (operation, number, at_fault, level) {
        (Operation::Inspect, 0, 0, _) => sound_kinds(words),
        (Operation::Inspect, 0, 1, 1..) => fault_kinds(words, level, node),
        _ => vec![],
    }
}

fn sound_kinds(words: &Words) -> Vec<String> {
    let top = |node: u32| words.node_word(node, TOP);
    let above = (1..=words.state_word(NODES_MADE)).any(|node| top(node) > TOP_LEVEL);
    let holds = [(above, SOUND_ABOVE), (top(0) != TOP_LEVEL, SOUND_NODE_0)];
    holds.iter().filter(|(holds, _)| *holds).map(|(_, kind)| kind.to_string()).collect()
}

/// Where no lock is the fault, the link is, or the next key or top; at the end only the count can be.
fn fault_kinds(words: &Words, level: u32, node: u32) -> Vec<String> {
    let next = words.next(node, level);
    let rises = words.node_key(next) > words.node_key(node);
    match next {
        _ if words.node_word(node, LOCK + level as usize) != 0 => vec![],
        0 => count_kinds(words, level),
        _ if next <= words.state_word(NODES_MADE) && rises => vec![by_link(level)],
        _ => vec![],
    }
}

/// The level lacks nodes. Are they such with tops above 5 alone?
fn count_kinds(words: &Words, level: u32) -> Vec<String> {
    let ahead = |&node: &u32| Some(words.next(node, level)).filter(|&next| next != 0);
    let seen: Vec<u32> = successors(Some(0), ahead).collect();
    let mut unseen = (1..=words.state_word(NODES_MADE)).filter(|node| !seen.contains(node));
    let others = unseen.any(|node| (level..=TOP_LEVEL).contains(&words.node_word(node, TOP)));
    let above = (!others).then(|| by_count_above(level));
    [by_count(level)].into_iter().chain(above).collect()
}

/// All kinds that can be met.
pub fn possible() -> Vec<String> {
    let sound = [SOUND_ABOVE, SOUND_NODE_0].map(String::from);
    let faults = (1..=TOP_LEVEL).flat_map(|level| [by_count(level), by_count_above(level), by_link(level)]);
    sound.into_iter().chain(faults).collect()
}
