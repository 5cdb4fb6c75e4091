//! An inspection that counts the nodes of all levels once, by their tops, before it follows any: right, or gone wrong.

use super::chains::{sound, Pass};
use archive_tests::words::*;
use store_tests::damage::Reply;
use store_tests::model::{Verdict, LEVELS, TOP_LEVEL};

#[derive(Clone, Copy, Debug, PartialEq, Eq)]
pub enum Count {
    Right,
    /// Tops above 5 are not counted.
    AboveLeftOut,
    /// Tops are counted by their remainder with 8.
    Remainder,
    /// Every level is held to the count of level 0.
    OfLevel0,
    /// Every level is held to the count of the level above it.
    OfLevelAbove,
}

impl Count {
    pub const WRONG: [Count; 4] = [Count::AboveLeftOut, Count::Remainder, Count::OfLevel0, Count::OfLevelAbove];
}

/// What an inspection with such a count answers, where it is not refused.
pub fn inspect(words: &Words, count: Count) -> [u32; 9] {
    let fault = (0..).zip(due(words, count)).find_map(|(level, due)| {
        let node = first_fault(words, level, due)?;
        Some(Verdict::Fault { level, node })
    });
    Reply::Inspected(fault.unwrap_or(Verdict::Sound)).words()
}

/// How many nodes each level is held to.
fn due(words: &Words, count: Count) -> [u32; LEVELS] {
    let mut with_top = [0; LEVELS];
    for node in 1..=words.state_word(NODES_MADE) {
        let top = words.node_word(node, TOP);
        match count {
            Count::AboveLeftOut if top > TOP_LEVEL => {}
            Count::Remainder => with_top[(top % 8).min(TOP_LEVEL) as usize] += 1,
            _ => with_top[top.min(TOP_LEVEL) as usize] += 1,
        }
    }
    let from = |level: usize| with_top[level..].iter().sum();
    std::array::from_fn(|level| match count {
        Count::OfLevel0 => from(0),
        Count::OfLevelAbove => from(level + 1),
        _ => from(level),
    })
}

/// The node reached when the first fault of this level shows.
fn first_fault(words: &Words, level: u32, due: u32) -> Option<u32> {
    let (mut node, mut seen) = (0, 0);
    loop {
        let next = words.next(node, level);
        let locked = words.node_word(node, LOCK + level as usize) != 0;
        let versions_wrong = level == 0 && node != 0 && !sound(words, node, Pass::Right);
        if locked || versions_wrong || next > words.state_word(NODES_MADE) {
            return Some(node);
        }
        if next == 0 {
            return (seen < due).then_some(node);
        }
        if words.node_key(next) <= words.node_key(node) || words.node_word(next, TOP) < level {
            return Some(node);
        }
        (node, seen) = (next, seen + 1);
    }
}
