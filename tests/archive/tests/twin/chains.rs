//! An inspection that makes one pass over each chain, for places and timestamps at once: right, or gone wrong.

use archive_tests::expected::perform;
use archive_tests::words::*;
use store_tests::damage::{Operation, Reply};
use store_tests::model::{Verdict, MAX_VERSIONS};

#[derive(Clone, Copy, Debug, PartialEq, Eq)]
pub enum Pass {
    Right,
    /// Each timestamp is compared with the newest, not with its neighbour's.
    AgainstNewest,
    /// The oldest version of a chain is not compared.
    OldestNotCompared,
    /// The previous place of place 1 is not tested: nothing comes before it.
    EndsAtPlace1,
    /// As many versions are followed as are held, and the previous place of the last of them is not tested.
    EndsByCount,
    /// 4,094 versions of a chain are followed at most.
    EndsBefore4095,
    /// A previous place that is the version's own is accepted, and ends the chain.
    OwnAccepted,
    /// The timestamp at place 0 is compared before 0 is found to be the end.
    Place0Compared,
    /// The timestamp of a previous place that is not smaller decides; the chain ends there.
    TimestampAlone,
    /// No timestamp is compared.
    NoTimestamps,
    /// Equal timestamps are called a fault.
    EqualRefused,
    /// The newest place is not tested for being in use.
    NewestNotTested,
    /// A newest place 0 is taken for a chain without versions.
    NewestZero,
    /// The node behind the one with the damaged chain is told.
    NodeBehind,
    /// Timestamps are looked at when the places of all chains were.
    PlacesOfAllFirst,
    /// Chains are looked at when all levels were.
    ChainsLast,
}

impl Pass {
    pub const WRONG: [Pass; 15] = [
        Pass::AgainstNewest,
        Pass::OldestNotCompared,
        Pass::EndsAtPlace1,
        Pass::EndsByCount,
        Pass::EndsBefore4095,
        Pass::OwnAccepted,
        Pass::Place0Compared,
        Pass::TimestampAlone,
        Pass::NoTimestamps,
        Pass::EqualRefused,
        Pass::NewestNotTested,
        Pass::NewestZero,
        Pass::NodeBehind,
        Pass::PlacesOfAllFirst,
        Pass::ChainsLast,
    ];
}

/// What an inspection with such passes answers, where it is not refused.
pub fn inspect(words: &Words, pass: Pass) -> [u32; 9] {
    let rest = perform(&mut without_chains(words), None, Operation::Inspect).words;
    let fault = match pass {
        Pass::ChainsLast if rest[1] == 1 => None,
        Pass::PlacesOfAllFirst => {
            first_fault(words, rest, Pass::NoTimestamps).or_else(|| first_fault(words, rest, Pass::Right))
        }
        _ => first_fault(words, rest, pass),
    };
    let told = |node| if pass == Pass::NodeBehind { words.next(node, 0) } else { node };
    fault.map_or(rest, |node| Reply::Inspected(Verdict::Fault { level: 0, node: told(node) }).words())
}

/// All chains made one and the same sound version, so that the model finds what else is wrong.
fn without_chains(words: &Words) -> Words {
    let mut words = words.clone();
    let held = words.state_word(VERSIONS_HELD).max(1);
    words.part_mut(Part::State)[VERSIONS_HELD] = held;
    words.set_version_word(1, PREV, 0);
    (1..=words.state_word(NODES_MADE)).for_each(|node| words.set_node_word(node, NEWEST, 1));
    words
}

/// The first node along level 0 whose chain is not sound, unless `rest` tells a fault of level 0 before it.
fn first_fault(words: &Words, rest: [u32; 9], pass: Pass) -> Option<u32> {
    let [_, fault, level, last, ..] = rest;
    let mut node = 0;
    while !(fault == 1 && level == 0 && node == last) {
        node = words.next(node, 0);
        if node == 0 {
            return None;
        }
        if !sound(words, node, pass) {
            return Some(node);
        }
    }
    None
}

/// One pass over the chain of a node.
pub fn sound(words: &Words, node: u32, pass: Pass) -> bool {
    let held = words.state_word(VERSIONS_HELD);
    let timestamp = |place: u32| words.version_word(place, TIMESTAMP);
    let newest = words.node_word(node, NEWEST);
    if newest == 0 || (newest > held && pass != Pass::NewestNotTested) {
        return newest == 0 && pass == Pass::NewestZero;
    }
    let (mut place, mut followed) = (newest, 1);
    loop {
        let prev = words.version_word(place, PREV);
        let rises = match pass {
            Pass::NoTimestamps => false,
            Pass::AgainstNewest => timestamp(prev) > timestamp(newest),
            Pass::OldestNotCompared if words.version_word(prev, PREV) == 0 => false,
            Pass::EqualRefused => timestamp(prev) >= timestamp(place),
            _ => timestamp(prev) > timestamp(place),
        };
        if pass == Pass::Place0Compared && rises {
            return false;
        }
        let ends = match pass {
            Pass::EndsAtPlace1 => place == 1,
            Pass::EndsByCount => followed == held,
            Pass::EndsBefore4095 => followed == MAX_VERSIONS - 1,
            Pass::OwnAccepted => prev == place,
            Pass::TimestampAlone => prev >= place && !rises,
            _ => false,
        };
        if ends || prev == 0 {
            return true;
        }
        if prev >= place || rises {
            return false;
        }
        (place, followed) = (prev, followed + 1);
    }
}
