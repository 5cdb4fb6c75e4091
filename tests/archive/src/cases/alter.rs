//! Alterations of lent words.

use crate::words::*;
use store_tests::model::{high_half, low_half, Kind, Phase, MAX_LIMIT};
use store_tests::random::Random;

/// Numbers at the edges of everything that a word can mean.
const EDGES: [u32; 40] = [
    0,
    1,
    2,
    3,
    4,
    5,
    6,
    7,
    8,
    9,
    10,
    15,
    16,
    17,
    31,
    32,
    33,
    48,
    255,
    256,
    1_022,
    1_023,
    1_024,
    4_095,
    4_096,
    12_288,
    12_291,
    16_384,
    16_400,
    65_535,
    65_536,
    (1 << 28) - 1,
    1 << 28,
    MAX_LIMIT,
    MAX_LIMIT + 1,
    (1 << 31) - 1,
    1 << 31,
    u32::MAX - 2,
    u32::MAX - 1,
    u32::MAX,
];
/// Words of the head whose numbers, with their neighbours, are edges too: limit, events, lengths, counts.
const OWN: [usize; 6] = [3, 4, 5, 6, NODES_MADE, VERSIONS_HELD];

/// In turn each number at an edge.
pub fn edge(turn: u64, words: &Words) -> u32 {
    let all = EDGES.len() + 3 * OWN.len();
    let turn = (turn % all as u64) as usize;
    match turn.checked_sub(EDGES.len()) {
        None => EDGES[turn],
        Some(own) => words.state_word(OWN[own / 3]).wrapping_add(own as u32 % 3).wrapping_sub(1),
    }
}

/// Another length for a part; sometimes the state says the same length.
pub fn relength(random: &mut Random, words: &mut Words, part: Part) {
    let now = words.part(part).len();
    let record = [PROCESS, 16, 3, 1][part as usize];
    let near = [now + 1, now.saturating_sub(1), now + record, now.saturating_sub(record), 0, 1, record, 2 * now];
    let length = match part {
        Part::Tally => random.below(10) as usize,
        Part::Nodes if random.once_in(8) => random.pick(&[16_384, 16_400]),
        Part::Versions if random.once_in(8) => random.pick(&[12_288, 12_291]),
        Part::State if random.once_in(8) => random.below(400) as usize,
        _ => random.pick(&near),
    };
    let filler = random.pick(&[0, 1, u32::MAX]);
    words.part_mut(part).resize(length, filler);
    let told = match part {
        Part::Nodes => 5,
        Part::Versions => 6,
        _ => return,
    };
    if let (true, Some(word)) = (random.once_in(3), words.part_mut(Part::State).get_mut(told)) {
        *word = length as u32;
    }
}

/// A word of a node or a version in use, set to a number near those in use or to one at an edge; at times one half of a
/// node's key.
pub fn alter_table(random: &mut Random, words: &mut Words) {
    if random.once_in(6) {
        return alter_key(random, words);
    }
    let (nodes, versions) = ((Part::Nodes, NODES_MADE, 16), (Part::Versions, VERSIONS_HELD, 3));
    let (part, count, record) = random.pick(&[nodes, nodes, versions]);
    let used = words.state_word(count).saturating_add(1).saturating_mul(record);
    let at = random.below(used.min(words.part(part).len() as u32)) as usize;
    let to = match random.below(4) {
        0 => random.pick(&EDGES),
        1 => words.part(part)[at].wrapping_add(random.pick(&[1, u32::MAX])),
        _ => random.below(words.state_word(count).saturating_add(3)),
    };
    words.part_mut(part)[at] = to;
}

/// One half of the key of a node in use, set to that of another node or to a number at an edge.
fn alter_key(random: &mut Random, words: &mut Words) {
    let nodes = words.state_word(NODES_MADE).saturating_add(1).min(words.part(Part::Nodes).len() as u32 / 16);
    let (node, other) = (random.below(nodes), random.below(nodes));
    let half = random.pick(&KEY_OF_NODE);
    let to = if random.once_in(2) { words.node_word(other, half) } else { random.pick(&EDGES) };
    words.part_mut(Part::Nodes)[node as usize * 16 + half] = to;
}

/// Tops that count as 5.
const ABOVE_5: [u32; 6] = [6, 7, 8, 13, 1 << 31, u32::MAX];

/// Another top for a node in use. One linked on all levels may have any from 5 on; else a link may lead to a top too
/// low for it, or a level lack a node by the count of tops.
pub fn alter_top(random: &mut Random, words: &mut Words) {
    let nodes = words.state_word(NODES_MADE);
    let linked = |node: u32, level: u32| (0..=nodes).any(|before| words.next(before, level) == node);
    let on_all_levels: Vec<u32> = (1..=nodes).filter(|&node| (0..6).all(|level| linked(node, level))).collect();
    let any = if nodes == 0 || random.once_in(8) { 0 } else { random.within(1, nodes) };
    let (node, to) = match random.below(3) {
        0 if !on_all_levels.is_empty() => (random.pick(&on_all_levels), random.pick(&ABOVE_5)),
        1 => (any, random.pick(&EDGES)),
        _ => (any, (words.node_word(any, TOP) + random.within(1, 7)) % 8),
    };
    words.set_node_word(node, TOP, to);
}

/// Gives a process a scan that follows, from a node in use and over a span of keys of nodes or between them, mostly in
/// order; at times the newest reading of the node ahead is lost.
pub fn let_follow(random: &mut Random, words: &mut Words, process: u32) {
    let nodes = words.state_word(NODES_MADE).saturating_add(1);
    let mut key = || words.node_key(random.below(nodes)).wrapping_add(u64::from(random.below(2)));
    let mut span = [key(), key()];
    if !random.once_in(4) {
        span.sort_unstable();
    }
    let pred = random.below(nodes);
    if random.once_in(4) {
        let lost = random.pick(&[0, words.state_word(VERSIONS_HELD).saturating_add(1)]);
        words.set_node_word(words.next(pred, 0), NEWEST, lost);
    }
    let level = if random.once_in(2) { 0 } else { random.below(6) };
    let call = &mut words.part_mut(Part::State)[words_of(process as usize)];
    (call[KIND], call[PHASE], call[EFFECT]) = (Kind::Scan as u32, Phase::Follow as u32, 0);
    (call[LEVEL], call[PRED]) = (level, pred);
    for ([low, high], key) in [KEY_OF_PROCESS, LAST_OF_PROCESS].into_iter().zip(span) {
        (call[low], call[high]) = (low_half(key), high_half(key));
    }
}

/// Locks that calls left are no faults then; an altered one may go with them.
pub fn free_locks(words: &mut Words) {
    for node in words.part_mut(Part::Nodes).chunks_exact_mut(16) {
        node[10..].iter_mut().filter(|lock| (1..=8).contains(*lock)).for_each(|lock| *lock = 0);
    }
}

/// Alters some of these words, or all.
pub fn scatter(random: &mut Random, words: &mut [u32]) {
    let share = random.pick(&[1, 1, 3, 10, 40]);
    let bound = random.pick(&[3, 8, 20, 1 << 12, 1 << 31]);
    for word in words {
        if random.once_in(share) {
            *word = if random.once_in(30) { random.pick(&EDGES) } else { random.below(bound) };
        }
    }
}

/// Kinds, phases and answers of some processes, known and unknown ones, each just past its greatest or wild; at times with the
/// event limit spent.
pub fn scatter_numbers(random: &mut Random, words: &mut Words) {
    let state = words.part_mut(Part::State);
    for _ in 0..random.within(1, 4) {
        let process = random.below(8) as usize;
        let (word, greatest) = random.pick(&NUMBERS);
        let number = random.pick(&[0, 1, greatest, greatest + 1, greatest + 2, 255, 256, 1 << 16, 1 << 31, u32::MAX]);
        state[words_of(process)][word] = number;
    }
    if random.once_in(2) {
        state[4] = state[3];
    }
}
