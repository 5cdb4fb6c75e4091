//! What inspections show of chains: faults that one chain alone decides, where in it they lie and what they hide; and
//! what chains in order may hold. Told from the words, each chain followed by code of its own.

use crate::expected::Outcome;
use crate::words::{Words, LOCK, NEWEST, NODES_MADE, PREV, TIMESTAMP, VERSIONS_HELD};
use std::collections::BTreeMap;
use std::iter::successors;
use store_tests::damage::Operation;
use store_tests::model::MAX_VERSIONS;

const PLACES: &str = "places";
const STAMPS: &str = "stamps";
const BOTH: &str = "both";
const STAMP_AT: [&str; 4] = ["at the only pair", "at the first pair", "in the middle", "at the last pair"];
const LONGEST: &str = "4095 readings";
const NOT_IN_USE_BUT_IN_ORDER: &str = "newest place not in use, in order there";
const AT_NEWEST: &str = "previous place wrong at the newest reading";
const FURTHER_BACK: &str = "previous place wrong further back";
const AT_PLACE_1: &str = "previous place wrong at place 1";
const BEHIND_LONGEST: &str = "previous place wrong behind 4095 readings";
const NOT_ABOVE_NEWEST: &str = "stamp greater, not above the newest";
const LOCK_UNSEEN: &str = "a lock of a higher level unseen";
/// Faults that a chain decides; [`possible`] has more.
const FAULTS: [&str; 21] = [
    PLACES,
    STAMPS,
    BOTH,
    "newest place 0",
    "newest place not in use",
    NOT_IN_USE_BUT_IN_ORDER,
    "newest place beyond the table",
    "previous place its own",
    "previous place greater, in use, with a greater stamp",
    "previous place greater, in use, without",
    "previous place not in use, with a greater stamp",
    "previous place not in use, without",
    "previous place beyond the table",
    AT_NEWEST,
    FURTHER_BACK,
    AT_PLACE_1,
    BEHIND_LONGEST,
    "stamp greater by one",
    "stamp greater by more",
    NOT_ABOVE_NEWEST,
    LOCK_UNSEEN,
];
const BEHIND_LOCK: &str = "behind a lock";
const NO_LINK: &str = "no link reaches it";
const SOUND: [&str; 7] = [
    "a single reading",
    "equal stamps",
    "shared readings",
    LONGEST,
    "a stamp at place 0 above an oldest one",
    "a previous place at place 0",
    "a place not in use that is not blank",
];

fn fault(what: &str) -> String {
    format!("chain at fault, {what}")
}

fn unseen(what: &str) -> String {
    format!("chain unseen, {what}")
}

fn sound(what: &str) -> String {
    format!("chains sound, {what}")
}

/// A chain as the words have it.
struct Chain {
    /// From the newest on, as far as each is smaller than the one before.
    places: Vec<u32>,
    /// What ends it: 0 behind the oldest, or a place that is wrong.
    end: u32,
    /// Those of the places, by their number in the chain, whose stamp is greater than the one before.
    rises: Vec<usize>,
}

impl Chain {
    fn of(words: &Words, node: u32) -> Chain {
        Chain::from(words, words.node_word(node, NEWEST), words.state_word(VERSIONS_HELD))
    }

    /// From this place on, if it is not above the last one.
    fn from(words: &Words, newest: u32, last: u32) -> Chain {
        let (mut places, mut end) = (Vec::new(), newest);
        while end != 0 && end <= last && places.last().is_none_or(|&place| end < place) {
            places.push(end);
            end = words.version_word(end, PREV);
        }
        let stamp = |at: usize| words.version_word(places[at], TIMESTAMP);
        let rises = (1..places.len()).filter(|&at| stamp(at) > stamp(at - 1)).collect();
        Chain { places, end, rises }
    }

    /// A wrong place, or else a wrong stamp.
    fn wrong(&self) -> Option<&'static str> {
        if self.places.is_empty() || self.end != 0 {
            return Some(PLACES);
        }
        (!self.rises.is_empty()).then_some(STAMPS)
    }

    fn is_longest(&self) -> bool {
        self.places.len() == MAX_VERSIONS as usize
    }
}

/// Node 0 and those along level 0 as far as links are in use and keys rise, whatever locks and chains there are.
fn path(words: &Words) -> Vec<u32> {
    let ahead = |&node: &u32| {
        let next = words.next(node, 0);
        let rises = words.node_key(next) > words.node_key(node);
        (next != 0 && next <= words.state_word(NODES_MADE) && rises).then_some(next)
    };
    successors(Some(0), ahead).collect()
}

pub fn chain_kinds(words: &Words, operation: Operation, outcome: &Outcome) -> Vec<String> {
    let [number, at_fault, level, node, ..] = outcome.words;
    match (operation, number, at_fault, level) {
        (Operation::Inspect, 0, 0, _) => sound_kinds(words),
        (Operation::Inspect, 0, 1, 0) => fault_kinds(words, node),
        _ => vec![],
    }
}

/// A chain counts where nothing else is wrong at its node: another fault there would give the same answer.
fn fault_kinds(words: &Words, node: u32) -> Vec<String> {
    let (path, nodes) = (path(words), words.state_word(NODES_MADE));
    let Some(seen) = path.iter().position(|&met| met == node) else { return vec![] };
    let wrong = |&node: &u32| Chain::of(words, node).wrong();
    let own = path[1..=seen].last().and_then(wrong);
    let behind = path[seen + 1..].iter().find_map(wrong);
    let ends = words.next(node, 0) == 0;
    let link_wrong = if ends { seen < nodes as usize } else { seen + 1 == path.len() };
    match own {
        _ if words.node_word(node, LOCK) != 0 => behind.map(|_| unseen(BEHIND_LOCK)).into_iter().collect(),
        Some(what) if !link_wrong => {
            let hidden = behind.map(|other| unseen(&format!("{other} behind {what}")));
            let locked = locked_above(words).then(|| fault(LOCK_UNSEEN));
            hidden.into_iter().chain(locked).chain(decided(words, node)).collect()
        }
        None if ends => {
            let unreached = (1..=nodes).filter(|node| !path.contains(node)).find_map(|node| wrong(&node));
            unreached.map(|what| unseen(&format!("{what}, {NO_LINK}"))).into_iter().collect()
        }
        _ => vec![],
    }
}

fn locked_above(words: &Words) -> bool {
    (0..=words.state_word(NODES_MADE)).any(|node| (1..6).any(|level| words.node_word(node, LOCK + level) != 0))
}

/// The chain of this node decides. Both are wrong where both lie on the way: behind a wrong place there is no chain.
fn decided(words: &Words, node: u32) -> Vec<String> {
    let chain = Chain::of(words, node);
    let kinds = match chain.places.last() {
        None => newest_kinds(words, chain.end),
        Some(_) if chain.end != 0 && !chain.rises.is_empty() => vec![BOTH.to_string()],
        Some(&last) if chain.end != 0 => previous_kinds(words, &chain, last),
        Some(_) => stamp_kinds(words, &chain),
    };
    kinds.iter().map(|kind| fault(kind)).collect()
}

/// What makes a place wrong that ends a chain.
fn flaw(words: &Words, place: u32) -> &'static str {
    match place {
        0 => "0",
        _ if place >= words.room() => "beyond the table",
        _ if place > words.state_word(VERSIONS_HELD) => "not in use",
        _ => "greater, in use",
    }
}

fn newest_kinds(words: &Words, newest: u32) -> Vec<String> {
    let in_order = Chain::from(words, newest, words.room() - 1).wrong().is_none();
    let mut kinds = vec![PLACES.to_string(), format!("newest place {}", flaw(words, newest))];
    kinds.extend(in_order.then(|| NOT_IN_USE_BUT_IN_ORDER.to_string()));
    kinds
}

/// The previous place of the last one that the chain comes to is wrong, and nothing before it.
fn previous_kinds(words: &Words, chain: &Chain, last: u32) -> Vec<String> {
    let [stamp, stamp_there] = [last, chain.end].map(|place| words.version_word(place, TIMESTAMP));
    let with = if stamp_there > stamp { "with a greater stamp" } else { "without" };
    let previous = match flaw(words, chain.end) {
        _ if chain.end == last => "its own".to_string(),
        why if chain.end >= words.room() => why.to_string(),
        why => format!("{why}, {with}"),
    };
    let at = if chain.places.len() == 1 { AT_NEWEST } else { FURTHER_BACK };
    let mut kinds = vec![PLACES.to_string(), format!("previous place {previous}"), at.to_string()];
    kinds.extend((last == 1).then(|| AT_PLACE_1.to_string()));
    kinds.extend(chain.is_longest().then(|| BEHIND_LONGEST.to_string()));
    kinds
}

/// Where one stamp is wrong; of several it is not told which is found.
fn stamp_kinds(words: &Words, chain: &Chain) -> Vec<String> {
    let [older] = chain.rises[..] else { return vec![STAMPS.to_string()] };
    let last = chain.places.len() - 1;
    let [newest, before, stamp] = [0, older - 1, older].map(|at| words.version_word(chain.places[at], TIMESTAMP));
    let at = STAMP_AT[match older {
        _ if last == 1 => 0,
        1 => 1,
        _ if older == last => 3,
        _ => 2,
    }];
    let by = if stamp - before == 1 { "by one" } else { "by more" };
    let mut kinds = vec![STAMPS.to_string(), format!("stamp {at}"), format!("stamp greater {by}")];
    kinds.extend(chain.is_longest().then(|| format!("{LONGEST}, stamp {at}")));
    kinds.extend((stamp <= newest).then(|| NOT_ABOVE_NEWEST.to_string()));
    kinds
}

fn sound_kinds(words: &Words) -> Vec<String> {
    let chains: Vec<Chain> = (1..=words.state_word(NODES_MADE)).map(|node| Chain::of(words, node)).collect();
    let [stamp, prev] = [TIMESTAMP, PREV].map(|word| move |place: u32| words.version_word(place, word));
    let equal = |chain: &Chain| chain.places.windows(2).any(|pair| stamp(pair[0]) == stamp(pair[1]));
    let below_0 = |chain: &Chain| chain.places.last().is_some_and(|&oldest| stamp(oldest) < stamp(0));
    let mut places: Vec<u32> = chains.iter().flat_map(|chain| chain.places.iter().copied()).collect();
    places.sort_unstable();
    let holds = [
        chains.iter().any(|chain| chain.places.len() == 1),
        chains.iter().any(equal),
        places.windows(2).any(|pair| pair[0] == pair[1]),
        chains.iter().any(Chain::is_longest),
        chains.iter().any(below_0),
        prev(0) != 0,
        (words.state_word(VERSIONS_HELD) + 1..words.room()).any(|place| stamp(place) != 0 || prev(place) != 0),
    ];
    SOUND.iter().zip(holds).filter(|(_, holds)| *holds).map(|(what, _)| sound(what)).collect()
}

/// All kinds that can be met.
pub fn possible() -> Vec<String> {
    let mut kinds = FAULTS.map(fault).to_vec();
    kinds.extend(STAMP_AT.map(|at| fault(&format!("stamp {at}"))));
    kinds.extend(STAMP_AT[1..].iter().map(|at| fault(&format!("{LONGEST}, stamp {at}"))));
    for what in [PLACES, STAMPS] {
        kinds.extend([PLACES, STAMPS].map(|other| unseen(&format!("{other} behind {what}"))));
        kinds.push(unseen(&format!("{what}, {NO_LINK}")));
    }
    kinds.push(unseen(BEHIND_LOCK));
    kinds.extend(SOUND.map(sound));
    kinds
}

/// How many inspections a chain decided, by what was wrong with it.
pub fn told(kinds: &BTreeMap<String, u64>) -> String {
    let counts = [PLACES, STAMPS, BOTH].map(|what| format!("{what} {}", kinds.get(&fault(what)).unwrap_or(&0)));
    counts.join(", ")
}
