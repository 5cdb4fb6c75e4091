//! Altered memory: the model answers on everything and never panics (overflow and bounds are checked in all builds).

use std::collections::BTreeMap;
use store_tests::damage::{case, other_garbage, Operation, Reply};
use store_tests::model::{Answer, Kind, Phase, Refusal, State, Step, Store};

const CASES: u64 = 120_000;

#[test]
fn every_case_is_answered_and_refusals_change_nothing() {
    let mut replies: BTreeMap<String, u64> = BTreeMap::new();
    for seed in 0..CASES {
        let case = case(seed);
        let mut store = case.store.clone();
        let reply = case.operation.perform(&mut store);
        let refused_open = matches!((case.operation, reply), (Operation::Open { .. }, Reply::Refused(_)));
        if refused_open {
            assert_eq!(store, Store { state: State::CLOSED, ..case.store }, "seed {seed}");
        } else if let Reply::Refused(_) = reply {
            assert_eq!(store, case.store, "seed {seed}");
        }
        *replies.entry(name(reply)).or_default() += 1;
    }
    println!("{replies:?}");
    for number in (1..=13).chain([17]) {
        assert!(replies.contains_key(&format!("refused {number}")), "refusal {number} never given");
    }
}

/// What the altered steps of scans, and those in their phase, come to.
#[test]
fn scans_are_met() {
    let mut met: BTreeMap<&str, u64> = BTreeMap::new();
    for seed in 0..CASES / 2 {
        let case = case(seed);
        let Operation::Step { process } = case.operation else { continue };
        let Some(&call) = case.store.state.process.get(process as usize) else { continue };
        let follows = follows(&case.store, process);
        let name = match (call.kind, case.operation.perform(&mut case.store.clone())) {
            (Kind::Scan, Reply::Stepped(Step::Shown { .. })) if call.level > 0 => "shown, level above 0",
            (Kind::Scan, Reply::Stepped(Step::Shown { .. })) => "shown",
            (Kind::Scan, Reply::Stepped(Step::On(_))) if follows && call.key > call.last => "passed, first above last",
            (Kind::Scan, Reply::Stepped(Step::On(_))) if follows => "passed",
            (Kind::Scan, Reply::Stepped(Step::On(_))) => "walked",
            (Kind::Scan, Reply::Stepped(Step::Done(done))) if done.answer == Answer::Swept => "swept",
            (Kind::Scan, Reply::Refused(Refusal::AlteredMemory)) if call.effect != 0 => "effect tick",
            (Kind::Scan, Reply::Refused(Refusal::AlteredMemory)) if follows => "followed, 11",
            (Kind::Scan, Reply::Refused(Refusal::AlteredMemory)) => "another phase or walked, 11",
            (Kind::Put | Kind::Get, Reply::Refused(Refusal::AlteredMemory)) if follows => "another call follows, 11",
            (Kind::Put, Reply::Refused(Refusal::AlteredMemory)) if call.answer == Answer::Swept => "put swept, 11",
            _ => continue,
        };
        *met.entry(name).or_default() += 1;
    }
    println!("{met:?}");
    assert!(met.len() == 11 && met.values().all(|&count| count > 20), "{met:?}");
}

fn name(reply: Reply) -> String {
    match reply {
        Reply::Refused(refusal) => format!("refused {}", refusal.number()),
        reply => format!("{reply:?}").split(|c: char| !c.is_alphabetic()).next().unwrap_or("").to_string(),
    }
}

/// Nodes and places not in use, and place 0, have no part in any reply, state or word in use.
#[test]
fn unused_words_have_no_influence() {
    for seed in 0..CASES / 4 {
        let one = case(seed);
        let other = other_garbage(&one, seed + 1);
        let (mut left, mut right) = (one.store.clone(), other.store.clone());
        let reply = one.operation.perform(&mut left);
        assert_eq!(reply, other.operation.perform(&mut right), "seed {seed}");
        assert_eq!((&left.state, &left.tally), (&right.state, &right.tally), "seed {seed}");
        if reply != Reply::Refused(Refusal::AlteredState) {
            assert_eq!(used(&left), used(&right), "seed {seed}");
        }
    }
}

/// The words in use of both tables, if they are long enough; what was filled by this call is in use now.
fn used(store: &Store) -> (Option<&[u32]>, Option<&[u32]>) {
    let State { nodes, versions, .. } = store.state;
    (store.node_table.get(..16 * (nodes as usize + 1)), store.version_table.get(3..3 * (versions as usize + 1)))
}

/// Many steps, looks and inspections hang on word 3 of a node: without it they reply something else.
#[test]
fn high_halves_are_met() {
    let mut met: BTreeMap<&str, u64> = BTreeMap::new();
    for seed in 0..CASES {
        let case = case(seed);
        let (mut store, mut low) = (case.store.clone(), case.store.clone());
        low.node_table.iter_mut().skip(3).step_by(16).for_each(|high| *high = 0);
        let replies = [case.operation.perform(&mut store), case.operation.perform(&mut low)];
        let differ = replies[0] != replies[1];
        let name = match case.operation {
            Operation::Step { process } if follows(&case.store, process) => {
                if outcome(replies[0]) == outcome(replies[1]) {
                    continue;
                }
                "follow"
            }
            Operation::Step { .. } if differ || store.state != low.state => "step",
            Operation::Look { .. } if differ => "look",
            Operation::Inspect if differ => "inspect",
            _ => continue,
        };
        *met.entry(name).or_default() += 1;
    }
    println!("{met:?}");
    assert!(met.len() == 4 && met.values().all(|&count| count > 200), "{met:?}");
}

fn follows(store: &Store, process: u32) -> bool {
    store.state.process.get(process as usize).is_some_and(|call| call.phase == Phase::Follow)
}

/// Whether a step went on, showed, finished or was refused; not the key that it showed, which has a high half itself.
fn outcome(reply: Reply) -> [u32; 2] {
    let words = reply.words();
    [words[0], words[1]]
}

#[test]
fn states_go_through_words_and_back() {
    for seed in 0..2_000 {
        let state = case(seed).store.state;
        assert_eq!(State::from_words(&state.to_words()), Some(state), "seed {seed}");
    }
    assert_eq!(State::from_words(&[]), None);
}

#[test]
fn a_seed_gives_one_case() {
    for seed in 0..200 {
        assert_eq!(case(seed), case(seed));
    }
}
