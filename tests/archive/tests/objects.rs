//! The comparison can fail: stores with one slip each stand in for the archive, and each is told. Nothing is linked.

mod twin;

use archive_tests::cases::{self, Case};
use archive_tests::expected::perform;
use archive_tests::fence::Side;
use archive_tests::history::history;
use archive_tests::interface::Interface;
use archive_tests::met::Met;
use archive_tests::run::{Failure, Run, ENOUGH, ROUND};
use archive_tests::subject::Subject;
use archive_tests::words::{Part, Words, NODES_MADE, VERSIONS_HELD};
use archive_tests::{sizes, unknown, watch};
use std::process::Command;
use store_tests::broken;
use store_tests::damage::{case, Operation};
use store_tests::generate::live_store;
use twin::chains::Pass;
use twin::tops::Count;
use twin::{Slip, SLIP, TWIN};

/// The first seeds with a twin that has this slip.
fn run(slip: Slip, seeds: u64) -> (Result<(), Failure>, Met) {
    SLIP.set(slip);
    let mut run = Run::new(&TWIN);
    let result = (0..seeds).try_for_each(|seed| run.seed(seed));
    SLIP.set(Slip::None);
    (result, run.met)
}

#[test]
fn without_a_slip_nothing_differs_and_everything_is_met() {
    let (result, met) = run(Slip::None, ENOUGH);
    println!("{met}");
    assert!(result.is_ok(), "{}", result.unwrap_err());
    assert_eq!(met.complete(), Ok(()));
}

#[test]
fn a_short_run_has_not_met_everything() {
    let (_, met) = run(Slip::None, 64);
    assert!(met.complete().is_err());
}

#[test]
fn every_slip_is_told() {
    let mut slips = vec![
        (Slip::Number, "number returned"),
        (Slip::AnswerLeft, "answer"),
        (Slip::RefusedCounts, "state"),
        (Slip::OthersMadeKnown, "state"),
        (Slip::AllTested, "number returned"),
        (Slip::ShortLengths, "number returned"),
        (Slip::RefusedOpenKeeps, "state"),
        (Slip::Word(Part::State, 0), "state"),
        (Slip::Word(Part::State, 176), "state"),
        (Slip::HalvesSwapped, "state"),
        (Slip::LastLost, "number returned"),
        (Slip::LastSwapped, "state"),
        (Slip::ShownSwapped, "answer"),
        (Slip::ShortKeys, "number returned"),
        (Slip::Word(Part::Nodes, 31), "node table"),
        (Slip::Word(Part::Versions, 5), "reading table"),
        (Slip::Word(Part::Tally, 6), "tally"),
        (Slip::Beside(Part::State), "outside the state"),
        (Slip::Beside(Part::Nodes), "outside the node table"),
        (Slip::Beside(Part::Versions), "outside the reading table"),
        (Slip::Beside(Part::Tally), "outside the tally"),
    ];
    slips.extend((0..8).map(|word| (Slip::Answer(word), "answer")));
    for (slip, part) in slips {
        let (result, _) = run(slip, ENOUGH);
        let failure = result.expect_err(&format!("{slip:?} is not seen"));
        println!("{slip:?}: {failure}");
        assert_eq!(failure.difference.part, part, "{slip:?}");
    }
}

#[test]
fn every_broken_model_is_told() {
    for slip in broken::Slip::all() {
        SLIP.set(Slip::Model(slip));
        let mut run = Run::new(&TWIN);
        let failure = (0..300).find_map(|seed| history(&mut run, seed, false).err());
        println!("{slip:?}: {}", failure.unwrap_or_else(|| panic!("{slip:?} is not seen")));
    }
    SLIP.set(Slip::None);
}

/// One plan alone, so many of its seeds: what tells a slip, if anything does.
fn told_by(plan: fn(u64) -> Vec<Case>, seeds: u64, slip: Slip) -> Option<Failure> {
    SLIP.set(slip);
    let mut run = Run::new(&TWIN);
    let failure = (0..seeds).find_map(|seed| run.cases(plan(seed)).err());
    SLIP.set(Slip::None);
    failure
}

// The seeds of two plans in a run that is enough.
const SEEDS_OF_CHAINS: u64 = 100;
const SEEDS_OF_TABLES: u64 = 250;

#[test]
fn every_pass_gone_wrong_is_told_by_the_plan_of_chains() {
    for pass in Pass::WRONG {
        let failure = told_by(cases::chains, SEEDS_OF_CHAINS, Slip::Pass(pass));
        println!("{pass:?}: {}", failure.unwrap_or_else(|| panic!("{pass:?} is not seen")));
    }
}

#[test]
fn every_count_gone_wrong_is_told_by_the_plan_of_tables() {
    for count in Count::WRONG {
        let failure = told_by(cases::tables, SEEDS_OF_TABLES / 10, Slip::Count(count));
        println!("{count:?}: {}", failure.unwrap_or_else(|| panic!("{count:?} is not seen")));
    }
}

/// Of the inspections of chains each tenth, and no other, finds all words in use as they were made.
#[test]
fn a_tenth_of_the_plan_of_chains_alters_nothing_in_use() {
    fn in_use(words: &Words) -> [&[u32]; 3] {
        let [nodes, versions] = [NODES_MADE, VERSIONS_HELD].map(|count| words.state_word(count) as usize + 1);
        [words.state(), &words.part(Part::Nodes)[..16 * nodes], &words.part(Part::Versions)[3..3 * versions]]
    }
    for seed in 0..200 {
        let inspections = cases::chains(seed);
        for (number, case) in inspections.iter().enumerate() {
            let same = in_use(&case.words) == in_use(&inspections[0].words);
            assert_eq!(same, number % 10 == 0, "seed {seed}, inspection {number}");
        }
    }
}

/// One pass that is right gives the answers of the model's two.
#[test]
fn one_pass_answers_as_two() {
    assert!(told_by(cases::chains, SEEDS_OF_CHAINS, Slip::Pass(Pass::Right)).is_none());
    let (result, _) = run(Slip::Pass(Pass::Right), 10 * ROUND);
    assert!(result.is_ok(), "{}", result.unwrap_err());
}

/// One count of all levels that is right gives the answers of the model, which counts each level anew.
#[test]
fn one_count_answers_as_one_a_level() {
    assert!(told_by(cases::tables, SEEDS_OF_TABLES, Slip::Count(Count::Right)).is_none());
    let (result, _) = run(Slip::Count(Count::Right), 10 * ROUND);
    assert!(result.is_ok(), "{}", result.unwrap_err());
}

/// Each word of what is expected, flipped alone, is the one that the comparison tells.
#[test]
fn every_flipped_word_is_told() {
    let mut subject = Subject::new(&TWIN);
    for seed in 0..12 {
        let mut words = Words::of(case(4 * seed + 3).store);
        let operation = Operation::Step { process: 0 };
        subject.lend(&words, None, seed);
        let outcome = perform(&mut words, None, operation);
        let number = subject.call(operation, Side::End);
        assert_eq!(subject.compare(number, &outcome, &words), Ok(()));
        for at in 0..9 {
            let mut other = outcome;
            other.words[at] ^= 1 << at;
            let difference = subject.compare(number, &other, &words).expect_err("a flipped word");
            let told = if at == 0 { ("number returned", 0) } else { ("answer", at as isize - 1) };
            assert_eq!((difference.part.as_str(), difference.index), told);
        }
        for part in Part::ALL {
            for at in 0..words.part(part).len() {
                words.part_mut(part)[at] ^= 1 << (at % 32);
                let difference = subject.compare(number, &outcome, &words).expect_err("a flipped word");
                assert_eq!((difference.part.as_str(), difference.index), (part.name(), at as isize));
                words.part_mut(part)[at] ^= 1 << (at % 32);
            }
        }
    }
}

#[test]
fn wrong_sizes_are_told() {
    unsafe extern "C" fn one_more(count: u32) -> usize {
        16 * (count as usize + 1)
    }
    assert_eq!(sizes::check(&TWIN), Ok(()));
    assert!(sizes::check(&Interface { node_words: one_more, ..TWIN }).is_err());
}

/// A number without meaning is met where it is used, and a store that looks at all stations is told.
#[test]
fn unknown_numbers_are_met_where_they_are_used() {
    assert_eq!(unknown::check(&TWIN), Ok(()));
    SLIP.set(Slip::AllTested);
    let told = unknown::check(&TWIN);
    SLIP.set(Slip::None);
    assert!(told.is_err_and(|told| told.contains("word 0 of station 1, Start")));
}

const DEADLY: [(&str, Slip, &str); 6] = [
    ("state", Slip::Guard(Part::State), "signal 11"),
    ("nodes", Slip::Guard(Part::Nodes), "signal 11"),
    ("versions", Slip::Guard(Part::Versions), "signal 11"),
    ("tally", Slip::Guard(Part::Tally), "signal 11"),
    ("const", Slip::Const, "signal 11"),
    ("abort", Slip::Abort, "signal 6"),
];

/// A guard page read, a const word written, an abort: the program ends with status 1 and tells the seed.
#[test]
fn a_call_without_an_answer_is_told() {
    let this = std::env::current_exe().expect("this test's own program");
    for (name, _, said) in DEADLY {
        let output = Command::new(&this)
            .args(["--ignored", "--exact", "dies", "--nocapture"])
            .env("SLIP", name)
            .output()
            .expect("the test runs again");
        let told = String::from_utf8_lossy(&output.stderr).into_owned();
        println!("{name}: {told}");
        assert_eq!(output.status.code(), Some(1), "{name}");
        assert!(told.contains("seed ") && told.contains(said), "{name}: {told}");
    }
}

#[test]
#[ignore = "ends its process; run by the test above"]
fn dies() {
    let wanted = std::env::var("SLIP").unwrap_or_default();
    let (_, slip, _) = DEADLY.into_iter().find(|(name, ..)| *name == wanted).expect("a slip's name");
    watch::begin();
    let _ = run(slip, 64);
}

/// An answer in a longer buffer than it needs would be no test: each call is lent exactly its own words.
#[test]
fn a_live_store_answers_in_guarded_memory() {
    let mut subject = Subject::new(&TWIN);
    let mut words = Words::of(live_store(7));
    subject.lend(&words, None, 1);
    for side in [Side::Start, Side::End] {
        let outcome = perform(&mut words, None, Operation::Inspect);
        let number = subject.call(Operation::Inspect, side);
        assert_eq!(subject.compare(number, &outcome, &words), Ok(()));
    }
}
