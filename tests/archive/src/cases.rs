//! Single calls on altered words. Each case lends its own words; a seed gives some dozens.

mod alter;
mod arguments;
mod chains;

pub use arguments::{operation, Asked};
pub use chains::chains;

use crate::words::*;
use alter::*;
use arguments::asking;
use store_tests::damage::{self, Operation};
use store_tests::generate::live_store;
use store_tests::ledger::Opening;
use store_tests::model::Call;
use store_tests::random::Random;

#[derive(Clone, Debug)]
pub struct Case {
    pub words: Words,
    pub operation: Operation,
    /// The part lent as 2^32 words longer than it is.
    pub wide: Option<Part>,
}

/// The damage of the model's own tests, with its call and some more on the same words.
pub fn damaged(seed: u64) -> Vec<Case> {
    let damage::Case { store, operation: first } = damage::case(seed);
    let words = Words::of(store);
    let mut random = Random::new(seed ^ 0xDA3A);
    let others: Vec<Operation> = (0..11).map(|_| operation(&mut random, &words, None)).collect();
    let calls = [vec![first], others].concat();
    calls.into_iter().map(|operation| Case { words: words.clone(), operation, wide: None }).collect()
}

const ONE_WORD: u64 = 48;

/// One word of the state set to a number at an edge, in turn each word and each number.
pub fn one_word(seed: u64) -> Vec<Case> {
    let (words, mut random) = live(seed);
    let case = |number: u64| {
        let turn = seed.wrapping_mul(ONE_WORD).wrapping_add(number);
        let at = (turn % STATE as u64) as usize;
        let mut words = words.clone();
        words.part_mut(Part::State)[at] = edge(turn / STATE as u64, &words);
        let focus = at.checked_sub(HEAD).map(|at| (at / PROCESS) as u32);
        let operation = operation(&mut random, &words, focus);
        Case { words, operation, wide: None }
    };
    (0..ONE_WORD).map(case).collect()
}

const HEADS: u64 = 64;

/// One word of the head at an edge, in turn each word, each number and each call, so that every test of refusal 10 is
/// met alone and often.
pub fn heads(seed: u64) -> Vec<Case> {
    let (words, mut random) = live(seed);
    let case = |number: u64| {
        let turn = seed.wrapping_mul(HEADS).wrapping_add(number);
        let (at, turn) = ((turn % HEAD as u64) as usize, turn / HEAD as u64);
        let calls = Asked::ALL.len() as u64;
        let (asked, turn) = (Asked::ALL[(turn % calls) as usize], turn / calls);
        let mut words = words.clone();
        words.part_mut(Part::State)[at] = edge(turn, &words);
        let operation = asking(asked, &mut random, &words, None);
        Case { words, operation, wide: None }
    };
    (0..HEADS).map(case).collect()
}

/// One to three words of nodes and versions in use altered, for an inspection (mostly of an idle store), a look or a
/// step, also of a sweep that follows; at times beside unknown numbers. For a fourth of the inspections only a top, which
/// no other call reads.
pub fn tables(seed: u64) -> Vec<Case> {
    let (words, mut random) = live(seed);
    let case = |_| {
        let mut words = words.clone();
        let asked = random.pick(&[Asked::Inspect, Asked::Inspect, Asked::Look, Asked::Step, Asked::Step]);
        if asked == Asked::Inspect && random.once_in(4) {
            alter_top(&mut random, &mut words);
        } else {
            (0..random.within(1, 3)).for_each(|_| alter_table(&mut random, &mut words));
        }
        if random.once_in(4) {
            scatter_numbers(&mut random, &mut words);
        }
        if asked == Asked::Inspect && !random.once_in(8) {
            (0..8).for_each(|process| words.part_mut(Part::State)[words_of(process)][KIND] = 0);
            free_locks(&mut words);
        }
        let operation = asking(asked, &mut random, &words, None);
        match operation {
            Operation::Step { process } if process < 8 && random.once_in(2) => {
                let_follow(&mut random, &mut words, process)
            }
            _ => {}
        }
        Case { words, operation, wide: None }
    };
    (0..32).map(case).collect()
}

const DRAWS: u64 = 512;

/// A put with each draw in turn.
pub fn draws(seed: u64) -> Vec<Case> {
    let words = Words::of(Opening { keys: 2, versions: 2, processes: 8, limit: 9 }.fresh());
    let mut random = Random::new(seed);
    let case = |number: u64| {
        // An odd factor: all 65,536 in some order, near ones long after each other.
        let draw = seed.wrapping_mul(DRAWS).wrapping_add(number).wrapping_mul(40_503) as u16;
        let call = Call::Put { key: 7, value: random.word(), timestamp: random.word(), draw };
        let operation = Operation::Start { process: random.below(8), call };
        Case { words: words.clone(), operation, wide: None }
    };
    (0..DRAWS).map(case).collect()
}

/// One or two parts of another length, or one of a length that 32 bits cannot count.
pub fn lengths(seed: u64) -> Vec<Case> {
    let (words, mut random) = live(seed);
    let case = |number: u32| {
        let mut words = words.clone();
        let wide = random.once_in(4).then(|| random.pick(&Part::ALL));
        if wide.is_none() {
            relength(&mut random, &mut words, Part::ALL[number as usize % 4]);
        }
        if wide.is_none() && random.once_in(4) {
            let part = random.pick(&Part::ALL);
            relength(&mut random, &mut words, part);
        }
        let operation = operation(&mut random, &words, None);
        Case { words, operation, wide }
    };
    (0..32).map(case).collect()
}

/// Random words in the state or in the tables, wild or small, much or little of it; random kinds, phases and answers.
pub fn random_words(seed: u64) -> Vec<Case> {
    let (words, mut random) = live(seed);
    let case = |number: u32| {
        let mut words = words.clone();
        match number % 10 {
            0 => scatter(&mut random, &mut words.part_mut(Part::State)[..]),
            1 => scatter(&mut random, &mut words.part_mut(Part::State)[HEAD..]),
            2 => scatter(&mut random, &mut words.part_mut(Part::State)[1..HEAD]),
            3 => scatter(&mut random, words.part_mut(Part::Nodes)),
            4 => scatter(&mut random, words.part_mut(Part::Versions)),
            5 => scatter(&mut random, words.part_mut(Part::Tally)),
            6 => Part::ALL.iter().for_each(|&part| scatter(&mut random, words.part_mut(part))),
            _ => scatter_numbers(&mut random, &mut words),
        }
        let operation = operation(&mut random, &words, None);
        Case { words, operation, wide: None }
    };
    (0..30).map(case).collect()
}

fn live(seed: u64) -> (Words, Random) {
    (Words::of(live_store(seed)), Random::new(seed ^ 0xA17E_2ED0))
}
