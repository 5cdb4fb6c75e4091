//! Calls in a row on one store: the state is carried in the lent words, and every call is compared.

use crate::cases::{self, Case};
use crate::run::{Failure, Run};
use crate::words::*;
use store_tests::damage::Operation;
use store_tests::generate::{any_call, call};
use store_tests::ledger::Opening;
use store_tests::model::{key_of_halves, Call, FIRST_KEY, LAST_KEY, LEVELS, MAX_LIMIT};
use store_tests::random::Random;

/// One store and the run that it is compared in.
struct Story<'r, 'a> {
    run: &'r mut Run<'a>,
    random: Random,
    words: Words,
    processes: u32,
    /// How many keys the calls choose from.
    pool: u32,
}

/// A history of starts, steps, looks, inspections and standings, some refused. `altered`: with words altered in the
/// middle.
pub fn history(run: &mut Run, seed: u64, altered: bool) -> Result<(), Failure> {
    let mut random = Random::new(seed ^ if altered { 0xA17E_0000 } else { 0x4157_0000 });
    let processes = random.pick(&[1, 2, 3, 8, 8, 8]);
    let opening = Opening {
        keys: random.pick(&[1, 2, 4, 6, 30]),
        versions: random.pick(&[1, 3, 8, 14, 60]),
        processes,
        limit: if random.once_in(4) { random.within(1, 300) } else { MAX_LIMIT },
    };
    let mut story = Story::open(run, random, opening)?;
    if story.random.once_in(2) {
        story.let_pass()?;
    }
    let mut favourite = 0;
    for _ in 0..story.random.within(100, 600) {
        if story.random.once_in(5) {
            favourite = story.random.below(processes);
        }
        story.turn(favourite)?;
        if altered && story.random.once_in(30) {
            story.alter();
        }
    }
    if altered {
        return Ok(());
    }
    story.finish()?;
    story.survey()
}

impl<'r, 'a> Story<'r, 'a> {
    /// Opens a store on words that hold anything: an open reads none of them. Some counts of the tally are near the
    /// last number, or at it, and have to stay there.
    fn open(run: &'r mut Run<'a>, mut random: Random, opening: Opening) -> Result<Self, Failure> {
        let Opening { keys, versions, processes, limit } = opening;
        let lengths = [STATE, 16 * (keys as usize + 1), 3 * (versions as usize + 1), 7];
        let mut words = Words(lengths.map(|length| (0..length).map(|_| random.word()).collect()));
        words.part_mut(Part::Tally).fill_with(|| random.pick(&[0, 0, u32::MAX - 2, u32::MAX]));
        run.lend(&words, None);
        let mut story = Story { run, random, words, processes, pool: keys + 2 };
        story.call(Operation::Open { processes, limit })?;
        Ok(story)
    }

    fn call(&mut self, operation: Operation) -> Result<u32, Failure> {
        self.run.call(&mut self.words, None, operation).map(|outcome| outcome.words[0])
    }

    /// On a fresh store: a scan walks, another process puts a key below its first, and the scan passes it. That seldom
    /// comes about by itself.
    fn let_pass(&mut self) -> Result<(), Failure> {
        let first = call(&mut self.random, self.pool).key().max(FIRST_KEY + 1);
        let put = Call::Put { key: first - 1, value: self.random.word(), timestamp: 1_000, draw: 1 };
        self.call(Operation::Start { process: 0, call: Call::Scan { first, last: LAST_KEY } })?;
        for _ in 0..LEVELS {
            self.call(Operation::Step { process: 0 })?;
        }
        self.call(Operation::Start { process: 1, call: put })?;
        while self.words.is_running(1) && self.call(Operation::Step { process: 1 })? == 0 {}
        self.call(Operation::Step { process: 0 })?;
        Ok(())
    }

    /// One call: mostly the next move of a process, the favourite or another.
    fn turn(&mut self, favourite: u32) -> Result<u32, Failure> {
        let process = if self.random.once_in(3) { self.random.below(self.processes) } else { favourite };
        let passed_over = self.words.lingers(process) && !self.random.once_in(8);
        let process = if passed_over { self.random.below(self.processes) } else { process };
        let operation = match self.random.below(40) {
            0..=2 => Operation::Look { key: call(&mut self.random, self.pool).key(), back: self.random.below(4) },
            3 => cases::operation(&mut self.random, &self.words, None),
            4 => Operation::Inspect,
            5 => Operation::Status { process: self.random.below(9) },
            _ if self.words.is_running(process) => Operation::Step { process },
            _ => Operation::Start { process, call: any_call(&mut self.random, self.pool) },
        };
        self.call(operation)
    }

    /// One word altered on both sides, mostly to a small number; often the head is put right behind it.
    fn alter(&mut self) {
        let part = self.random.pick(&[Part::State, Part::State, Part::Nodes, Part::Nodes, Part::Versions, Part::Tally]);
        let at = self.random.below(self.words.part(part).len() as u32) as usize;
        let to = match self.random.below(8) {
            0 => self.random.word(),
            1 => self.words.state_word(NODES_MADE).wrapping_add(self.random.below(2)),
            2 => u32::MAX - self.random.below(2),
            _ => self.random.below(7),
        };
        self.set(part, at, to);
        if part == Part::State && self.random.once_in(2) {
            self.repair();
        }
    }

    /// Makes the head lawful and every number known, so that what follows is not refusal 10 alone.
    fn repair(&mut self) {
        let node_words = self.words.part(Part::Nodes).len() as u32;
        let version_words = self.words.part(Part::Versions).len() as u32;
        let nodes = self.words.state_word(NODES_MADE).min(node_words / 16 - 1);
        let versions = self.words.state_word(VERSIONS_HELD).min(version_words / 3 - 1);
        let head = [LAYOUT, 1, self.processes, MAX_LIMIT, 100, node_words, version_words, nodes, versions];
        head.iter().enumerate().for_each(|(at, &to)| self.set(Part::State, at, to));
        for process in 0..8 {
            for (word, greatest) in NUMBERS {
                let at = words_of(process).start + word;
                let known = self.words.state_word(at).min(greatest);
                self.set(Part::State, at, known);
            }
        }
    }

    fn set(&mut self, part: Part, at: usize, to: u32) {
        self.words.part_mut(part)[at] = to;
        self.run.subject.set(part, at, to);
    }

    /// Steps round and round until no process has a call or none can step.
    fn finish(&mut self) -> Result<(), Failure> {
        for _ in 0..5_000 {
            let running: Vec<u32> = (0..self.processes).filter(|&process| self.words.is_running(process)).collect();
            let mut moved = false;
            for process in running {
                moved |= self.call(Operation::Step { process })? == 0;
            }
            if !moved {
                return Ok(());
            }
        }
        Ok(())
    }

    /// Asks everything that can be asked without an event.
    fn survey(&mut self) -> Result<(), Failure> {
        self.call(Operation::Inspect)?;
        for process in 0..9 {
            self.call(Operation::Status { process })?;
        }
        for node in 1..=self.words.state_word(NODES_MADE).min(20) {
            let key = self.words.node_key(node);
            for back in [0, 1, 5, 4_094, u32::MAX] {
                self.call(Operation::Look { key, back })?;
            }
        }
        Ok(())
    }
}

/// Once in so many fills the most trays, and once the most readings.
const LARGEST: u64 = 100;
/// Sweeps beside the puts of a fill; each may go over all of it.
const SWEEPS: u32 = 6;

/// A store filled with trays, then with readings, by all its processes at once, beside some sweeps, and some puts more
/// that find it full; then a sweep of all, and single calls on the full store with some words altered.
pub fn fill(run: &mut Run, seed: u64) -> Result<(), Failure> {
    let mut random = Random::new(seed ^ 0xF111_0000);
    let (keys, versions, processes) = match seed % LARGEST {
        20 => (1_023, 1_100, 8),
        // More processes would mostly wait for each other.
        40 => (2, 4_095, 2),
        _ => (random.within(1, 12), random.within(1, 40), random.within(1, 8)),
    };
    let mut story = Story::open(run, random, Opening { keys, versions, processes, limit: MAX_LIMIT })?;
    let row = Row { fresh: keys + 2, order: story.random.below(3) };
    let (mut puts, mut sweeps, mut too_many) = (0, 0, 0);
    while too_many < 12 {
        let process = story.random.below(processes);
        if story.words.is_running(process) {
            if !story.words.lingers(process) || story.random.once_in(6) {
                story.call(Operation::Step { process })?;
            }
        } else if sweeps < SWEEPS && story.random.once_in(3) {
            sweeps += 1;
            let call = row.scan(&mut story.random);
            story.call(Operation::Start { process, call })?;
        } else {
            let call = row.put(&mut story.random, puts);
            story.call(Operation::Start { process, call })?;
            puts += 1;
            too_many += u32::from(story.words.state_word(VERSIONS_HELD) == versions);
        }
    }
    story.finish()?;
    story.call(Operation::Start { process: 0, call: Call::Scan { first: FIRST_KEY, last: LAST_KEY } })?;
    story.finish()?;
    story.survey()?;
    story.on_full()
}

/// The trays of a fill: so many, in a rising, falling or mixed order.
struct Row {
    fresh: u32,
    order: u32,
}

impl Row {
    fn key(&self, place: u32) -> u64 {
        match self.order {
            0 => place.into(),
            // Low halves of 0: only the high ones are apart.
            1 => key_of_halves(0, self.fresh + 1 - place),
            _ => u64::from(place).wrapping_mul(0x9E37_79B9_7F4A_7C15),
        }
    }

    /// The put of this number: first new keys, two too many, then further versions of three of them. Timestamps rise,
    /// but some are too old.
    fn put(&self, random: &mut Random, number: u32) -> Call {
        let place = if number < self.fresh { number + 1 } else { random.within(1, 3) };
        let timestamp = 1_000 + number - if random.once_in(16) { 20 } else { 0 };
        Call::Put { key: self.key(place), value: random.word(), timestamp, draw: random.word() as u16 }
    }

    /// From any of the keys to any other.
    fn scan(&self, random: &mut Random) -> Call {
        let (one, other) = (self.key(random.within(1, self.fresh)), self.key(random.within(1, self.fresh)));
        Call::Scan { first: one.min(other), last: one.max(other) }
    }
}

impl Story<'_, '_> {
    /// Calls on copies of the full store, each with up to three words of the tables altered.
    fn on_full(&mut self) -> Result<(), Failure> {
        let mut cases = Vec::new();
        for number in 0..40 {
            let mut words = self.words.clone();
            for _ in 0..(number % 4) {
                let part = self.random.pick(&[Part::Nodes, Part::Versions]);
                let at = self.random.below(words.part(part).len() as u32) as usize;
                words.part_mut(part)[at] = self.random.below(5_000);
            }
            let operation = cases::operation(&mut self.random, &words, None);
            cases.push(Case { words, operation, wide: None });
        }
        self.run.cases(cases)
    }
}
