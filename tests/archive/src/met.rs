//! What the calls met: every refusal that the documents allow a call, with its causes where they are told apart, and
//! every kind of answer. A run that leaves one out has shown too little.

mod chains;
mod keys;
mod scans;
mod tops;

use crate::expected::{unknown_beside, Flaw, Outcome};
use crate::words::{Part, Words, PHASE};
use chains::chain_kinds;
use keys::key_kinds;
use scans::scan_kinds;
use std::collections::{BTreeMap, BTreeSet};
use std::fmt;
use store_tests::damage::Operation;
use store_tests::model::{Call, COUNTS, MAX_LIMIT};
use tops::top_kinds;

const PHASES: [&str; 10] = ["walk", "read", "seek", "lock", "check", "update", "make", "link", "release", "follow"];
const ANSWERS: [&str; 8] = ["too-old", "readings-full", "added", "trays-full", "new", "found", "none", "swept"];
const KINDS: [&str; 4] = ["idle", "put", "get", "sweep"];
// What a step did, as word 1 of an outcome says it.
const ON: u32 = 0;
const WAIT: u32 = 1;
const DONE: u32 = 2;
const SHOWN: u32 = 3;
/// The refusals of each call; an open's 10 is a state of another length.
const REFUSALS: [(&str, &[u32]); 8] = [
    ("open", &[1, 2, 3, 4, 10]),
    ("start-put", &[5, 6, 7, 9, 10]),
    ("start-get", &[5, 6, 7, 9, 10]),
    ("start-sweep", &[5, 6, 7, 9, 10, 17]),
    ("step", &[5, 8, 9, 10, 11]),
    ("look", &[6, 10, 11, 12, 13]),
    ("inspect", &[7, 10]),
    ("standing", &[5, 10]),
];

pub fn name(operation: Operation) -> &'static str {
    match operation {
        Operation::Open { .. } => "open",
        Operation::Start { call: Call::Put { .. }, .. } => "start-put",
        Operation::Start { call: Call::Get { .. }, .. } => "start-get",
        Operation::Start { call: Call::Scan { .. }, .. } => "start-sweep",
        Operation::Step { .. } => "step",
        Operation::Look { .. } => "look",
        Operation::Inspect => "inspect",
        Operation::Status { .. } => "standing",
    }
}

/// Causes of refusal 10 in words that are a state, in the order in which they are looked for.
fn ten(words: &Words) -> &'static str {
    let [opened, processes, limit, events, node_words, version_words, nodes, versions] =
        [1, 2, 3, 4, 5, 6, 7, 8].map(|at| words.state_word(at));
    let unlike = |length: u32, part: Part| words.part(part).len() != length as usize;
    let causes = [
        (opened == 0, "closed"),
        (processes == 0 || processes > 8, "stations"),
        (limit == 0 || limit > MAX_LIMIT, "limit"),
        (node_words % 16 != 0 || !(32..=16_384).contains(&node_words), "node words"),
        (version_words % 3 != 0 || !(6..=12_288).contains(&version_words), "reading words"),
        (nodes >= node_words / 16, "trays made"),
        (versions >= version_words / 3, "readings held"),
        (events > limit, "events"),
        (unlike(node_words, Part::Nodes), "node table unlike"),
        (unlike(version_words, Part::Versions), "reading table unlike"),
        (words.part(Part::Tally).len() != 7, "tally length"),
    ];
    causes.iter().find(|(holds, _)| *holds).map_or("wide length", |(_, cause)| cause)
}

const OF_STATE: [&str; 8] =
    ["closed", "stations", "limit", "node words", "reading words", "trays made", "readings held", "events"];
const OF_TABLES: [&str; 3] = ["node table unlike", "reading table unlike", "wide length"];

/// What a call meets and may have altered when it is done.
#[derive(Default)]
pub struct Before {
    phase: u32,
    tally: Vec<u32>,
    keys: keys::Before,
    scan: scans::Before,
}

impl Before {
    pub fn of(words: &Words, operation: Operation) -> Before {
        let Operation::Step { process } = operation else { return Before::default() };
        let phase = words.process_word(process, PHASE);
        let (keys, scan) = (keys::Before::of(words, process), scans::Before::of(words, process));
        Before { phase, tally: words.part(Part::Tally).to_vec(), keys, scan }
    }

    fn phase(&self) -> &'static str {
        PHASES.get(self.phase as usize).unwrap_or(&"")
    }

    /// Did a finished call meet a count that grows no more?
    fn counted_out(&self, outcome: &Outcome) -> bool {
        let [number, what, _, _, answer, ..] = outcome.words;
        number == 0 && what == DONE && self.tally.get(answer as usize) == Some(&u32::MAX)
    }
}

/// The kind of a call's outcome.
fn kind(phase: &str, words: &Words, operation: Operation, outcome: &Outcome) -> String {
    let name = name(operation);
    let [number, first, second, _, answer, ..] = outcome.words;
    match (number, operation) {
        (10, _) => match outcome.flaw {
            Some(flaw) => format!("{name} 10 {flaw:?}"),
            None => format!("{name} 10 {}", ten(words)),
        },
        (11, Operation::Step { .. }) => format!("{name} 11 {phase}"),
        (0, Operation::Step { .. }) => match first {
            DONE => format!("{name} 0 done {} {phase}", ANSWERS[answer as usize]),
            ON => format!("{name} 0 on {phase}"),
            WAIT => format!("{name} 0 wait {phase}"),
            _ => format!("{name} 0 shown {phase}"),
        },
        (0, Operation::Inspect) if first == 1 => format!("{name} 0 fault {second}"),
        (0, Operation::Status { .. }) => format!("{name} 0 {}", KINDS[first as usize]),
        _ => format!("{name} {number}"),
    }
}

/// All kinds that can be met.
fn possible() -> BTreeSet<String> {
    let mut kinds = BTreeSet::new();
    for (name, refusals) in REFUSALS {
        let plain = refusals.iter().filter(|&&number| number != 10 && (number != 11 || name != "step"));
        kinds.extend(plain.map(|number| format!("{name} {number}")));
        kinds.extend(causes(name).iter().map(|cause| format!("{name} 10 {cause}")));
    }
    kinds.extend(["open 0", "start-put 0", "start-get 0", "start-sweep 0", "look 0", "inspect 0"].map(String::from));
    kinds.extend((0..6).map(|level| format!("inspect 0 fault {level}")));
    kinds.extend(KINDS.map(|kind| format!("standing 0 {kind}")));
    kinds.extend(PHASES.map(|phase| format!("step 11 {phase}")));
    let on = PHASES.iter().filter(|&&phase| phase != "read");
    kinds.extend(on.map(|phase| format!("step 0 on {phase}")));
    kinds.extend(ANSWERS[..5].iter().map(|answer| format!("step 0 done {answer} release")));
    kinds.extend(["step 0 wait lock", "step 0 done found read", "step 0 done none walk"].map(String::from));
    kinds.extend(["step 0 shown follow", "step 0 done swept follow"].map(String::from));
    kinds.extend(ANSWERS[..COUNTS].iter().map(|answer| format!("step 0 {answer} at the last count")));
    for (name, refusals) in &REFUSALS[1..] {
        let others = refusals.iter().filter(|&&number| number != 10);
        kinds.extend([0].iter().chain(others).map(|number| format!("{name} {number} beside unknown numbers")));
    }
    kinds.extend(keys::possible());
    kinds.extend(scans::possible());
    kinds.extend(chains::possible());
    kinds.extend(tops::possible());
    kinds
}

fn causes(name: &str) -> Vec<String> {
    let flaws = Flaw::ALL.iter().map(|flaw| format!("{flaw:?}"));
    let of_state = OF_STATE.iter().map(|cause| cause.to_string());
    let of_tables = OF_TABLES.iter().map(|cause| cause.to_string());
    match name {
        "open" => flaws.take(1).collect(),
        "standing" => flaws.chain(of_state).collect(),
        "look" => flaws.take(3).chain(of_state).chain(of_tables).collect(),
        "step" => flaws.chain(of_state).chain(of_tables).chain(["tally length".to_string()]).collect(),
        _ => flaws.chain(of_state).chain(of_tables).collect(),
    }
}

/// Counts of all calls by kind, and by name and number returned.
pub struct Met {
    pub kinds: BTreeMap<String, u64>,
    numbers: BTreeMap<(&'static str, u32), u64>,
}

impl Default for Met {
    fn default() -> Met {
        Met { kinds: possible().into_iter().map(|kind| (kind, 0)).collect(), numbers: BTreeMap::new() }
    }
}

impl Met {
    /// Counts a call of a plan; `words` are from behind it.
    pub fn count(&mut self, plan: &str, before: &Before, words: &Words, operation: Operation, outcome: &Outcome) {
        let number = outcome.words[0];
        *self.numbers.entry((name(operation), number)).or_default() += 1;
        self.add(kind(before.phase(), words, operation, outcome));
        key_kinds(before, words, operation, outcome).into_iter().for_each(|kind| self.add(kind));
        scan_kinds(plan, before, operation, outcome).into_iter().for_each(|kind| self.add(kind));
        chain_kinds(words, operation, outcome).into_iter().for_each(|kind| self.add(kind));
        top_kinds(words, operation, outcome).into_iter().for_each(|kind| self.add(kind));
        if number != 10 && unknown_beside(words.state(), operation) {
            self.add(format!("{} {number} beside unknown numbers", name(operation)));
        }
        if matches!(operation, Operation::Step { .. }) && before.counted_out(outcome) {
            self.add(format!("step 0 {} at the last count", ANSWERS[outcome.words[4] as usize]));
        }
    }

    fn add(&mut self, kind: String) {
        *self.kinds.entry(kind).or_default() += 1;
    }

    /// The kinds that never occurred.
    pub fn missing(&self) -> Vec<&str> {
        self.kinds.iter().filter(|(_, &count)| count == 0).map(|(kind, _)| kind.as_str()).collect()
    }

    /// Was everything met that can be, and nothing else?
    pub fn complete(&self) -> Result<(), String> {
        let (missing, impossible) = (self.missing(), self.impossible());
        if missing.is_empty() && impossible.is_empty() {
            return Ok(());
        }
        Err(format!("never met: {missing:?}; met, though it should not be: {impossible:?}"))
    }

    /// The kinds that should not occur at all.
    fn impossible(&self) -> Vec<&str> {
        let possible = possible();
        self.kinds.keys().filter(|kind| !possible.contains(*kind)).map(String::as_str).collect()
    }
}

impl fmt::Display for Met {
    fn fmt(&self, f: &mut fmt::Formatter) -> fmt::Result {
        for (name, refusals) in REFUSALS {
            let count = |number: u32| self.numbers.get(&(name, number)).copied().unwrap_or(0);
            write!(f, "{name:>11}: {} given; refused", count(0))?;
            for &number in refusals {
                write!(f, " {number}: {},", count(number))?;
            }
            writeln!(f)?;
        }
        writeln!(f, "inspections that a chain decides: {}", chains::told(&self.kinds))?;
        write!(f, "{} of {} kinds met", self.kinds.len() - self.missing().len(), self.kinds.len())
    }
}
