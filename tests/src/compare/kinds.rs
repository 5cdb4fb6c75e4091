//! How many lines of each kind the sheets make the model print, and how many for each kind of key.

use crate::model::{high_half, low_half, FIRST_KEY, LAST_KEY};
use crate::sheet::{self, Command, Key};
use std::collections::BTreeMap;
use std::fmt;
use std::mem::discriminant;

/// The kind of a printed line: a refusal with its number, a step on or wait, a finished call with its answer, or the
/// line's first word.
fn kind(line: &str) -> String {
    let words: Vec<&str> = line.split(' ').collect();
    match words[0] {
        "refused" => line.to_string(),
        "step" => format!("step {}", words[3]),
        "done" => format!("done {} {}", words[2], words[3]),
        word => word.to_string(),
    }
}

/// Counts by kind, of lines and of keys. Every kind that a sheet can meet has one, be it 0.
#[derive(Clone, Debug, PartialEq, Eq)]
pub struct Kinds {
    pub lines: BTreeMap<String, u64>,
    pub keys: BTreeMap<String, u64>,
}

/// Refusals that a sheet can give. 10 and 11 need altered memory, as `fault` does, and no command alters it so.
const REFUSALS: [u32; 14] = [1, 2, 3, 4, 5, 6, 7, 8, 9, 12, 13, 14, 15, 16];
const OTHERS: [&str; 13] = [
    "open",
    "start",
    "step on",
    "step wait",
    "done put too-old",
    "done put readings-full",
    "done put added",
    "done put trays-full",
    "done put new",
    "done get found",
    "done get none",
    "look",
    "sound",
];

/// All that a sheet can print, in the order of the report.
fn possible() -> Vec<String> {
    let refusals = REFUSALS.map(|number| format!("refused {number}"));
    OTHERS.map(String::from).into_iter().chain(refusals).collect()
}

/// Commands that carry a key, by their words in a line.
const WORDS: [&str; 3] = ["put", "get", "look"];
/// A key above 32 bits, for which four bytes are too few.
const LONG: &str = "long tray";
const SHORT_IN_EIGHT: &str = "short tray in eight bytes";
const LAST_IN_FOUR: &str = "tray 4294967295 in four bytes";
const ENDS: [&str; 2] = ["first tray", "last tray"];
const MADE: [&str; 2] = ["new tray, its low half held", "new tray, its high half held"];
const OTHER_WIDTH: [&str; 2] = ["get found in the other width", "look in the other width"];

/// All kinds of keys that are to be met, in the order of the report.
fn possible_keys() -> Vec<String> {
    let mut kinds = Vec::new();
    for word in WORDS {
        let carried = [LONG, SHORT_IN_EIGHT, LAST_IN_FOUR].into_iter().chain(ENDS);
        kinds.extend(carried.map(|key| format!("{word}, {key}")));
        let refused = [Key::Four(0), Key::Eight(FIRST_KEY - 1), Key::Eight(LAST_KEY + 1)];
        kinds.extend(refused.map(|key| refused_6(word, key)));
    }
    let done = OTHERS.iter().filter(|line| line.starts_with("done"));
    kinds.extend(done.map(|line| format!("{line}, {LONG}")));
    kinds.extend([12, 13].map(|number| format!("look refused {number}, {LONG}")));
    kinds.extend(MADE.into_iter().chain(OTHER_WIDTH).map(String::from));
    kinds
}

fn refused_6(word: &str, key: Key) -> String {
    let bytes = if matches!(key, Key::Four(_)) { "four" } else { "eight" };
    format!("{word} refused 6, tray {} in {bytes} bytes", key.number())
}

fn is_long(key: Key) -> bool {
    high_half(key.number()) != 0
}

/// The keys of a sheet's store: those of running calls and those made, each as its command carried it.
#[derive(Default)]
struct Keys {
    running: BTreeMap<u8, Key>,
    made: BTreeMap<u64, Key>,
}

impl Keys {
    /// The kinds of keys that a command with this line has met.
    fn met(&mut self, command: Command, line: &str) -> Vec<String> {
        match command {
            Command::Open { .. } => {
                *self = Keys::default();
                vec![]
            }
            Command::Put { process, key, .. } => self.start("put", process, key, line),
            Command::Get { process, key } => self.start("get", process, key, line),
            Command::Look { key, .. } => self.look(key, line),
            Command::Step { process } if line.starts_with("done") => self.done(process, line),
            Command::Step { .. } | Command::Inspect => vec![],
        }
    }

    fn start(&mut self, word: &str, process: u8, key: Key, line: &str) -> Vec<String> {
        if line.starts_with("start") {
            self.running.insert(process, key);
        }
        carried(word, key, line).into_iter().collect()
    }

    fn look(&self, key: Key, line: &str) -> Vec<String> {
        let none = matches!(line, "refused 12" | "refused 13") && is_long(key);
        let none = none.then(|| format!("look {line}, {LONG}"));
        let other = line.starts_with("look") && self.in_other_width(key);
        let other = other.then(|| OTHER_WIDTH[1].to_string());
        carried("look", key, line).into_iter().chain(none).chain(other).collect()
    }

    fn done(&mut self, process: u8, line: &str) -> Vec<String> {
        let Some(key) = self.running.remove(&process) else { return vec![] };
        let kind = kind(line);
        let mut met = Vec::new();
        if kind == "done get found" && self.in_other_width(key) {
            met.push(OTHER_WIDTH[0].to_string());
        }
        if kind == "done put new" {
            met.extend(self.beside(key.number()));
            self.made.insert(key.number(), key);
        }
        if is_long(key) {
            met.push(format!("{kind}, {LONG}"));
        }
        met
    }

    /// Was the key made by a command of the other width?
    fn in_other_width(&self, key: Key) -> bool {
        self.made.get(&key.number()).is_some_and(|made| discriminant(made) != discriminant(&key))
    }

    /// Which halves of a new key has a key made before it?
    fn beside(&self, key: u64) -> Vec<String> {
        let halves: [fn(u64) -> u32; 2] = [low_half, high_half];
        let held = |half: fn(u64) -> u32| self.made.keys().any(|&made| half(made) == half(key));
        (0..2).filter(|&place| held(halves[place])).map(|place| MADE[place].to_string()).collect()
    }
}

/// The kind of the key in a command that was accepted or refused 6.
fn carried(word: &str, key: Key, line: &str) -> Option<String> {
    if line == "refused 6" {
        return Some(refused_6(word, key));
    }
    let of = match key {
        _ if line.starts_with("refused") => return None,
        Key::Eight(LAST_KEY) => ENDS[1],
        Key::Eight(_) if is_long(key) => LONG,
        Key::Eight(_) => SHORT_IN_EIGHT,
        Key::Four(u32::MAX) => LAST_IN_FOUR,
        Key::Four(_) if key.number() == FIRST_KEY => ENDS[0],
        Key::Four(_) => return None,
    };
    Some(format!("{word}, {of}"))
}

fn zeroes(kinds: Vec<String>) -> BTreeMap<String, u64> {
    kinds.into_iter().map(|kind| (kind, 0)).collect()
}

impl Default for Kinds {
    fn default() -> Kinds {
        Kinds { lines: zeroes(possible()), keys: zeroes(possible_keys()) }
    }
}

impl Kinds {
    /// Runs a sheet and counts what it meets.
    pub fn count(&mut self, sheet: &[u8]) {
        let mut keys = Keys::default();
        let mut rest = sheet;
        for line in sheet::run(sheet).lines() {
            *self.lines.entry(kind(line)).or_default() += 1;
            let Ok((command, behind)) = Command::decode(rest) else { return };
            rest = behind;
            for met in keys.met(command, line) {
                *self.keys.entry(met).or_default() += 1;
            }
        }
    }

    /// The kinds that never occurred.
    pub fn missing(&self) -> Vec<&str> {
        let all = self.lines.iter().chain(&self.keys);
        all.filter(|(_, &count)| count == 0).map(|(kind, _)| kind.as_str()).collect()
    }

    /// The kinds that no sheet should meet.
    pub fn impossible(&self) -> Vec<&str> {
        beyond(&self.lines, &possible()).into_iter().chain(beyond(&self.keys, &possible_keys())).collect()
    }
}

fn beyond<'a>(counts: &'a BTreeMap<String, u64>, possible: &[String]) -> Vec<&'a str> {
    counts.keys().filter(|kind| !possible.contains(kind)).map(String::as_str).collect()
}

impl fmt::Display for Kinds {
    fn fmt(&self, f: &mut fmt::Formatter) -> fmt::Result {
        for kind in possible() {
            writeln!(f, "{:>12} {kind}", self.lines[&kind])?;
        }
        writeln!(f, "keys:")?;
        for kind in possible_keys() {
            writeln!(f, "{:>12} {kind}", self.keys[&kind])?;
        }
        for kind in self.impossible() {
            writeln!(f, "{kind}: no sheet should meet it")?;
        }
        write!(f, "refused 10, refused 11 and fault cannot occur: they need altered memory")
    }
}
