//! What outcomes show of sweeps: in which plans they run, and how they follow altered links.

use super::{DONE, ON, SHOWN};
use crate::expected::Outcome;
use crate::words::{Words, KEY_OF_PROCESS, LAST_OF_PROCESS, LEVEL, NEWEST, PRED, VERSIONS_HELD};
use store_tests::damage::Operation;

/// What a step that follows meets and need not look at.
#[derive(Default)]
pub struct Before {
    /// The newest reading of the tray that p's link leads to is none or not in use.
    lost_reading: bool,
    above_level_0: bool,
    first_above_last: bool,
}

impl Before {
    pub fn of(words: &Words, process: u32) -> Before {
        let [level, pred] = [LEVEL, PRED].map(|word| words.process_word(process, word));
        let [first, last] = [KEY_OF_PROCESS, LAST_OF_PROCESS].map(|halves| words.process_key(process, halves));
        let next = words.next(pred, 0);
        let newest = words.node_word(next, NEWEST);
        let lost_reading = next != 0 && (newest == 0 || newest > words.state_word(VERSIONS_HELD));
        Before { lost_reading, above_level_0: level > 0, first_above_last: first > last }
    }
}

/// Where sweeps have to run, whatever other plans do.
const PLANS: [&str; 2] = ["histories", "fills"];
const DID: [(u32, &str); 3] = [(ON, "passed"), (DONE, "swept"), (SHOWN, "shown")];
const LOST_READING: &str = "a reading lost";
const ABOVE_LEVEL_0: &str = "level above 0";
const FIRST_ABOVE_LAST: &str = "first above last";

pub fn scan_kinds(plan: &str, before: &super::Before, operation: Operation, outcome: &Outcome) -> Vec<String> {
    let [number, what, ..] = outcome.words;
    let follows = matches!(operation, Operation::Step { .. }) && number == 0 && before.phase() == "follow";
    let Some((_, did)) = DID.iter().find(|&&(did, _)| follows && did == what) else { return vec![] };
    let altered = [
        (before.scan.lost_reading, LOST_READING),
        (before.scan.above_level_0, ABOVE_LEVEL_0),
        (before.scan.first_above_last, FIRST_ABOVE_LAST),
    ];
    let altered = altered.iter().filter(|(holds, _)| *holds).map(|(_, met)| format!("{did}, {met}"));
    let plan = PLANS.contains(&plan).then(|| format!("{did} in {plan}"));
    plan.into_iter().chain(altered).collect()
}

/// All kinds that can be met. A lost reading is never shown, and no span is shown whose first is above its last.
pub fn possible() -> Vec<String> {
    let mut kinds = Vec::new();
    for (what, did) in DID {
        kinds.extend(PLANS.map(|plan| format!("{did} in {plan}")));
        kinds.push(format!("{did}, {ABOVE_LEVEL_0}"));
        if what != SHOWN {
            kinds.extend([LOST_READING, FIRST_ABOVE_LAST].map(|met| format!("{did}, {met}")));
        }
    }
    kinds
}
