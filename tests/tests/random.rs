//! Demand 3 on random histories of the model.

use store_tests::generate::recording;
use store_tests::ledger::{check, Entry};
use store_tests::meetings::{Meetings, Metered};
use store_tests::model::{Answer, Step};

const RUNS: u64 = 3_000;

#[test]
fn demand_3_on_random_histories() {
    let mut finished = [0u64; Answer::ALL.len()];
    let (mut entries, mut waits, mut idle) = (0, 0, 0);
    let mut meetings = Meetings::default();
    for seed in 0..RUNS {
        let recording = recording(seed, Metered::new);
        let history = recording.history();
        let objections = check(&history);
        assert!(objections.is_empty(), "seed {seed}: {}", objections[0]);
        entries += history.entries.len();
        idle += history.ending.verdict.is_ok() as u32;
        meetings.add(recording.machine.meetings);
        for entry in &history.entries {
            match entry {
                Entry::Step { answer: Ok(Step::Done(done)), .. } => finished[done.answer as usize] += 1,
                Entry::Step { answer: Ok(Step::Wait(_)), .. } => waits += 1,
                _ => (),
            }
        }
    }
    println!("{entries} entries, {waits} waits, {idle} idle ends, {finished:?} of {:?}; {meetings}", Answer::ALL);
    assert!(waits > 1_000 && idle > 100 && finished.iter().all(|&count| count > 1_000));
    assert_eq!(meetings.below(100), []);
}
