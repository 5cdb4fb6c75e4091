//! "Trays on the test bench", starred and not, and the printed example of document 01.

use store_tests::model::*;
use store_tests::{sheet, text};

fn opened(keys: usize, versions: usize, processes: u32, limit: u32) -> Store {
    let mut store = Store::closed(keys, versions);
    store.open(processes, limit).unwrap();
    store
}

/// Steps a process to the end of its call; answers the count of steps and the finishing answer.
fn finish(store: &mut Store, process: u32) -> (u32, Done) {
    for steps in 1.. {
        if let Step::Done(done) = store.step(process).unwrap() {
            return (steps, done);
        }
    }
    unreachable!()
}

fn put(store: &mut Store, key: u64, timestamp: u32) -> Answer {
    store.start_put(0, key, 250, timestamp, 1).unwrap();
    finish(store, 0).1.answer
}

#[test]
fn printed_example() {
    let bytes = text::write("open 2 3 1 40\nget 0 7\nsteps 0 6\nlook 7 0").unwrap();
    let printed = "open 2 3 1 40\nstart 0 1\nstep 0 2 on\nstep 0 3 on\nstep 0 4 on\nstep 0 5 on\nstep 0 6 on\n\
                   done 0 get none 0 0 1 7 7\nrefused 12\n";
    assert_eq!(sheet::run(&bytes), printed);
    let raw = b"O\0\x02\0\x03\x01\0\0\0\x28G\0\0\0\0\x07S\0S\0S\0S\0S\0S\0L\0\0\0\x07\0\0";
    assert_eq!(bytes, raw);
}

#[test]
fn draws_give_tops() {
    let tops: Vec<u32> = [1, 2, 16, 32, 32_768, 0].into_iter().map(top_of).collect();
    assert_eq!(tops, [0, 1, 4, 5, 5, 5]);
}

#[test]
fn get_on_an_empty_store_takes_six_steps() {
    let mut store = opened(2, 3, 1, 40);
    store.start_get(0, 7).unwrap();
    let (steps, done) = finish(&mut store, 0);
    let due = Done { kind: Kind::Get, answer: Answer::None, value: 0, timestamp: 0, start: 1, effect: 7, finish: 7 };
    assert_eq!((steps, done), (6, due));
}

#[test]
fn put_on_an_empty_store_takes_steps_by_its_draw() {
    for (draw, steps) in [(1, 11), (8, 26), (0, 36)] {
        let mut store = opened(2, 3, 1, 40);
        store.start_put(0, 7, 250, 100, draw).unwrap();
        let (taken, done) = finish(&mut store, 0);
        let finish = steps + 1;
        let due =
            Done { kind: Kind::Put, answer: Answer::New, value: 250, timestamp: 100, start: 1, effect: 11, finish };
        assert_eq!((taken, done), (steps, due), "draw {draw}");
        assert_eq!(store.inspect(), Ok(Verdict::Sound));
        assert_eq!(store.look(7, 0), Ok((250, 100)));
    }
}

#[test]
fn equal_timestamps_are_added_and_older_ones_not() {
    let mut store = opened(2, 5, 1, 400);
    let answers = [100, 100, 99].map(|timestamp| put(&mut store, 7, timestamp));
    assert_eq!(answers, [Answer::New, Answer::Added, Answer::TooOld]);
}

#[test]
fn full_tables_of_one() {
    let mut store = opened(1, 1, 1, 400);
    let answers = [(7, 100), (8, 100), (7, 101), (7, 99)].map(|(key, timestamp)| put(&mut store, key, timestamp));
    assert_eq!(answers, [Answer::New, Answer::TraysFull, Answer::ReadingsFull, Answer::TooOld]);
    assert_eq!(store.tally, [1, 1, 0, 1, 1, 0, 0]);
}

#[test]
fn second_process_waits_at_the_lock() {
    let mut store = opened(2, 3, 2, 40);
    store.start_put(0, 7, 1, 1, 1).unwrap();
    store.start_put(1, 9, 1, 1, 1).unwrap();
    for _ in 0..7 {
        assert!(matches!(store.step(0), Ok(Step::On(_))));
        assert!(matches!(store.step(1), Ok(Step::On(_))));
    }
    assert_eq!(store.step(0), Ok(Step::On(17)));
    let before = store.clone();
    assert_eq!(store.step(1), Ok(Step::Wait(18)));
    store.state.events -= 1;
    assert_eq!(store, before, "a wait changes only the count of events");
}

/// With room for both readings (V at least 2).
#[test]
fn two_puts_of_one_new_key() {
    for (first, second, due) in [(100, 100, Answer::Added), (100, 101, Answer::Added), (100, 99, Answer::TooOld)] {
        let mut store = opened(1, 2, 2, 100);
        store.start_put(0, 7, 1, first, 4).unwrap();
        store.start_put(1, 7, 2, second, 2).unwrap();
        let mut answers = [Answer::None; 2];
        while answers.contains(&Answer::None) {
            for process in [0, 1] {
                if let Ok(Step::Done(done)) = store.step(process) {
                    answers[process as usize] = done.answer;
                }
            }
        }
        assert_eq!(answers, [Answer::New, due]);
        assert_eq!(store.inspect(), Ok(Verdict::Sound));
    }
}

#[test]
fn outermost_keys_start() {
    for last in [4_294_967_294, 4_294_967_295, 18_446_744_073_709_551_614] {
        let mut store = opened(2, 3, 2, 40);
        assert_eq!(store.start_get(0, 1), Ok(1));
        assert_eq!(store.start_put(1, last, 1, 1, 1), Ok(2));
    }
}

#[test]
fn limit_of_one_event() {
    let mut store = opened(1, 1, 1, 1);
    assert_eq!(store.start_get(0, 5), Ok(1));
    assert_eq!(store.step(0), Err(Refusal::LimitSpent));
    assert_eq!(store.inspect(), Err(Refusal::Busy));
    assert_eq!(store.look(5, 0), Err(Refusal::NoSuchKey));
    assert_eq!(store.status(0), Ok(Status::Running { kind: Kind::Get, start: 1, effect: 0 }));
}

#[test]
fn node_record_and_links() {
    let mut store = opened(3, 3, 1, 400);
    put(&mut store, 9, 100);
    store.start_put(0, 5, 77, 3, 4).unwrap();
    finish(&mut store, 0);
    let head = [0, 0, 5, 0, 2, 2, 2, 0, 0, 0, 0, 0, 0, 0, 0, 0];
    let nine = [9, 1, 0, 0, 0, 0, 0, 0, 0, 0, 0, 0, 0, 0, 0, 0];
    let five = [5, 2, 2, 0, 1, 0, 0, 0, 0, 0, 0, 0, 0, 0, 0, 0];
    assert_eq!(store.node_table, [head, nine, five, [0; 16]].concat());
    assert_eq!(store.version_table, [0, 0, 0, 250, 100, 0, 77, 3, 0, 0, 0, 0]);
}

/// The whole process after each step of a put of 9 (top 1) behind 5 (top 2).
#[test]
fn fields_of_a_put_step_by_step() {
    let mut store = opened(3, 3, 2, 400);
    store.start_put(0, 5, 77, 3, 4).unwrap();
    let events = finish(&mut store, 0).1.finish;
    store.start_put(1, 9, 250, 100, 2).unwrap();
    let (start, kind) = (events + 1, Kind::Put);
    let begun = Process { kind, key: 9, last: 9, value: 250, timestamp: 100, top: 1, start, level: 5, ..Process::IDLE };
    assert_eq!(store.state.process[1], begun);
    let (effect, made, answer) = (start + 11, 2, Answer::New);
    let before = |phase, level, pred, preds| Process { phase, level, pred, preds, ..begun };
    let after = |phase, level| Process { effect, made, answer, ..before(phase, level, 1, [1, 1, 1, 0, 0, 0]) };
    let due = [
        before(Phase::Walk, 4, 0, [0; 6]),
        before(Phase::Walk, 3, 0, [0; 6]),
        before(Phase::Walk, 2, 0, [0; 6]),
        before(Phase::Walk, 2, 1, [0; 6]),
        before(Phase::Walk, 1, 1, [0, 0, 1, 0, 0, 0]),
        before(Phase::Walk, 0, 1, [0, 1, 1, 0, 0, 0]),
        before(Phase::Seek, 0, 1, [1, 1, 1, 0, 0, 0]),
        before(Phase::Lock, 0, 1, [1, 1, 1, 0, 0, 0]),
        before(Phase::Check, 0, 1, [1, 1, 1, 0, 0, 0]),
        before(Phase::Make, 0, 1, [1, 1, 1, 0, 0, 0]),
        after(Phase::Release, 0),
        after(Phase::Seek, 1),
        after(Phase::Lock, 1),
        after(Phase::Check, 1),
        after(Phase::Link, 1),
        after(Phase::Release, 1),
        Process::IDLE,
    ];
    for (step, due) in due.into_iter().enumerate() {
        store.step(1).unwrap();
        assert_eq!(store.state.process[1], due, "step {}", step + 1);
        let holds = matches!(due.phase, Phase::Check | Phase::Make | Phase::Link | Phase::Release);
        assert_eq!(store.node_table[16 + 10 + due.level as usize], if holds { 2 } else { 0 }, "step {}", step + 1);
    }
}
