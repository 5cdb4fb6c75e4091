//! The literal checker objects to every kind of tampering with a good history.

use store_tests::ledger::{check, Aspect, Entry, History, Opening};
use store_tests::machine::Recorder;
use store_tests::model::*;

/// Process 0 puts 7 and is done; process 1 puts 7 too and has taken effect; process 2 gets and has not.
fn history() -> History {
    let opening = Opening { keys: 2, versions: 3, processes: 3, limit: 40 };
    let mut recorder = Recorder::new(opening.fresh(), opening);
    let put = |value| Call::Put { key: 7, value, timestamp: 100, draw: 1 };
    recorder.start(0, put(250)).unwrap();
    steps(&mut recorder, 0, 11);
    recorder.look(7, 0).unwrap();
    recorder.start(1, put(251)).unwrap();
    recorder.start(2, Call::Get { key: 7 }).unwrap();
    steps(&mut recorder, 1, 10);
    recorder.look(7, 1).unwrap();
    recorder.look(7, 2).unwrap_err();
    recorder.step(0).unwrap_err();
    recorder.history()
}

fn steps(recorder: &mut Recorder<Store>, process: u32, count: u32) {
    for _ in 0..count {
        recorder.step(process).unwrap();
    }
}

fn objects(tamper: fn(&mut History), aspect: Aspect) {
    objects_in(history(), tamper, aspect);
}

fn objects_in(mut history: History, tamper: fn(&mut History), aspect: Aspect) {
    assert_eq!(check(&history), []);
    tamper(&mut history);
    let objections = check(&history);
    assert!(objections.iter().any(|objection| objection.aspect == aspect), "{aspect:?} not in {objections:?}");
}

/// The finishing answer of process 0.
fn done(history: &mut History) -> &mut Done {
    let found = history.entries.iter_mut().find_map(|entry| match entry {
        Entry::Step { answer: Ok(Step::Done(done)), .. } => Some(done),
        _ => None,
    });
    found.expect("a finished call")
}

fn look(history: &mut History, place: usize) -> &mut Result<(u32, u32), Refusal> {
    let mut looks = history.entries.iter_mut().filter_map(|entry| match entry {
        Entry::Look { answer, .. } => Some(answer),
        _ => None,
    });
    looks.nth(place).expect("a look")
}

fn last_step(history: &mut History) -> &mut Entry {
    history.entries.last_mut().expect("an entry")
}

#[test]
fn ticks() {
    objects(|h| done(h).finish += 1, Aspect::Tick);
    objects(|h| h.opening.limit = 20, Aspect::Tick);
    objects(|h| h.entries[0] = h.entries[13], Aspect::Tick);
}

#[test]
fn kind_and_start_of_a_finished_call() {
    objects(|h| done(h).kind = Kind::Get, Aspect::Call);
    objects(|h| done(h).start = 2, Aspect::Call);
}

#[test]
fn effects() {
    objects(|h| done(h).effect = 1, Aspect::Effect);
    objects(|h| done(h).effect = 13, Aspect::Effect);
    objects(|h| done(h).effect = 0, Aspect::Effect);
    let running = |effect| Ok(Status::Running { kind: Kind::Put, start: 13, effect });
    assert_eq!(history().ending.statuses[1], running(24));
    objects(|h| h.ending.statuses[1] = Ok(Status::Running { kind: Kind::Put, start: 13, effect: 14 }), Aspect::Effect);
}

#[test]
fn answers_and_order() {
    objects(|h| done(h).answer = Answer::Added, Aspect::Answer);
    objects(|h| done(h).value = 1, Aspect::Answer);
    objects(|h| done(h).timestamp = 1, Aspect::Answer);
    objects(|h| h.opening.keys = 0, Aspect::Answer);
}

#[test]
fn looks() {
    objects(|h| *look(h, 0) = Ok((250, 101)), Aspect::Look);
    objects(|h| *look(h, 0) = Err(Refusal::NoSuchKey), Aspect::Look);
    objects(|h| *look(h, 1) = Ok((251, 100)), Aspect::Look);
    objects(|h| *look(h, 2) = Err(Refusal::NoSuchKey), Aspect::Look);
    objects(|h| h.ending.statuses[1] = Ok(Status::Running { kind: Kind::Put, start: 13, effect: 0 }), Aspect::Look);
}

#[test]
fn tally_and_counts() {
    objects(|h| h.ending.tally[0] += 1, Aspect::Tally);
    objects(|h| h.ending.tally[4] -= 1, Aspect::Tally);
    objects(|h| h.ending.tally.push(0), Aspect::Tally);
    objects(|h| h.ending.events += 1, Aspect::Counts);
    objects(|h| h.ending.nodes += 1, Aspect::Counts);
    objects(|h| h.ending.versions -= 1, Aspect::Counts);
}

#[test]
fn running_calls() {
    objects(|h| h.ending.statuses[2] = Ok(Status::Idle), Aspect::Running);
    objects(|h| h.ending.statuses[0] = h.ending.statuses[2], Aspect::Running);
    objects(|h| h.ending.statuses[2] = Err(Refusal::NoSuchProcess), Aspect::Running);
    objects(|h| h.ending.statuses.truncate(2), Aspect::Running);
}

#[test]
fn damage_and_soundness() {
    objects(|h| *look(h, 0) = Err(Refusal::AlteredMemory), Aspect::Damage);
    objects(|h| *last_step(h) = Entry::Step { process: 0, answer: Err(Refusal::AlteredState) }, Aspect::Damage);
    objects(|h| h.ending.verdict = Ok(Verdict::Sound), Aspect::Unsound);
    objects(|h| h.ending.verdict = Ok(Verdict::Fault { level: 0, node: 0 }), Aspect::Unsound);
}

#[test]
fn refusals() {
    objects(|h| *last_step(h) = Entry::Step { process: 0, answer: Err(Refusal::Busy) }, Aspect::Refusal);
    objects(|h| *last_step(h) = Entry::Step { process: 1, answer: Err(Refusal::LimitSpent) }, Aspect::Refusal);
    objects(|h| *last_step(h) = Entry::Step { process: 3, answer: Err(Refusal::NoCallRunning) }, Aspect::Refusal);
    let start = |answer| Entry::Start { process: 1, call: Call::Get { key: 0 }, answer };
    let mut history = history();
    for (answer, objections) in [(Err(Refusal::KeyOutOfRange), 0), (Err(Refusal::Busy), 1)] {
        *last_step(&mut history) = start(answer);
        assert_eq!(check(&history).len(), objections);
    }
}

/// Process 0 puts 5, 7 and 8; process 1 scans from 5 to 8 and is done, and while it runs 7 is put again ahead of it and
/// 6 behind it; process 2 scans from 6 on and has shown 6.
fn scan_history() -> History {
    let opening = Opening { keys: 4, versions: 6, processes: 3, limit: 400 };
    let mut recorder = Recorder::new(opening.fresh(), opening);
    let put = |recorder: &mut Recorder<Store>, key, timestamp| {
        recorder.start(0, Call::Put { key, value: 9, timestamp, draw: 1 }).unwrap();
        while recorder.is_running(0) {
            recorder.step(0).unwrap();
        }
    };
    [5, 7, 8].into_iter().for_each(|key| put(&mut recorder, key, 100));
    recorder.start(1, Call::Scan { first: 5, last: 8 }).unwrap();
    steps(&mut recorder, 1, 7);
    put(&mut recorder, 7, 101);
    steps(&mut recorder, 1, 1);
    put(&mut recorder, 6, 100);
    steps(&mut recorder, 1, 2);
    recorder.start(2, Call::Scan { first: 6, last: 9 }).unwrap();
    steps(&mut recorder, 2, 8);
    recorder.history()
}

/// What process 1 showed: 5, 7 and 8, each as the step's answer.
fn shown(history: &mut History, place: usize) -> &mut Step {
    let mut shown = history.entries.iter_mut().filter_map(|entry| match entry {
        Entry::Step { process: 1, answer: Ok(step @ Step::Shown { .. }) } => Some(step),
        _ => None,
    });
    shown.nth(place).expect("something shown")
}

fn set_shown(history: &mut History, place: usize, key: u64, value: u32, timestamp: u32) {
    let tick = shown(history, place).tick();
    *shown(history, place) = Step::Shown { tick, key, value, timestamp };
}

fn scan_done(history: &mut History) -> &mut Done {
    let mut done = history.entries.iter_mut().filter_map(|entry| match entry {
        Entry::Step { process: 1, answer: Ok(Step::Done(done)) } => Some(done),
        _ => None,
    });
    done.next().expect("a finished scan")
}

fn scan_objects(tamper: fn(&mut History), aspect: Aspect) {
    objects_in(scan_history(), tamper, aspect);
}

#[test]
fn what_a_scan_shows_is_newest_at_its_tick() {
    let mut history = scan_history();
    let due = [(5, 100), (7, 101), (8, 100)];
    for (place, (key, timestamp)) in due.into_iter().enumerate() {
        let tick = shown(&mut history, place).tick();
        assert_eq!(*shown(&mut history, place), Step::Shown { tick, key, value: 9, timestamp });
    }
    scan_objects(|h| set_shown(h, 0, 5, 8, 100), Aspect::Shown);
    scan_objects(|h| set_shown(h, 1, 7, 9, 100), Aspect::Shown);
    scan_objects(|h| set_shown(h, 0, 7, 9, 101), Aspect::Shown);
    scan_objects(|h| set_shown(h, 0, 6, 9, 100), Aspect::Shown);
}

#[test]
fn what_a_scan_shows_is_in_its_span_and_rises() {
    scan_objects(|h| set_shown(h, 2, 9, 9, 100), Aspect::Span);
    scan_objects(|h| set_shown(h, 0, 4, 9, 100), Aspect::Span);
    scan_objects(|h| set_shown(h, 2, 5, 9, 100), Aspect::Rise);
    scan_objects(|h| set_shown(h, 2, 7, 9, 101), Aspect::Rise);
}

#[test]
fn a_finished_scan_has_shown_all_that_was_held() {
    for place in 0..3 {
        let mut history = scan_history();
        let tick = shown(&mut history, place).tick();
        *shown(&mut history, place) = Step::On(tick);
        let aspects: Vec<Aspect> = check(&history).iter().map(|objection| objection.aspect).collect();
        assert_eq!(aspects, [Aspect::Once], "{place}");
    }
    scan_objects(|h| set_shown(h, 2, 7, 9, 101), Aspect::Once);
}

#[test]
fn a_finished_scan_says_swept_and_takes_no_effect() {
    scan_objects(|h| scan_done(h).answer = Answer::None, Aspect::Answer);
    scan_objects(|h| scan_done(h).value = 9, Aspect::Answer);
    scan_objects(|h| scan_done(h).timestamp = 100, Aspect::Answer);
    scan_objects(|h| scan_done(h).effect = scan_done(h).finish, Aspect::Effect);
    scan_objects(|h| scan_done(h).kind = Kind::Get, Aspect::Call);
    scan_objects(|h| h.ending.tally[6] += 1, Aspect::Tally);
    let late: fn(&mut History) = |h| {
        let Ok(Status::Running { kind: Kind::Scan, start, effect }) = &mut h.ending.statuses[2] else { panic!() };
        *effect = *start + 1;
    };
    scan_objects(late, Aspect::Effect);
    scan_objects(|h| h.ending.statuses[2] = Ok(Status::Idle), Aspect::Running);
}

/// The same word that ends a scan, or shows, ends no other call and is no other call's to show.
#[test]
fn other_calls_neither_sweep_nor_show() {
    objects(|h| done(h).answer = Answer::Swept, Aspect::Answer);
    let show = |h: &mut History| {
        let entry = h.entries.iter_mut().find(|entry| matches!(entry, Entry::Step { process: 1, answer: Ok(_) }));
        let Some(Entry::Step { answer: Ok(step), .. }) = entry else { panic!() };
        *step = Step::Shown { tick: step.tick(), key: 7, value: 250, timestamp: 100 };
    };
    objects(show, Aspect::Shown);
}
