//! The sweep of document 02: its bench cases, its steps field by field, its refusals.

use store_tests::damage::{Operation, Reply};
use store_tests::model::Phase::*;
use store_tests::model::*;

/// What a step answered, without its tick.
#[derive(Clone, Copy, Debug, PartialEq, Eq)]
enum Met {
    On,
    Wait,
    Shown(u64, u32, u32),
    Done(Answer, u32, u32, u32),
}

fn step(store: &mut Store, process: u32) -> Met {
    let step = store.step(process).unwrap();
    assert_eq!(step.tick(), store.state.events);
    match step {
        Step::On(_) => Met::On,
        Step::Wait(_) => Met::Wait,
        Step::Shown { key, value, timestamp, .. } => Met::Shown(key, value, timestamp),
        Step::Done(done) => Met::Done(done.answer, done.value, done.timestamp, done.effect),
    }
}

fn steps(store: &mut Store, process: u32, count: u32) {
    (0..count).for_each(|_| assert_eq!(step(store, process), Met::On));
}

const SWEPT: Met = Met::Done(Answer::Swept, 0, 0, 0);

fn fresh() -> Store {
    let mut store = Store::closed(8, 16);
    store.open(3, 10_000).unwrap();
    store
}

/// Steps a call to its end; answers all but the steps on.
fn finish(store: &mut Store, process: u32) -> Vec<Met> {
    let mut met = Vec::new();
    while !matches!(met.last(), Some(Met::Done(..))) {
        met.push(step(store, process));
    }
    met.retain(|&met| met != Met::On);
    met
}

/// A put by process 0; the value is the timestamp and a bit.
fn put(store: &mut Store, key: u64, timestamp: u32) {
    store.start_put(0, key, timestamp + 1_000, timestamp, 1 << (key % 3)).unwrap();
    finish(store, 0);
}

fn shown(key: u64, timestamp: u32) -> Met {
    Met::Shown(key, timestamp + 1_000, timestamp)
}

/// A store with these keys, put in this order, each with timestamp 100.
fn holding(keys: &[u64]) -> Store {
    let mut store = fresh();
    keys.iter().for_each(|&key| put(&mut store, key, 100));
    store
}

/// The same with a scan of process 1 that has ended its walk: as many steps as a get's.
fn walked(keys: &[u64], first: u64, last: u64) -> Store {
    let mut store = holding(keys);
    store.start_scan(1, first, last).unwrap();
    while store.state.process[1].phase == Walk {
        assert_eq!(step(&mut store, 1), Met::On, "the walk shows nothing");
    }
    store
}

/// These keys shown with timestamp 100, and the end.
fn ending(keys: impl IntoIterator<Item = u64>) -> Vec<Met> {
    keys.into_iter().map(|key| shown(key, 100)).chain([SWEPT]).collect()
}

/// All that a scan by process 1 shows, and its end.
fn scanned(store: &mut Store, first: u64, last: u64) -> Vec<Met> {
    store.start_scan(1, first, last).unwrap();
    finish(store, 1)
}

#[test]
fn an_empty_store() {
    let mut store = fresh();
    let before = store.clone();
    assert_eq!(store.start_scan(0, 1, LAST_KEY), Ok(1));
    for tick in 2..8 {
        assert_eq!((store.state.process[0].phase, store.step(0)), (Walk, Ok(Step::On(tick))));
    }
    assert_eq!(store.state.process[0].phase, Follow);
    let done = Done { kind: Kind::Scan, answer: Answer::Swept, value: 0, timestamp: 0, start: 1, effect: 0, finish: 8 };
    assert_eq!(store.step(0), Ok(Step::Done(done)));
    store.state.events = 0;
    assert_eq!(store, before, "only the count of events has changed");
    assert_eq!(store.inspect(), Ok(Verdict::Sound));
}

#[test]
fn spans_and_what_they_show() {
    let cases: [(u64, u64, &[u64]); 12] = [
        (1, LAST_KEY, &[2, 4, 6, 8]),
        (2, 8, &[2, 4, 6, 8]),
        (3, 7, &[4, 6]),
        (4, 6, &[4, 6]),
        (4, 4, &[4]),
        (8, 8, &[8]),
        (5, 5, &[]),
        (1, 1, &[]),
        (9, 9, &[]),
        (9, LAST_KEY, &[]),
        (LAST_KEY, LAST_KEY, &[]),
        (7, 9, &[8]),
    ];
    for (first, last, keys) in cases {
        let mut store = holding(&[6, 2, 8, 4]);
        let before = store.clone();
        assert_eq!(scanned(&mut store, first, last), ending(keys.iter().copied()), "{first} to {last}");
        store.state.events = before.state.events;
        assert_eq!(store, before, "it writes no table, no lock and no count");
    }
}

/// One step for each key of the span and one for the end, behind a get's walk to the first.
#[test]
fn steps_of_a_scan() {
    let taken = |first: u64, last: u64| {
        let mut store = holding(&[2, 4, 6, 8]);
        let events = store.state.events + 1;
        scanned(&mut store, first, last);
        store.state.events - events
    };
    let mut store = holding(&[2, 4, 6, 8]);
    let events = store.state.events + 1;
    store.start_get(1, 5).unwrap();
    finish(&mut store, 1);
    let walk = store.state.events - events;
    assert_eq!([taken(5, 5), taken(5, 6), taken(5, 9)], [walk + 1, walk + 2, walk + 3]);
}

/// The whole process after each step of a scan from 5 to 8, in a store with 3, 6, 9 (all top 0) and 8 (top 2).
#[test]
fn fields_of_a_scan_step_by_step() {
    let mut store = holding(&[8, 3, 9, 6]);
    let start = store.state.events + 1;
    assert_eq!(store.start_scan(2, 5, 8), Ok(start));
    let begun = Process { kind: Kind::Scan, key: 5, last: 8, start, level: 5, ..Process::IDLE };
    assert_eq!(store.state.process[2], begun);
    let walk = |level, pred| Process { level, pred, preds: [0; 6], ..begun };
    let follow = |pred| Process { phase: Follow, level: 0, pred, preds: [2, 0, 0, 0, 0, 0], ..begun };
    let due = [
        (walk(4, 0), Met::On),
        (walk(3, 0), Met::On),
        (walk(2, 0), Met::On),
        (walk(1, 0), Met::On),
        (walk(0, 0), Met::On),
        (walk(0, 2), Met::On),
        (follow(2), Met::On),
        (follow(4), shown(6, 100)),
        (follow(1), shown(8, 100)),
        (Process::IDLE, SWEPT),
    ];
    for (place, (process, met)) in due.into_iter().enumerate() {
        assert_eq!(store.status(2), Ok(Status::Running { kind: Kind::Scan, start, effect: 0 }));
        assert_eq!(store.inspect(), Err(Refusal::Busy));
        assert_eq!((step(&mut store, 2), store.state.process[2]), (met, process), "step {}", place + 1);
    }
    assert_eq!(store.status(2), Ok(Status::Idle));
}

#[test]
fn a_tray_made_behind_is_not_shown_and_one_made_ahead_is_shown_once() {
    let mut store = walked(&[2, 6], 1, 9);
    assert_eq!([step(&mut store, 1), step(&mut store, 1)], [shown(2, 100), shown(6, 100)]);
    put(&mut store, 4, 100);
    put(&mut store, 8, 100);
    assert_eq!(finish(&mut store, 1), [shown(8, 100), SWEPT]);
    assert_eq!(scanned(&mut store, 1, 9), ending([2, 4, 6, 8]));
}

/// p is before the first: trays made between p and the first are met on the way.
#[test]
fn a_tray_made_below_the_first_is_passed() {
    let mut store = walked(&[2, 6], 5, 9);
    put(&mut store, 3, 100);
    put(&mut store, 4, 100);
    put(&mut store, 1, 100);
    let pred = |store: &Store| store.state.process[1].pred;
    assert_eq!(pred(&store), 1, "p is at 2");
    assert_eq!((step(&mut store, 1), pred(&store)), (Met::On, 3), "3 is passed");
    assert_eq!((step(&mut store, 1), pred(&store)), (Met::On, 4), "4 is passed; 1 lies behind");
    assert_eq!((store.state.process[1].phase, store.state.process[1].level), (Follow, 0));
    put(&mut store, 5, 100);
    assert_eq!(finish(&mut store, 1), [shown(5, 100), shown(6, 100), SWEPT], "the first itself, made since");
}

#[test]
fn the_newest_reading_of_the_moment_is_shown() {
    let mut store = walked(&[2, 6], 1, 9);
    put(&mut store, 2, 101);
    assert_eq!(step(&mut store, 1), shown(2, 101));
    put(&mut store, 2, 102);
    put(&mut store, 6, 101);
    put(&mut store, 6, 99);
    assert_eq!(finish(&mut store, 1), [shown(6, 101), SWEPT], "what is shown is not shown again");
}

/// A put holds the lock of p at level 0 in each of these steps.
#[test]
fn a_scan_goes_past_locks() {
    let mut store = walked(&[4], 1, 9);
    store.start_put(0, 2, 7, 7, 1).unwrap();
    steps(&mut store, 0, 8);
    assert_eq!(store.node_table[LOCK_OF_HEAD], 1);
    store.start_put(2, 3, 7, 7, 1).unwrap();
    steps(&mut store, 2, 7);
    assert_eq!((step(&mut store, 2), step(&mut store, 1)), (Met::Wait, shown(4, 100)));
    assert_eq!(store.node_table[LOCK_OF_HEAD], 1);
}

const LOCK_OF_HEAD: usize = 10;

#[test]
fn two_scans_at_once() {
    let mut store = walked(&[2, 4, 6], 1, 9);
    store.start_scan(2, 3, 5).unwrap();
    assert_eq!(step(&mut store, 1), shown(2, 100));
    assert_eq!(finish(&mut store, 2), [shown(4, 100), SWEPT]);
    assert_eq!(finish(&mut store, 1), [shown(4, 100), shown(6, 100), SWEPT]);
}

#[test]
fn no_tally_counts_a_scan() {
    for count in [0, 7, u32::MAX] {
        let mut store = holding(&[2, 4]);
        store.tally = vec![count; COUNTS];
        scanned(&mut store, 1, 9);
        assert_eq!(store.tally, [count; COUNTS]);
    }
}

#[test]
fn spans_over_both_halves() {
    let keys = [5, u32::MAX.into(), 1 << 32, (1 << 32) + 5, 1 << 33, LAST_KEY];
    let cases: [(u64, u64, &[u64]); 7] = [
        (1, LAST_KEY, &keys),
        (5, u32::MAX.into(), &keys[..2]),
        (6, 1 << 32, &keys[1..3]),
        ((1 << 32) + 1, (1 << 33) - 1, &keys[3..4]),
        (1 << 33, LAST_KEY - 1, &keys[4..5]),
        ((1 << 32) + 6, (1 << 33) - 1, &[]),
        (LAST_KEY, LAST_KEY, &keys[5..]),
    ];
    for (first, last, due) in cases {
        let mut store = holding(&[keys[3], keys[0], keys[5], keys[2], keys[4], keys[1]]);
        assert_eq!(scanned(&mut store, first, last), ending(due.iter().copied()), "{first} to {last}");
    }
}

#[test]
fn start_is_refused_10_5_6_17_7_9_in_order() {
    let mut store = walked(&[4], 1, 9);
    store.state.limit = store.state.events;
    let before = store.clone();
    let end = LAST_KEY + 1;
    assert_eq!(store.start_scan(0, 1, 9), Err(Refusal::LimitSpent));
    assert_eq!(store.start_scan(1, 1, 9), Err(Refusal::Busy));
    assert_eq!([store.start_scan(1, 2, 1), store.start_scan(0, 1 << 32, 7)], [Err(Refusal::BadSpan); 2]);
    for (first, last) in [(0, 9), (9, 0), (end, 9), (9, end), (0, 0), (end, end), (0, end), (end, 0)] {
        assert_eq!(store.start_scan(1, first, last), Err(Refusal::KeyOutOfRange), "{first} to {last}");
        assert_eq!(store.start_scan(3, first, last), Err(Refusal::NoSuchProcess));
    }
    assert_eq!(store.start_scan(3, 2, 1), Err(Refusal::NoSuchProcess));
    assert_eq!(store, before);
    store.state.opened = false;
    assert_eq!(store.start_scan(3, 0, 0), Err(Refusal::AlteredState));
    assert_eq!((Refusal::BadSpan.number(), Refusal::AlteredState.number()), (17, 10));
}

/// The limit spent within a scan: it stays where it stood.
#[test]
fn a_scan_is_refused_9_at_the_limit() {
    let mut store = walked(&[2, 4], 1, 9);
    store.state.limit = store.state.events + 1;
    assert_eq!(step(&mut store, 1), shown(2, 100));
    let before = store.clone();
    assert_eq!(store.step(1), Err(Refusal::LimitSpent));
    assert_eq!(store, before);
    store.state.limit += 1;
    assert_eq!(step(&mut store, 1), shown(4, 100));
}

type Change = fn(&mut Store);

fn call(store: &mut Store) -> &mut Process {
    &mut store.state.process[1]
}

/// The keys 4 (node 1) and 8 (node 2), and a scan from 3 to 9 that has ended its walk: p is node 0.
fn following() -> Store {
    walked(&[4, 8], 3, 9)
}

#[test]
fn altered_scans_are_refused_11() {
    let changes: [(&str, Change); 15] = [
        ("level", |s| call(s).level = 6),
        ("level, wild", |s| call(s).level = u32::MAX),
        ("p", |s| call(s).pred = 3),
        ("p, wild", |s| call(s).pred = u32::MAX),
        ("effect tick", |s| call(s).effect = 1),
        ("effect tick in the walk", |s| (call(s).phase, call(s).effect) = (Walk, u32::MAX)),
        ("link", |s| s.node_table[4] = 3),
        ("link, wild", |s| s.node_table[4] = u32::MAX),
        ("newest 0", |s| s.node_table[17] = 0),
        ("newest", |s| s.node_table[17] = 3),
        ("newest, wild", |s| s.node_table[17] = u32::MAX),
        ("a get follows", |s| call(s).kind = Kind::Get),
        ("a put follows", |s| call(s).kind = Kind::Put),
        ("a put with an effect follows", |s| {
            (call(s).kind, call(s).effect, call(s).answer) = (Kind::Put, 1, Answer::New);
        }),
        ("the walk's link", |s| (call(s).phase, s.node_table[4]) = (Walk, 3)),
    ];
    for (name, change) in changes {
        let mut store = following();
        change(&mut store);
        let before = store.clone();
        assert_eq!(store.step(1), Err(Refusal::AlteredMemory), "{name}");
        assert_eq!(store, before, "{name}");
    }
    for phase in Phase::ALL {
        let mut store = following();
        call(&mut store).phase = phase;
        let lawful = matches!(phase, Walk | Follow);
        assert_eq!(store.step(1).is_ok(), lawful, "{phase:?}");
    }
}

/// A put never answers swept; another call's answer is not read.
#[test]
fn swept_is_no_answer_of_a_put() {
    let mut store = holding(&[4]);
    store.start_put(1, 4, 1, 200, 1).unwrap();
    call(&mut store).answer = Answer::Swept;
    assert!(store.step(1).is_ok(), "before its effect");
    for (phase, effect) in [(Release, 0), (Release, 1), (Walk, 1)] {
        (call(&mut store).phase, call(&mut store).effect) = (phase, effect);
        assert_eq!(store.step(1), Err(Refusal::AlteredMemory), "{phase:?} {effect}");
    }
    let mut store = following();
    call(&mut store).answer = Answer::New;
    assert_eq!(finish(&mut store, 1), [shown(4, 100), shown(8, 100), SWEPT]);
}

#[test]
fn what_following_does_not_need_is_not_tested() {
    let changes: [(&str, Change, Met); 10] = [
        ("the end", |s| (s.node_table[4], s.node_table[17]) = (0, 0), SWEPT),
        ("a key past the last needs no reading", |s| (call(s).last, s.node_table[17]) = (3, 0), SWEPT),
        ("a key below the first needs no reading", |s| (call(s).key, s.node_table[17]) = (5, 99), Met::On),
        ("other links", |s| (5..10).for_each(|link| s.node_table[link] = u32::MAX), shown(4, 100)),
        ("the level", |s| (call(s).level, s.node_table[9]) = (5, u32::MAX), shown(4, 100)),
        ("locks", |s| s.node_table[10] = 7, shown(4, 100)),
        ("a first above the last, past it", |s| (call(s).key, call(s).last) = (9, 3), SWEPT),
        ("a first above the last, both above", |s| (call(s).key, call(s).last) = (9, 5), Met::On),
        ("ends out of range", |s| (call(s).key, call(s).last) = (0, u64::MAX), shown(4, 100)),
        (
            "what a scan does not use",
            |s| {
                let Process { top, made, preds, value, timestamp, .. } = call(s);
                (*top, *made, *preds, *value, *timestamp) = (9, 99, [99; 6], 99, 99);
            },
            shown(4, 100),
        ),
    ];
    for (name, change, due) in changes {
        let mut store = following();
        change(&mut store);
        let level = call(&mut store).level;
        assert_eq!(step(&mut store, 1), due, "{name}");
        let after = *call(&mut store);
        assert!(after.kind == Kind::Idle || (after.phase, after.level) == (Follow, level), "{name}: the level stays");
    }
}

#[test]
fn links_that_lead_back_are_followed() {
    let mut store = following();
    assert_eq!(step(&mut store, 1), shown(4, 100));
    store.node_table[16 + 4] = 1;
    assert_eq!([step(&mut store, 1), step(&mut store, 1)], [shown(4, 100); 2], "altered, so it need not end");
}

/// The words of a scan in the state, and of what it shows.
#[test]
fn words_of_a_scan() {
    let mut store = fresh();
    let (first, last) = (0x1234_5678_9ABC_DEF0, 0x8765_4321_0FED_CBA9);
    put(&mut store, first + 1, 100);
    let start = store.state.events + 1;
    store.start_scan(1, first, last).unwrap();
    let words = store.state.to_words();
    let due =
        [3, 0x9ABC_DEF0, 0x1234_5678, 0x0FED_CBA9, 0x8765_4321, 0, 0, 0, start, 0, 5, 0, 0, 6, 0, 0, 0, 0, 0, 0, 0];
    assert_eq!((words.len(), &words[8 + 21..8 + 42]), (8 + 8 * 21, &due[..]));
    while store.state.process[1].phase == Walk {
        step(&mut store, 1);
    }
    assert_eq!(store.state.to_words()[8 + 21 + 9..][..2], [9, 0], "following, level 0");
    let mut reply = || Operation::Step { process: 1 }.perform(&mut store).words();
    assert_eq!(reply(), [0, 3, start + 7, 0x9ABC_DEF1, 0x1234_5678, 1_100, 100, 0, 0]);
    assert_eq!(reply(), [0, 2, start + 8, 3, 7, 0, 0, start, 0]);
    assert_eq!(Reply::Refused(Refusal::BadSpan).words()[0], 17);
}

#[test]
fn numbers_of_kinds_phases_and_answers() {
    assert_eq!([Kind::Scan as u32, Follow as u32, Answer::Swept as u32], [3, 9, COUNTS as u32]);
    let counted: Vec<Option<usize>> = Answer::ALL.iter().map(|answer| answer.place()).collect();
    assert_eq!(counted, [Some(0), Some(1), Some(2), Some(3), Some(4), Some(5), Some(6), None]);
    let words = fresh().state.to_words();
    for (word, greatest) in [(0, 3), (9, 9), (13, 7)] {
        for process in 0..8 {
            let mut words = words.clone();
            words[8 + 21 * process + word] = greatest;
            assert!(State::from_words(&words).is_some());
            words[8 + 21 * process + word] = greatest + 1;
            assert_eq!(State::from_words(&words), None);
        }
    }
}
