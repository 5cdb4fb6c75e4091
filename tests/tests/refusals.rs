//! Each refusal number, its place in the order, and that it changes nothing.

use store_tests::model::Phase::*;
use store_tests::model::*;

/// K 3, V 4, two processes; the keys 4 (node 1, top 1) and 8 (node 2, top 0).
fn store() -> Store {
    let mut store = Store::closed(3, 4);
    store.open(2, 1_000).unwrap();
    for (key, value, draw) in [(4, 40, 2), (8, 80, 1)] {
        store.start_put(0, key, value, 100, draw).unwrap();
        while !matches!(store.step(0).unwrap(), Step::Done(_)) {}
    }
    store
}

/// The same with a put of process 0 at some phase; p is node 0, level 0.
fn put_at(phase: Phase, key: u64) -> Store {
    let mut store = store();
    store.start_put(0, key, 1, 100, 4).unwrap();
    store.state.process[0].phase = phase;
    store.state.process[0].level = 0;
    store
}

fn get_at(phase: Phase) -> Store {
    let mut store = store();
    store.start_get(0, 8).unwrap();
    store.state.process[0].phase = phase;
    store
}

type Change = fn(&mut Store);

fn refused_step(name: &str, mut store: Store, change: Change, due: Refusal) {
    change(&mut store);
    let before = store.clone();
    assert_eq!(store.step(0), Err(due), "{name}");
    assert_eq!(store, before, "{name}");
}

fn accepted_step(name: &str, mut store: Store, change: Change) {
    change(&mut store);
    assert!(store.step(0).is_ok(), "{name}");
}

fn call(store: &mut Store) -> &mut Process {
    &mut store.state.process[0]
}

#[test]
fn open_is_refused_1_to_4_in_order() {
    // Words of the two tables, processes, limit.
    let cases = [
        (16, 3, 0, 0, Err(1)),
        (31, 6, 1, 1, Err(1)),
        (16_400, 6, 1, 1, Err(1)),
        (33, 6, 1, 1, Err(1)),
        (32, 3, 0, 0, Err(2)),
        (32, 7, 1, 1, Err(2)),
        (32, 12_291, 1, 1, Err(2)),
        (32, 6, 0, 0, Err(3)),
        (32, 6, 9, 0, Err(3)),
        (32, 6, 8, 0, Err(4)),
        (32, 6, 8, 1_000_000_001, Err(4)),
        (32, 6, 8, 1_000_000_000, Ok(())),
        (16_384, 12_288, 1, 1, Ok(())),
        (0, 0, 1, 1, Err(1)),
    ];
    for (nodes, versions, processes, limit, due) in cases {
        let mut store = store();
        store.node_table = vec![7; nodes];
        store.version_table = vec![7; versions];
        let lent = store.clone();
        let answer = store.open(processes, limit).map_err(Refusal::number);
        assert_eq!(answer, due, "{nodes} {versions} {processes} {limit}");
        assert_eq!(store.tally, lent.tally);
        if due.is_err() {
            assert_eq!(store, Store { state: State::CLOSED, ..lent });
        } else {
            assert!(store.version_table.iter().all(|&word| word == 0));
            assert!(store.node_table.iter().enumerate().all(|(at, &word)| word == if at == 2 { 5 } else { 0 }));
        }
    }
}

#[test]
fn start_is_refused_10_5_6_7_9_in_order() {
    let mut store = store();
    store.start_get(1, 4).unwrap();
    store.state.limit = store.state.events;
    let before = store.clone();
    assert_eq!(store.start_get(0, 4), Err(Refusal::LimitSpent));
    assert_eq!(store.start_put(1, 4, 1, 1, 1), Err(Refusal::Busy));
    for key in [0, u64::MAX] {
        assert_eq!(store.start_get(1, key), Err(Refusal::KeyOutOfRange));
        assert_eq!(store.start_put(2, key, 1, 1, 1), Err(Refusal::NoSuchProcess));
    }
    assert_eq!(store, before);
    store.state.opened = false;
    assert_eq!(store.start_get(2, 0), Err(Refusal::AlteredState));
}

#[test]
fn step_is_refused_10_5_8_9_11_in_order() {
    refused_step("11", get_at(Walk), |s| call(s).level = 6, Refusal::AlteredMemory);
    let spent: Change = |s| {
        call(s).level = 6;
        s.state.limit = s.state.events;
    };
    refused_step("9", get_at(Walk), spent, Refusal::LimitSpent);
    let idle: Change = |s| {
        call(s).level = 6;
        call(s).kind = Kind::Idle;
        s.state.limit = s.state.events;
    };
    refused_step("8", get_at(Walk), idle, Refusal::NoCallRunning);
    assert_eq!(store().step(2), Err(Refusal::NoSuchProcess));
    let mut closed = store();
    closed.state.opened = false;
    assert_eq!(closed.step(2), Err(Refusal::AlteredState));
}

/// What refusal 10 finds in the state alone; status is refused it too.
#[test]
fn altered_heads_are_refused_10_everywhere() {
    let changes: [(&str, Change); 13] = [
        ("closed", |s| s.state.opened = false),
        ("no processes", |s| s.state.processes = 0),
        ("nine processes", |s| s.state.processes = 9),
        ("limit 0", |s| s.state.limit = 0),
        ("limit", |s| s.state.limit = 1_000_000_001),
        ("events", |s| s.state.events = s.state.limit + 1),
        ("nodes", |s| s.state.nodes = 4),
        ("many nodes", |s| s.state.nodes = u32::MAX),
        ("versions", |s| s.state.versions = 5),
        ("node words 16", |s| s.state.node_words = 16),
        ("node words 65", |s| s.state.node_words = 65),
        ("version words 3", |s| s.state.version_words = 3),
        ("version words", |s| s.state.version_words = u32::MAX),
    ];
    for (name, change) in changes {
        let mut store = get_at(Walk);
        change(&mut store);
        let before = store.clone();
        let due = Some(Refusal::AlteredState);
        assert_eq!(store.status(9).err(), due, "{name}");
        assert_eq!(store.start_get(9, 0).err(), due, "{name}");
        assert_eq!(store.step(9).err(), due, "{name}");
        assert_eq!(store.look(0, 0).err(), due, "{name}");
        assert_eq!(store.inspect().err(), due, "{name}");
        assert_eq!(store, before, "{name}");
    }
}

/// Lengths unlike the tables lent: status cannot know; the tally is seen by a step only.
#[test]
fn other_lengths_are_refused_10() {
    let changes: [(&str, Change); 4] = [
        ("shorter nodes", |s| s.node_table.truncate(48)),
        ("longer versions", |s| s.version_table.extend([0; 3])),
        ("shorter by state", |s| s.state.node_words -= 16),
        ("empty", |s| s.version_table.clear()),
    ];
    for (name, change) in changes {
        let mut store = get_at(Walk);
        change(&mut store);
        let due = Some(Refusal::AlteredState);
        assert!(store.status(0).is_ok(), "{name}");
        assert_eq!(store.start_get(9, 0).err(), due, "{name}");
        assert_eq!(store.step(9).err(), due, "{name}");
        assert_eq!(store.look(0, 0).err(), due, "{name}");
        assert_eq!(store.inspect().err(), due, "{name}");
    }
    for counts in [0, 1, 6, 8, 100] {
        let mut store = get_at(Walk);
        store.tally.resize(counts, 0);
        assert_eq!(store.step(9), Err(Refusal::AlteredState));
        assert_eq!(store.start_get(1, 4), Ok(store.state.events));
    }
}

#[test]
fn any_step_of_an_altered_call_is_refused_11() {
    let changes: [(&str, Store, Change); 10] = [
        ("level", put_at(Lock, 5), |s| call(s).level = 6),
        ("level, wild", get_at(Walk), |s| call(s).level = u32::MAX),
        ("p", put_at(Lock, 5), |s| call(s).pred = 3),
        ("p, wild", get_at(Read), |s| call(s).pred = u32::MAX),
        ("get in lock", get_at(Lock), |_| ()),
        ("put in read", put_at(Read, 8), |s| call(s).pred = 2),
        ("get with effect", get_at(Walk), |s| call(s).effect = 1),
        ("release, found", put_at(Release, 5), |s| call(s).answer = Answer::Found),
        ("release, none", put_at(Release, 5), |_| ()),
        ("effect, none", put_at(Seek, 5), |s| call(s).effect = 1),
    ];
    for (name, store, change) in changes {
        refused_step(name, store, change, Refusal::AlteredMemory);
    }
}

#[test]
fn what_a_phase_needs_is_refused_11() {
    let far: Change = |s| s.node_table[4] = 3;
    let changes: [(&str, Store, Change); 17] = [
        ("walk", put_at(Walk, 5), far),
        ("seek", put_at(Seek, 5), far),
        ("check", put_at(Check, 5), far),
        ("walk of a get", get_at(Walk), |s| s.node_table[9] = u32::MAX),
        ("read, newest 0", get_at(Read), |s| s.node_table[1] = 0),
        ("read, newest", get_at(Read), |s| s.node_table[1] = 3),
        ("update, end", put_at(Update, 4), |s| (s.node_table[4], s.node_table[1]) = (0, 1)),
        ("update, link", put_at(Update, 4), far),
        ("update, newest 0", put_at(Update, 4), |s| s.node_table[17] = 0),
        ("update, newest", put_at(Update, 4), |s| s.node_table[17] = 3),
        ("make, top", put_at(Make, 5), |s| call(s).top = 6),
        ("link, new node 0", put_at(Link, 5), |_| ()),
        ("link, new node", put_at(Link, 5), |s| call(s).made = 3),
        ("link, new node wild", put_at(Link, 5), |s| call(s).made = u32::MAX),
        ("release, top", put_at(Release, 5), |s| (call(s).answer, call(s).top) = (Answer::New, 6)),
        ("release, top at level 5", put_at(Release, 5), |s| {
            (call(s).answer, call(s).top, call(s).level) = (Answer::New, u32::MAX, 5);
        }),
        ("release, remembered", put_at(Release, 5), |s| (call(s).answer, call(s).preds[1]) = (Answer::New, 3)),
    ];
    for (name, store, change) in changes {
        refused_step(name, store, change, Refusal::AlteredMemory);
    }
}

#[test]
fn what_a_phase_does_not_need_is_not_tested() {
    let changes: [(&str, Store, Change); 9] = [
        ("make only copies the link", put_at(Make, 5), |s| s.node_table[4] = u32::MAX),
        ("link only copies the link", put_at(Link, 5), |s| (call(s).made, s.node_table[4]) = (1, 99)),
        ("a full make needs no top", put_at(Make, 5), |s| {
            (s.state.versions, call(s).top) = (4, u32::MAX);
        }),
        ("a full update needs no previous place", put_at(Update, 4), |s| {
            (s.state.versions, s.version_table[5]) = (4, 99)
        }),
        ("release of another answer needs no top", put_at(Release, 5), |s| {
            (call(s).answer, call(s).top) = (Answer::Added, 6);
        }),
        ("release at the top needs no remembered node", put_at(Release, 5), |s| {
            (call(s).answer, call(s).top, call(s).preds) = (Answer::New, 0, [99; 6]);
        }),
        ("lock needs no link", put_at(Lock, 5), |s| s.node_table[4] = 99),
        ("another process may be anything", put_at(Lock, 5), |s| {
            let process = &mut s.state.process[1];
            (process.kind, process.level, process.pred) = (Kind::Get, 9, 99);
        }),
        ("start and effect ticks may be anything", put_at(Release, 5), |s| {
            (call(s).start, call(s).effect, call(s).answer) = (u32::MAX, u32::MAX, Answer::TooOld);
        }),
    ];
    for (name, store, change) in changes {
        accepted_step(name, store, change);
    }
}

/// Altered calls that are not refused do what the lines say, at their level.
#[test]
fn altered_calls_follow_the_lines() {
    let mut store = put_at(Make, 5);
    call(&mut store).level = 3;
    store.node_table[10] = 7;
    store.node_table[13] = 7;
    assert!(store.step(0).is_ok());
    assert_eq!((store.state.nodes, store.node_table[4], store.node_table[3 * 16 + 4]), (3, 3, 1), "made at level 0");
    assert!(matches!(store.step(0), Ok(Step::Done(done)) if done.answer == Answer::New), "level 3 is above top 2");
    assert_eq!((store.node_table[10], store.node_table[13]), (7, 0), "the lock of level 3 is freed, whoever has it");

    let mut store = put_at(Update, 4);
    call(&mut store).level = 3;
    assert!(store.step(0).is_ok());
    assert_eq!((store.node_table[17], call(&mut store).answer), (3, Answer::Added), "updated along level 0");

    let mut store = put_at(Link, 5);
    (call(&mut store).made, call(&mut store).pred) = (1, 1);
    assert!(store.step(0).is_ok());
    assert_eq!(store.node_table[20], 1, "p's link becomes p");

    let mut store = put_at(Lock, 5);
    store.node_table[10] = 1;
    assert!(matches!(store.step(0), Ok(Step::Wait(_))), "its own lock is waited for too");
}

#[test]
fn look_is_refused_10_6_12_11_13_in_order() {
    let mut store = store();
    store.start_put(0, 4, 41, 100, 1).unwrap();
    while !matches!(store.step(0).unwrap(), Step::Done(_)) {}
    assert_eq!([store.look(4, 0), store.look(4, 1), store.look(8, 0)], [Ok((41, 100)), Ok((40, 100)), Ok((80, 100))]);
    assert_eq!([store.look(0, 9), store.look(u64::MAX, 9)], [Err(Refusal::KeyOutOfRange); 2]);
    assert_eq!([store.look(5, 0), store.look(u32::MAX.into(), 0)], [Err(Refusal::NoSuchKey); 2]);
    assert_eq!([store.look(4, 2), store.look(4, u32::MAX)], [Err(Refusal::FewerVersions); 2]);
    store.version_table[3 * 3 + 2] = 3;
    assert_eq!(store.look(4, 0), Ok((41, 100)), "the newest needs no previous place");
    assert_eq!([store.look(4, 1), store.look(4, 2)], [Err(Refusal::AlteredMemory); 2]);
    for newest in [0, 4, u32::MAX] {
        store.node_table[17] = newest;
        assert_eq!(store.look(4, 0), Err(Refusal::AlteredMemory));
    }
}

#[test]
fn inspection_is_refused_7_below_the_count_only() {
    let mut busy = store();
    busy.start_get(1, 4).unwrap();
    assert_eq!(busy.inspect(), Err(Refusal::Busy));
    let mut above = store();
    above.state.process[2].kind = Kind::Get;
    assert_eq!(above.inspect(), Ok(Verdict::Sound));
}

#[test]
fn inspection_names_level_and_node() {
    let changes: [(u32, u32, Change); 22] = [
        (0, 0, |s| s.node_table[10] = 1),
        (5, 0, |s| s.node_table[15] = 9),
        (0, 2, |s| s.node_table[32 + 10] = 1),
        (0, 1, |s| s.node_table[17] = 0),
        (0, 2, |s| s.node_table[33] = 3),
        (0, 1, |s| s.version_table[5] = 1),
        (0, 2, |s| (s.version_table[8], s.version_table[4]) = (1, 101)),
        (0, 0, |s| s.node_table[4] = 3),
        (0, 2, |s| s.node_table[36] = u32::MAX),
        (0, 2, |s| s.node_table[36] = 1),
        (0, 2, |s| s.node_table[36] = 2),
        (0, 0, |s| s.node_table[16] = 0),
        (0, 0, |s| s.node_table[0] = 4),
        (0, 0, |s| s.node_table[3] = 1),
        (0, 1, |s| s.node_table[19] = 1),
        (0, 1, |s| s.node_table[19] = u32::MAX),
        (1, 0, |s| (s.node_table[18], s.node_table[35]) = (0, 1)),
        (0, 1, |s| s.node_table[20] = 0),
        (1, 0, |s| s.node_table[18] = 0),
        (1, 0, |s| s.node_table[5] = 0),
        (1, 1, |s| s.node_table[34] = 1),
        (2, 0, |s| s.node_table[18] = 7),
    ];
    for (place, (level, node, change)) in changes.into_iter().enumerate() {
        let mut store = store();
        assert_eq!(store.inspect(), Ok(Verdict::Sound));
        change(&mut store);
        assert_eq!(store.inspect(), Ok(Verdict::Fault { level, node }), "change {place}");
    }
}

#[test]
fn status_is_refused_10_5() {
    let store = store();
    assert_eq!(store.status(0), Ok(Status::Idle));
    assert_eq!(store.status(2), Err(Refusal::NoSuchProcess));
    assert_eq!(Store::closed(1, 1).status(0), Err(Refusal::AlteredState));
}

#[test]
fn a_full_count_of_the_tally_stays() {
    let mut store = get_at(Walk);
    store.tally = vec![u32::MAX; COUNTS];
    while !matches!(store.step(0).unwrap(), Step::Done(_)) {}
    assert_eq!(store.tally, [u32::MAX; COUNTS]);
}

#[test]
fn finished_processes_are_blank() {
    let mut store = store();
    assert_eq!(store.state.process, [Process::IDLE; PROCESSES]);
    store.start_get(1, 4).unwrap();
    while !matches!(store.step(1).unwrap(), Step::Done(_)) {}
    assert_eq!(store.state.process, [Process::IDLE; PROCESSES]);
}
