//! The plain ledger.

use store_tests::ledger::{Map, Outcome};
use store_tests::model::{Answer, Call, Refusal};

#[test]
fn puts_answer_in_the_order_of_the_ledger() {
    let mut map = Map::new(1, 2);
    assert_eq!(map.put(7, 1, 100), Answer::New);
    assert_eq!(map.put(8, 1, 100), Answer::TraysFull);
    assert_eq!(map.put(7, 2, 100), Answer::Added);
    assert_eq!(map.put(7, 3, 99), Answer::TooOld, "too old comes before readings full");
    assert_eq!(map.put(7, 3, 100), Answer::ReadingsFull);
    assert_eq!(map.put(8, 3, 100), Answer::TraysFull, "trays full comes before readings full");
    assert_eq!((map.keys(), map.versions()), (1, 2));
}

#[test]
fn a_new_key_can_meet_full_readings() {
    let mut map = Map::new(2, 1);
    assert_eq!(map.put(7, 1, 0), Answer::New);
    assert_eq!(map.put(8, 1, 0), Answer::ReadingsFull);
}

#[test]
fn gets_see_the_newest() {
    let mut map = Map::new(2, 3);
    assert_eq!(map.apply(Call::Get { key: 7 }), Some(Outcome { answer: Answer::None, value: 0, timestamp: 0 }));
    map.put(7, 1, 100);
    map.put(7, 2, 100);
    assert_eq!(map.apply(Call::Get { key: 7 }), Some(Outcome { answer: Answer::Found, value: 2, timestamp: 100 }));
}

#[test]
fn looks_go_back() {
    let mut map = Map::new(2, 3);
    map.put(7, 1, 100);
    map.put(7, 2, 101);
    assert_eq!([map.look(7, 0), map.look(7, 1)], [Ok((2, 101)), Ok((1, 100))]);
    assert_eq!(map.look(7, 2), Err(Refusal::FewerVersions));
    assert_eq!(map.look(8, 0), Err(Refusal::NoSuchKey));
    assert_eq!([map.look(0, 0), map.look(u64::MAX, 0)], [Err(Refusal::KeyOutOfRange); 2]);
    assert_eq!(map.look(u64::MAX - 1, 0), Err(Refusal::NoSuchKey));
    assert_eq!(map.look((1 << 32) + 7, 0), Err(Refusal::NoSuchKey), "another key of the same low half");
}

#[test]
fn spans_hold_the_keys_that_have_a_list() {
    let mut map = Map::new(4, 4);
    [7, 5, 1 << 32].into_iter().for_each(|key| assert_eq!(map.put(key, 1, 100), Answer::New));
    assert_eq!(map.held(5, 1 << 32), [5, 7, 1 << 32]);
    assert_eq!((map.held(6, 7), map.held(8, 9), map.held(7, 5)), (vec![7], vec![], vec![]));
    let before = map.clone();
    assert_eq!(map.apply(Call::Scan { first: 1, last: 9 }), None, "a scan takes no effect");
    assert_eq!(map, before);
}
