//! The same with scans. Each search also counts what its scans met, and fails where something was never met.

use super::*;
use store_tests::meetings::{Meeting, Meetings};

fn scan(first: u64, last: u64) -> Call {
    Call::Scan { first, last }
}

/// What all scopes of a search have met together.
#[derive(Default)]
struct Search {
    points: u64,
    meetings: Meetings,
}

impl Search {
    fn go(&mut self, scope: &Scope) {
        let report = run(scope);
        self.points += report.points;
        self.meetings.add(report.meetings);
    }

    /// Fails where anything else than these was never met.
    fn has_met_all_but(&self, lacking: &[Meeting]) {
        println!("{} points; {}", self.points, self.meetings);
        assert_eq!(self.meetings.below(1), lacking);
    }
}

/// On a store that has the keys 4 (top 1) and 8 (top 0): spans of all, of one key, of none between two keys or before
/// them, that begin or end between keys. A lock is waited for by puts alone, so two processes never wait.
#[test]
fn a_scan_and_every_other_call() {
    let first = [put(8, 5, 1), put(4, 5, 2)];
    let scans = [scan(1, 9), scan(4, 8), scan(5, 7), scan(1, 3), scan(4, 4), scan(6, 6), scan(5, 9), scan(8, 8)];
    let mut others = vec![get(4), get(6), put(4, 4, 2), put(8, 6, 1)];
    others.extend([2, 4, 6, 8, 9].iter().map(|&key| put(key, 6, 4)));
    others.extend(scans);
    let mut search = Search::default();
    for one in scans {
        others.iter().for_each(|&other| search.go(&scope(4, 4, &first, &[&[one], &[other]])));
    }
    search.has_met_all_but(&[Meeting::WaitBeside]);
}

/// Puts in a row: keys made and versions added behind the scan, at it and ahead of it, while it runs and before.
#[test]
fn a_scan_and_calls_in_a_row() {
    let first = [put(4, 5, 1), put(8, 5, 2)];
    let rows: [&[Call]; 4] = [
        &[put(6, 5, 2), put(6, 5, 1)],
        &[put(2, 5, 1), put(3, 5, 1), put(4, 6, 1)],
        &[put(8, 5, 1), put(4, 5, 1), get(8)],
        &[put(9, 5, 4), put(8, 6, 1), scan(8, 9)],
    ];
    let mut search = Search::default();
    for scans in [[scan(3, 9), scan(4, 8)], [scan(4, 9), scan(3, 3)], [scan(1, 8), scan(6, 9)]] {
        rows.iter().for_each(|row| search.go(&scope(4, 6, &first, &[&scans, row])));
    }
    search.has_met_all_but(&[Meeting::WaitBeside]);
}

/// One or two scans among puts of the same and of neighbouring keys: those wait for each other beside it.
#[test]
fn scans_in_three_processes() {
    let first = [put(5, 2, 2)];
    let triples: [[Call; 3]; 7] = [
        [scan(5, 9), put(5, 3, 1), put(5, 2, 1)],
        [scan(4, 6), put(4, 2, 2), put(6, 2, 1)],
        [scan(5, 6), put(3, 2, 1), put(4, 2, 1)],
        [scan(1, 9), scan(5, 5), put(6, 2, 2)],
        [scan(1, 9), scan(4, 9), put(3, 2, 1)],
        [scan(4, 6), put(4, 2, 2), get(4)],
        [scan(1, 9), scan(1, 9), scan(5, 9)],
    ];
    let mut search = Search::default();
    for [one, two, three] in triples {
        search.go(&scope(3, 4, &first, &[&[one], &[two], &[three]]));
    }
    search.has_met_all_but(&[]);
}

/// Two scans, of all and of the key held, and two puts, of that key and of one below it. No key is past a last.
#[test]
fn two_scans_and_two_puts() {
    let mut search = Search::default();
    let scripts: [&[Call]; 4] = [&[scan(3, 9)], &[scan(5, 5)], &[put(4, 2, 1)], &[put(5, 3, 1)]];
    search.go(&scope(2, 4, &[put(5, 2, 2)], &scripts));
    search.has_met_all_but(&[Meeting::SweptPastLast]);
}

/// Nothing is held at the start; all of it is made while the scan runs, or does not fit.
#[test]
fn scans_of_an_empty_store() {
    let mut search = Search::default();
    for (keys, versions) in [(1, 1), (2, 2), (3, 4)] {
        for span in [scan(1, 9), scan(5, 5), scan(4, 4), scan(6, 9)] {
            let puts = [put(5, 2, 1), put(3, 2, 2), put(5, 2, 1)];
            search.go(&scope(keys, versions, &[], &[&[span, span], &puts]));
        }
    }
    search.has_met_all_but(&[Meeting::TwoFollow, Meeting::WaitBeside]);
}

/// Points told apart by their ticks too, up to a limit that the scan runs into.
#[test]
fn ticks_of_scans() {
    with_ticks(2, 2, 27, &[&[scan(1, 9)], &[put(5, 2, 2)]]);
    with_ticks(2, 2, 12, &[&[scan(4, 5)], &[put(5, 2, 1)], &[scan(1, 9)]]);
}

/// Ends of spans and keys that differ in one half only.
#[test]
fn spans_over_keys_that_agree_in_one_half() {
    let first = [put(LAST_OF_32, 5, 1), put(SAME_LOW, 5, 2)];
    let keys = [SHORT, LAST_OF_32, FIRST_BEYOND, SAME_LOW];
    let spans = (0..4).flat_map(|one| (one..4).map(move |other| scan(keys[one], keys[other])));
    let mut search = Search::default();
    for span in spans {
        for key in keys {
            search.go(&scope(4, 4, &first, &[&[span], &[put(key, 6, 4)]]));
        }
        search.go(&scope(4, 4, &first, &[&[span], &[scan(FIRST_BEYOND, u64::MAX - 1)]]));
    }
    search.has_met_all_but(&[Meeting::WaitBeside]);
}
