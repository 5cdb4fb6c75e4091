//! The inspection's count of nodes by their tops, answers worked by hand from document 01: the same whether each level is
//! counted at its end or all are at once, a top above 5 as 5.

use store_tests::model::*;

const SOUND: Verdict = Verdict::Sound;
const ABOVE_5: [u32; 6] = [6, 7, 8, 13, 1 << 31, u32::MAX];

/// Trays 4, 6, 9 are nodes 1, 2, 3 with tops 5, 1, 0; there is room for one more. Level 0 has all three, level 1 has
/// nodes 1 and 2, levels 2 to 5 have node 1.
fn store() -> Store {
    let mut store = Store::closed(4, 4);
    store.open(1, 1_000).unwrap();
    for (key, draw) in [(4, 32), (6, 2), (9, 1)] {
        store.start_put(0, key, 7, 100, draw).unwrap();
        while !matches!(store.step(0).unwrap(), Step::Done(_)) {}
    }
    assert_eq!(store.inspect(), Ok(SOUND));
    store
}

fn fault(level: u32, node: u32) -> Verdict {
    Verdict::Fault { level, node }
}

/// The store inspected with other tops at some nodes.
fn with_tops(tops: &[(usize, u32)]) -> Verdict {
    let mut store = store();
    tops.iter().for_each(|&(node, top)| store.node_table[16 * node + 2] = top);
    store.inspect().unwrap()
}

#[test]
fn a_top_above_5_counts_as_5() {
    for top in ABOVE_5 {
        assert_eq!(with_tops(&[(1, top)]), SOUND, "linked on all levels, top {top}");
        assert_eq!(with_tops(&[(2, top)]), fault(2, 1), "linked up to level 1, top {top}");
        assert_eq!(with_tops(&[(3, top)]), fault(1, 2), "linked at level 0, top {top}");
        assert_eq!(with_tops(&[(1, top), (2, top), (3, top)]), fault(1, 2), "all, top {top}");
    }
}

/// The first level that lacks the node, whatever its top is there.
#[test]
fn a_top_too_high_is_found_by_the_count() {
    for top in 2..=5 {
        assert_eq!(with_tops(&[(2, top)]), fault(2, 1));
    }
    for top in 1..=5 {
        assert_eq!(with_tops(&[(3, top)]), fault(1, 2));
    }
}

/// Before the count: also where another node makes it come out right.
#[test]
fn a_top_too_low_is_found_at_the_link() {
    for top in 0..5 {
        assert_eq!(with_tops(&[(1, top)]), fault(top + 1, 0));
    }
    assert_eq!(with_tops(&[(2, 0)]), fault(1, 1));
    assert_eq!(with_tops(&[(2, 0), (3, 1)]), fault(1, 1));
}

#[test]
fn a_link_gone_is_found_by_the_count() {
    let without_link = |node: usize, level: usize, top: u32| {
        let mut store = store();
        store.node_table[16 + 2] = top;
        store.node_table[16 * node + 4 + level] = 0;
        store.inspect().unwrap()
    };
    for top in [5].into_iter().chain(ABOVE_5) {
        (0..6).for_each(|level| assert_eq!(without_link(0, level, top), fault(level as u32, 0), "top {top}"));
        assert_eq!(without_link(1, 1, top), fault(1, 1), "top {top}");
    }
}

#[test]
fn node_0_and_nodes_not_in_use_are_not_counted() {
    for top in (0..=5).chain(ABOVE_5) {
        assert_eq!(with_tops(&[(0, top), (4, top)]), SOUND, "top {top}");
    }
}
