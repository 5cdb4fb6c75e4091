//! The functions of the interface that are lent nothing.

use crate::interface::Interface;
use crate::words::{LAYOUT, STATE};
use store_tests::model::{COUNTS, MAX_KEYS, MAX_VERSIONS, NODE_WORDS, VERSION_WORDS};

/// Every count that could be meant, and far ones whose words do not fit 32 bits or whose lowest bits are lawful.
fn counts() -> impl Iterator<Item = u32> {
    let far = (0..32).flat_map(|bit| (0..8).map(move |more| (1 << bit) | more));
    (0..70_000).chain(far).chain(u32::MAX - 70..=u32::MAX)
}

/// Holds the sizes to the header; the failure says which is wrong.
pub fn check(interface: &Interface) -> Result<(), String> {
    // SAFETY: numbers in, numbers out.
    let fixed = unsafe { [(interface.version)() as usize, (interface.state_words)(), (interface.tally_words)()] };
    if fixed != [LAYOUT as usize, STATE, COUNTS] {
        return Err(format!("version, state words, tally words: {fixed:?}"));
    }
    for count in counts() {
        let nodes = words(count, MAX_KEYS, NODE_WORDS);
        let versions = words(count, MAX_VERSIONS, VERSION_WORDS);
        // SAFETY: as above.
        let found = unsafe { ((interface.node_words)(count), (interface.reading_words)(count)) };
        if found != (nodes, versions) {
            return Err(format!("node words and reading words of {count}: {found:?}"));
        }
    }
    Ok(())
}

fn words(count: u32, most: u32, record: usize) -> usize {
    if (1..=most).contains(&count) {
        record * (count as usize + 1)
    } else {
        0
    }
}
