//! A number without meaning in the words of a station: which calls it refuses, one by one and not by the model; and that
//! the greatest with a meaning refuses none.

use crate::fence::Side;
use crate::interface::Interface;
use crate::subject::Subject;
use crate::words::{words_of, Part, Words, KIND, NUMBERS};
use store_tests::damage::Operation;
use store_tests::ledger::Opening;
use store_tests::model::Call;

const STATIONS: u32 = 3;
/// The numbers returned on a fresh store by two starts, a step and a standing of station 0, a look and an inspection:
/// where all is known, where station 0 has the number, another below the count, one above it; and where station 0 has a
/// call.
const KNOWN: [u32; 6] = [0, 0, 8, 0, 12, 0];
const OWN: [u32; 6] = [10, 10, 10, 10, 12, 10];
const OTHER: [u32; 6] = [0, 0, 8, 0, 12, 10];
const ABOVE: [u32; 6] = KNOWN;
const BUSY: [u32; 6] = [7, 7, 0, 0, 12, 7];

fn operations() -> [Operation; 6] {
    let (process, key) = (0, 7);
    [
        Operation::Start { process, call: Call::Get { key } },
        Operation::Start { process, call: Call::Scan { first: key, last: key } },
        Operation::Step { process },
        Operation::Status { process },
        Operation::Look { key, back: 0 },
        Operation::Inspect,
    ]
}

/// The fresh store with one word of a station altered.
fn altered(fresh: &Words, station: usize, word: usize, to: u32) -> Words {
    let mut words = fresh.clone();
    words.part_mut(Part::State)[words_of(station)][word] = to;
    words
}

/// Each number of each station in turn, just past its greatest; and each greatest at station 0.
pub fn check(interface: &Interface) -> Result<(), String> {
    let fresh = Words::of(Opening { keys: 2, versions: 2, processes: STATIONS, limit: 9 }.fresh());
    same(interface, &fresh, KNOWN, "all known")?;
    for (word, greatest) in NUMBERS {
        let expected = if word == KIND { BUSY } else { KNOWN };
        same(interface, &altered(&fresh, 0, word, greatest), expected, &format!("word {word}, the greatest known"))?;
    }
    for station in 0..8 {
        for (word, greatest) in NUMBERS {
            let words = altered(&fresh, station, word, greatest + 1);
            let expected = match station as u32 {
                0 => OWN,
                1..STATIONS => OTHER,
                _ => ABOVE,
            };
            same(interface, &words, expected, &format!("word {word} of station {station}"))?;
        }
    }
    Ok(())
}

/// A call that is refused leaves the state; a start on other words leaves all stations but its own.
fn same(interface: &Interface, words: &Words, expected: [u32; 6], at: &str) -> Result<(), String> {
    let mut subject = Subject::new(interface);
    let rest = words_of(1).start;
    for (operation, expected) in operations().into_iter().zip(expected) {
        subject.lend(words, None, 0);
        let number = subject.call(operation, Side::End);
        if number != expected {
            return Err(format!("{at}, {operation:?}: expected {expected}, found {number}"));
        }
        let (left, lent) = (subject.words(Part::State), words.state());
        if left[rest..] != lent[rest..] || (number != 0 && left != lent) {
            return Err(format!("{at}, {operation:?}: the state is written"));
        }
    }
    Ok(())
}
