//! The sheet that the gate runs the proved program on is the examples, one behind another, and what it must print is ours.

use std::fs;
use std::path::PathBuf;
use store_tests::{sheet, text};

/// The last one ends the run before its own end.
const EXAMPLES: [&str; 4] = ["printed", "two-stations", "bench", "ending"];

fn file(name: &str) -> PathBuf {
    PathBuf::from(env!("CARGO_MANIFEST_DIR")).join("..").join(name)
}

#[test]
fn the_stored_sheet_is_the_examples() {
    let mut lines = String::new();
    for example in EXAMPLES {
        lines += &fs::read_to_string(file(&format!("examples/{example}.txt"))).unwrap();
    }
    assert_eq!(fs::read(file("crates/sheet/stdin")).unwrap(), text::write(&lines).unwrap());
}

#[test]
fn the_stored_output_is_the_models() {
    let stored = fs::read(file("crates/sheet/stdin")).unwrap();
    assert_eq!(fs::read_to_string(file("crates/sheet/stdout")).unwrap(), sheet::run(&stored));
}
