//! The sheets under `examples/`, held to their stored output.

use std::path::PathBuf;
use store_tests::{sheet, text};

fn examples() -> Vec<PathBuf> {
    let folder = PathBuf::from(env!("CARGO_MANIFEST_DIR")).join("../examples");
    let entries = std::fs::read_dir(folder).unwrap().map(|entry| entry.unwrap().path());
    entries.filter(|path| path.extension().is_some_and(|extension| extension == "txt")).collect()
}

#[test]
fn examples_print_their_stored_output() {
    let examples = examples();
    assert!(examples.len() >= 3);
    for path in examples {
        let lines = std::fs::read_to_string(&path).unwrap();
        let due = std::fs::read_to_string(path.with_extension("out")).unwrap();
        assert_eq!(sheet::run(&text::write(&lines).unwrap()), due, "{}", path.display());
    }
}
