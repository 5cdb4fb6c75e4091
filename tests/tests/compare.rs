//! The comparison itself: it passes the model's own program and objects to others.

use std::process::{Command, Output};
use std::time::Duration;
use store_tests::compare::{difference, seeds, Difference, Fault, Feed, Program};
use store_tests::generate::{self, Plan};
use store_tests::{sheet, text};

const REFERENCE: &str = env!("CARGO_BIN_EXE_reference");

fn compare(arguments: &[&str]) -> Output {
    Command::new(env!("CARGO_BIN_EXE_compare")).args(arguments).output().unwrap()
}

fn printed(output: &Output) -> String {
    String::from_utf8(output.stdout.clone()).unwrap()
}

/// A shell's command in place of a program.
fn shell(command: &str) -> Program {
    Program { arguments: vec!["-c".into(), command.into(), REFERENCE.into()], ..Program::new("sh") }
}

#[test]
fn reference_is_the_same() {
    let output = compare(&[REFERENCE, "--sheets", "24", "--from", "12"]);
    assert!(output.status.success());
    let printed = printed(&output);
    let lines: Vec<&str> = printed.lines().collect();
    assert_eq!(lines[0], "seeds 12 to 35");
    assert!(lines[1].starts_with("same: 24 sheets, ") && lines[1].ends_with(" seconds"), "{}", lines[1]);
}

#[test]
fn reference_is_the_same_in_pieces() {
    let output = compare(&[REFERENCE, "--sheets", "10", "--from", "30", "--pieces"]);
    assert!(output.status.success());
    assert!(printed(&output).contains("same: 10 sheets in pieces, "));
}

/// The program's third line is another; the report has the seed, both lines and the commands up to there.
#[test]
fn first_difference_is_told_with_its_sheet() {
    let wrong = shell("\"$0\" | sed '3s/.*/step 9 9 on/'");
    let seed = (0..).find(|&seed| generate::plan(seed).0 == Plan::Crowded).unwrap();
    let failure = seeds(&wrong, seed..seed + 1, false).unwrap_err();
    let due: Vec<String> = sheet::run(&generate::sheet(seed)).lines().map(|line| format!("{line}\n")).collect();
    let Fault::Printed { difference, lines } = failure.fault.clone() else { panic!("{failure}") };
    let expected = Difference { line: 3, model: Some(due[2].clone()), program: Some("step 9 9 on\n".into()) };
    assert_eq!((failure.seed, difference), (seed, expected));
    assert_eq!(sheet::run(&text::write(&lines).unwrap()), due[..3].concat());
    let told = failure.to_string();
    let head = format!("seed {seed} (Crowded)\nline 3 differs\nmodel   {:?}\nprogram \"step 9 9 on\\n\"\n", due[2]);
    assert!(told.starts_with(&head), "{told}");
    assert!(told.ends_with(&format!("the sheet up to there:\n{lines}")), "{told}");
}

#[test]
fn differences_at_the_end() {
    let of = |line, model: Option<&str>, program: Option<&str>| {
        Some(Difference { line, model: model.map(String::from), program: program.map(String::from) })
    };
    assert_eq!(difference("a\nb\n", b"a\nb\n"), None);
    assert_eq!(difference("a\nb\n", b"a\nb"), of(2, Some("b\n"), Some("b")));
    assert_eq!(difference("a\nb\n", b"a\n"), of(2, Some("b\n"), None));
    assert_eq!(difference("a\n", b"a\nb\n"), of(2, None, Some("b\n")));
    assert_eq!(difference("a\n", b"\xFF\n"), of(1, Some("a\n"), Some("\u{FFFD}\n")));
}

#[test]
fn difference_ends_the_comparison_with_status_1() {
    let output = compare(&["cat", "--sheets", "3"]);
    assert_eq!(output.status.code(), Some(1));
    assert!(printed(&output).starts_with("seeds 0 to 2\nseed 0 (Tiny)\nline 1 differs\n"));
}

#[test]
fn programs_that_fail_are_told() {
    let why = |program: Program| program.run(b"I", Feed::Whole).unwrap_err();
    assert!(why(Program::new("/no/such/program")).contains("does not start"));
    assert_eq!(why(shell("\"$0\"; exit 3")), "it ended with exit status: 3, 11 bytes printed");
    assert!(why(shell("kill -9 $$")).contains("signal: 9"));
    let patience = Duration::from_millis(200);
    let hanging = Program { patience, ..shell("exec sleep 60") };
    assert_eq!(why(hanging), "it has not ended after 200ms");
    let silent = Program { patience, ..shell("exec sleep 60 >&-") };
    assert_eq!(why(silent), "it has not ended after 200ms");
}

#[test]
fn pieces_arrive_whole_and_in_order() {
    let sheet: Vec<u8> = (0..3_000u32).map(|byte| byte as u8).collect();
    for seed in 0..3 {
        assert_eq!(Program::new("cat").run(&sheet, Feed::Pieces(seed)), Ok(sheet.clone()));
    }
}

/// A read takes all that is there, so a program that starts late meets many pieces at once: one of some runs is enough.
#[test]
fn pieces_are_read_apart() {
    let reads = shell("dd bs=4096 of=/dev/null 2>&1 | sed -n 's/.*+\\([0-9]*\\) records in/\\1/p'");
    let counts = (0..50).map(|seed| {
        let counted = String::from_utf8(reads.run(&[0; 3_000], Feed::Pieces(seed)).unwrap()).unwrap();
        counted.trim().parse::<u32>().unwrap()
    });
    assert!(counts.into_iter().any(|count| count > 20));
}

#[test]
fn bad_usage_is_told() {
    let wrong: [&[&str]; 6] =
        [&[], &["--kinds", "x"], &["a", "b"], &["a", "--sheets"], &["a", "--from", "-1"], &["a", "--other"]];
    for arguments in wrong {
        assert_eq!(compare(arguments).status.code(), Some(2), "{arguments:?}");
    }
    let beyond = compare(&["a", "--from", "18446744073709551615", "--sheets", "2"]);
    assert_eq!(beyond.status.code(), Some(2));
}

#[test]
fn kinds_are_counted() {
    let printed = printed(&compare(&["--kinds", "--sheets", "1"]));
    let lines = printed.lines().take_while(|&line| line != "keys:");
    let counted: u64 = lines.filter_map(|line| line.split_whitespace().next()?.parse::<u64>().ok()).sum();
    assert_eq!(counted, sheet::run(&generate::sheet(0)).lines().count() as u64);
    assert!(printed.ends_with("refused 10, refused 11 and fault cannot occur: they need altered memory\n"));
}
