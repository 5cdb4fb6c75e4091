//! The three programs, run as they are.

use std::io::Write;
use std::process::{Command, Output, Stdio};
use store_tests::{generate, sheet, text};

fn run(program: &str, arguments: &[&str], input: &[u8]) -> Output {
    let mut child = Command::new(program)
        .args(arguments)
        .stdin(Stdio::piped())
        .stdout(Stdio::piped())
        .stderr(Stdio::piped())
        .spawn()
        .unwrap();
    let mut stdin = child.stdin.take().unwrap();
    let input = input.to_vec();
    let writer = std::thread::spawn(move || drop(stdin.write_all(&input)));
    let output = child.wait_with_output().unwrap();
    writer.join().unwrap();
    output
}

#[test]
fn reference_prints_the_lines() {
    let bytes = generate::sheet(1);
    let output = run(env!("CARGO_BIN_EXE_reference"), &[], &bytes);
    assert!(output.status.success());
    assert_eq!(output.stdout, sheet::run(&bytes).as_bytes());
}

#[test]
fn generate_writes_the_sheet_and_tells_the_seed() {
    let program = env!("CARGO_BIN_EXE_generate");
    let output = run(program, &["17"], &[]);
    assert_eq!(output.stdout, generate::sheet(17));
    assert!(String::from_utf8(output.stderr).unwrap().starts_with("seed 17:"));
    for arguments in [&[][..], &["x"], &["-1"], &["1", "2"]] {
        assert_eq!(run(program, arguments, &[]).status.code(), Some(2), "{arguments:?}");
    }
}

#[test]
fn sheet_text_goes_both_ways() {
    let program = env!("CARGO_BIN_EXE_sheet-text");
    let lines = b"open 2 3 1 40\nget 0 7\nsteps 0 6\n";
    let written = run(program, &["write"], lines);
    assert_eq!(Ok(written.stdout.clone()), text::write(std::str::from_utf8(lines).unwrap()));
    assert_eq!(run(program, &["explain"], &written.stdout).stdout, lines);
}

#[test]
fn sheet_text_tells_bad_lines() {
    let program = env!("CARGO_BIN_EXE_sheet-text");
    let output = run(program, &["write"], b"inspect\nstep\n");
    assert_eq!((output.status.code(), output.stdout), (Some(1), vec![]));
    assert_eq!(output.stderr, b"line 2: step takes station; 0 given\n");
    assert_eq!(run(program, &["write"], b"\xFF").status.code(), Some(1));
    assert_eq!(run(program, &["write", "/no/such/file"], b"").status.code(), Some(1));
    assert_eq!(run(program, &["unsay"], b"").status.code(), Some(2));
}
