//! A sheet program at the edges of a run. The program's path is the environment variable SHEET; without it these tests
//! are skipped with a note.

use std::fs::File;
use std::io::{Read, Write};
use std::os::fd::OwnedFd;
use std::os::unix::net::UnixStream;
use std::os::unix::process::ExitStatusExt;
use std::process::{Child, Command, Stdio};
use std::thread;
use std::time::{Duration, Instant};
use store_tests::compare::{difference, Feed, Program};
use store_tests::{generate, sheet};

/// The program under test, if one is named.
fn program() -> Option<String> {
    let path = std::env::var("SHEET").ok().filter(|path| !path.is_empty());
    if path.is_none() {
        println!("skipped: SHEET names no program");
    }
    path
}

/// Writes the sheet to the program in the background, since a program that hangs may not read it.
fn feed(child: &mut Child, sheet: &[u8]) {
    let mut stdin = child.stdin.take().unwrap();
    let sheet = sheet.to_vec();
    // The program may end before it has read all.
    thread::spawn(move || drop(stdin.write_all(&sheet)));
}

const PATIENCE: Duration = Duration::from_secs(60);

/// Waits for the program and answers its exit status, or the signal that ended it, and what it says on standard error; fails,
/// and ends it, where it hangs.
fn ends(mut child: Child) -> (Result<i32, i32>, String) {
    let end = Instant::now() + PATIENCE;
    let status = loop {
        if let Some(status) = child.try_wait().unwrap() {
            break status;
        }
        if Instant::now() > end {
            child.kill().unwrap();
            panic!("the program hangs");
        }
        thread::sleep(Duration::from_millis(1));
    };
    let mut said = String::new();
    child.stderr.take().unwrap().read_to_string(&mut said).unwrap();
    (status.code().ok_or_else(|| status.signal().unwrap()), said)
}

/// Starts the program through a shell that first does this.
fn after(preparation: &str, path: &str) -> Command {
    let mut command = Command::new("sh");
    command.args(["-c", &format!("{preparation} exec \"$0\""), path]);
    command
}

/// Whether the program says this and nothing else, and ends as any program does.
fn says(child: Child, call: &str, error: &str) {
    assert_eq!(ends(child), (Ok(0), format!("sheet: {call}: {error}\n")));
}

#[test]
fn empty_sheet_prints_nothing() {
    let Some(path) = program() else { return };
    assert_eq!(Program::new(&path).run(b"", Feed::Whole), Ok(vec![]));
}

/// Once with the signal that a closed pipe sends left as it is, once with it ignored: the program ignores it, and is told by the
/// failing write.
#[test]
fn closed_output_ends_the_program() {
    let Some(path) = program() else { return };
    let sheet = generate::long_sheet(1, 200_000);
    for ignored in [false, true] {
        let mut command = after(if ignored { "trap '' PIPE;" } else { "" }, &path);
        let mut child = command.stdin(Stdio::piped()).stdout(Stdio::piped()).stderr(Stdio::piped()).spawn().unwrap();
        drop(child.stdout.take());
        feed(&mut child, &sheet);
        says(child, "standard output", "Broken pipe");
    }
}

#[test]
fn full_device_is_told() {
    let Some(path) = program() else { return };
    let full = File::options().write(true).open("/dev/full").unwrap();
    let mut child = Command::new(path).stdin(Stdio::piped()).stdout(full).stderr(Stdio::piped()).spawn().unwrap();
    feed(&mut child, &generate::long_sheet(2, 200_000));
    says(child, "standard output", "No space left on device");
}

/// A folder, and no input at all.
#[test]
fn unreadable_input_is_told() {
    let Some(path) = program() else { return };
    let folder = File::open("/").unwrap();
    let child = Command::new(&path).stdin(folder).stdout(Stdio::null()).stderr(Stdio::piped()).spawn().unwrap();
    says(child, "standard input", "Is a directory");
    let child = after("exec <&-;", &path).stdout(Stdio::null()).stderr(Stdio::piped()).spawn().unwrap();
    says(child, "standard input", "Bad file descriptor");
}

/// The bytes come late and in two parts, and the lines are read late: a descriptor that does not wait is not an end.
#[test]
fn descriptors_that_do_not_wait_are_waited_for() {
    let Some(path) = program() else { return };
    let sheet = generate::long_sheet(4, 50_000);
    let due = sheet::run(&sheet);
    let (mut writer, stdin) = UnixStream::pair().unwrap();
    let (mut reader, stdout) = UnixStream::pair().unwrap();
    stdin.set_nonblocking(true).unwrap();
    stdout.set_nonblocking(true).unwrap();
    let (stdin, stdout) = (OwnedFd::from(stdin), OwnedFd::from(stdout));
    let child = Command::new(path).stdin(stdin).stdout(stdout).stderr(Stdio::piped()).spawn().unwrap();
    thread::spawn(move || {
        let (first, second) = sheet.split_at(1_001);
        for part in [first, second] {
            thread::sleep(Duration::from_millis(20));
            writer.write_all(part).unwrap();
        }
    });
    thread::sleep(Duration::from_millis(100));
    let mut printed = Vec::new();
    reader.set_read_timeout(Some(PATIENCE)).unwrap();
    reader.read_to_end(&mut printed).unwrap();
    assert_eq!(ends(child), (Ok(0), String::new()));
    assert_eq!(difference(&due, &printed), None);
}

/// Every second call is interrupted, and no write takes all that it is given (tests/interrupted.c).
#[test]
fn interrupted_calls_are_made_again() {
    let Some(path) = program() else { return };
    let shim = std::env::temp_dir().join(format!("interrupted-{}.so", std::process::id()));
    let source = concat!(env!("CARGO_MANIFEST_DIR"), "/tests/interrupted.c");
    let compiler = std::env::var("CC").unwrap_or("cc".to_string());
    assert!(Command::new(compiler)
        .args(["-shared", "-fPIC", "-o"])
        .args([shim.as_os_str(), source.as_ref()])
        .status()
        .unwrap()
        .success());
    let sheet = generate::long_sheet(5, 50_000);
    let lines = std::env::temp_dir().join(format!("interrupted-{}.out", std::process::id()));
    let mut command = Command::new(path);
    command.env("LD_PRELOAD", &shim).stdin(Stdio::piped()).stdout(File::create(&lines).unwrap()).stderr(Stdio::piped());
    let mut child = command.spawn().unwrap();
    feed(&mut child, &sheet);
    let (status, said) = ends(child);
    let printed = std::fs::read(&lines).unwrap();
    std::fs::remove_file(&shim).unwrap();
    std::fs::remove_file(&lines).unwrap();
    assert!(status == Ok(0) && said.starts_with("interrupted: ") && !said.contains("sheet:"), "{status:?} {said}");
    assert_eq!(difference(&sheet::run(&sheet), &printed), None);
}

#[test]
fn a_million_commands() {
    let Some(path) = program() else { return };
    let sheet = generate::long_sheet(3, 1_000_000);
    let due = sheet::run(&sheet);
    let begun = Instant::now();
    let printed = Program::new(&path).run(&sheet, Feed::Whole).unwrap();
    println!("{} commands in {:.2} seconds", due.lines().count(), begun.elapsed().as_secs_f64());
    assert_eq!(difference(&due, &printed), None);
}
