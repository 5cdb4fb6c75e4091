//! A sheet program run as it is: a sheet to its standard input, its standard output back.

use crate::random::Random;
use std::io::{self, Read, Write};
use std::process::{Child, ChildStdin, Command, ExitStatus, Stdio};
use std::sync::mpsc;
use std::thread;
use std::time::{Duration, Instant};

/// How a sheet is written to the program.
#[derive(Clone, Copy, Debug, PartialEq, Eq)]
pub enum Feed {
    Whole,
    /// In writes of 1 to 20 bytes by this seed, so that commands lie across reads.
    Pieces(u64),
}

/// A program, its arguments, and how long it may take for one sheet.
#[derive(Clone, Debug)]
pub struct Program {
    pub path: String,
    pub arguments: Vec<String>,
    pub patience: Duration,
}

impl Program {
    pub fn new(path: &str) -> Program {
        Program { path: path.to_string(), arguments: Vec::new(), patience: Duration::from_secs(120) }
    }

    /// What the program prints for a sheet, or why it did not end well.
    pub fn run(&self, sheet: &[u8], feed: Feed) -> Result<Vec<u8>, String> {
        let mut child = self.spawn().map_err(|error| format!("{} does not start: {error}", self.path))?;
        let stdin = child.stdin.take().expect("piped");
        let mut stdout = child.stdout.take().expect("piped");
        let end = Instant::now() + self.patience;
        thread::scope(|scope| {
            scope.spawn(move || feed.write(sheet, stdin));
            let (sender, receiver) = mpsc::channel();
            scope.spawn(move || {
                let mut printed = Vec::new();
                let read = stdout.read_to_end(&mut printed);
                // Nobody waits any more once the patience is over.
                let _ = sender.send(read.map(|_| printed));
            });
            let printed = receiver.recv_timeout(self.patience);
            let status = wait(&mut child, end).ok_or(format!("it has not ended after {:?}", self.patience))?;
            let printed = printed.map_err(|error| error.to_string())?.map_err(|error| error.to_string())?;
            if status.success() {
                Ok(printed)
            } else {
                Err(format!("it ended with {status}, {} bytes printed", printed.len()))
            }
        })
    }

    fn spawn(&self) -> io::Result<Child> {
        Command::new(&self.path).args(&self.arguments).stdin(Stdio::piped()).stdout(Stdio::piped()).spawn()
    }
}

/// Waits for the program up to this time; ends it and answers nothing where it runs on.
fn wait(child: &mut Child, end: Instant) -> Option<ExitStatus> {
    loop {
        if let Ok(Some(status)) = child.try_wait() {
            return Some(status);
        }
        if Instant::now() > end {
            let _ = child.kill();
            let _ = child.wait();
            return None;
        }
        thread::sleep(Duration::from_micros(50));
    }
}

/// So many pieces are written with a pause behind each, for the program to read it alone.
const PAUSES: u32 = 200;
const PAUSE: Duration = Duration::from_micros(30);
/// The program has started and waits for more after this time.
const START: Duration = Duration::from_millis(2);

impl Feed {
    /// Writes the sheet. A program that has ended reads no more; that is no fault.
    fn write(self, sheet: &[u8], mut stdin: ChildStdin) {
        let _ = match self {
            Feed::Whole => stdin.write_all(sheet),
            Feed::Pieces(seed) => write_pieces(sheet, &mut stdin, Random::new(seed)),
        };
    }
}

fn write_pieces(mut sheet: &[u8], stdin: &mut ChildStdin, mut random: Random) -> io::Result<()> {
    let mut written = 0;
    while !sheet.is_empty() {
        let size = random.within(1, 20).min(sheet.len() as u32) as usize;
        stdin.write_all(&sheet[..size])?;
        stdin.flush()?;
        sheet = &sheet[size..];
        if written < PAUSES {
            thread::sleep(if written == 0 { START } else { PAUSE });
            written += 1;
        }
    }
    Ok(())
}
