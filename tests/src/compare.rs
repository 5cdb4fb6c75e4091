//! Another sheet program held against the model: the same sheets, the same printed bytes.

mod kinds;
mod program;

pub use kinds::Kinds;
pub use program::{Feed, Program};

use crate::generate;
use crate::sheet::{self, Command};
use crate::text;
use std::fmt;

/// What was compared so far.
#[derive(Clone, Copy, Debug, Default, PartialEq, Eq)]
pub struct Totals {
    pub sheets: u64,
    pub commands: u64,
    pub bytes: u64,
}

/// The first line in which the program and the model differ, from 1; none where one of them has ended.
#[derive(Clone, Debug, PartialEq, Eq)]
pub struct Difference {
    pub line: usize,
    pub model: Option<String>,
    pub program: Option<String>,
}

/// A sheet that the program failed on.
#[derive(Clone, Debug, PartialEq, Eq)]
pub struct Failure {
    pub seed: u64,
    pub fault: Fault,
}

#[derive(Clone, Debug, PartialEq, Eq)]
pub enum Fault {
    /// The program did not start or did not end well.
    Run(String),
    /// It printed something else; `lines` is the sheet as text up to the difference.
    Printed { difference: Difference, lines: String },
}

impl fmt::Display for Failure {
    fn fmt(&self, f: &mut fmt::Formatter) -> fmt::Result {
        writeln!(f, "seed {} ({:?})", self.seed, generate::plan(self.seed).0)?;
        match &self.fault {
            Fault::Run(why) => write!(f, "{why}"),
            Fault::Printed { difference, lines } => write!(f, "{difference}\nthe sheet up to there:\n{lines}"),
        }
    }
}

impl fmt::Display for Difference {
    fn fmt(&self, f: &mut fmt::Formatter) -> fmt::Result {
        let told = |line: &Option<String>| line.as_ref().map_or("nothing".to_string(), |line| format!("{line:?}"));
        writeln!(f, "line {} differs", self.line)?;
        write!(f, "model   {}\nprogram {}", told(&self.model), told(&self.program))
    }
}

/// Compares the sheets of these seeds; stops at the first that differs. In pieces, a sheet's seed also gives its pieces.
pub fn seeds(program: &Program, seeds: impl Iterator<Item = u64>, pieces: bool) -> Result<Totals, Failure> {
    let mut totals = Totals::default();
    for seed in seeds {
        let feed = if pieces { Feed::Pieces(seed) } else { Feed::Whole };
        let printed = one(program, &generate::sheet(seed), feed).map_err(|fault| Failure { seed, fault })?;
        totals.sheets += 1;
        totals.commands += printed.lines().count() as u64;
        totals.bytes += printed.len() as u64;
    }
    Ok(totals)
}

/// Compares one sheet; answers what both print.
fn one(program: &Program, sheet: &[u8], feed: Feed) -> Result<String, Fault> {
    let due = sheet::run(sheet);
    let printed = program.run(sheet, feed).map_err(Fault::Run)?;
    match difference(&due, &printed) {
        None => Ok(due),
        Some(difference) => {
            let lines = text::explain(first_commands(sheet, difference.line));
            Err(Fault::Printed { difference, lines })
        }
    }
}

/// The first differing line of what the model and the program print.
pub fn difference(model: &str, program: &[u8]) -> Option<Difference> {
    if model.as_bytes() == program {
        return None;
    }
    let mut ours = model.as_bytes().split_inclusive(|&byte| byte == b'\n');
    let mut theirs = program.split_inclusive(|&byte| byte == b'\n');
    for line in 1.. {
        let (model, program) = (ours.next(), theirs.next());
        if model != program {
            let told = |line: Option<&[u8]>| line.map(|bytes| String::from_utf8_lossy(bytes).into_owned());
            return Some(Difference { line, model: told(model), program: told(program) });
        }
    }
    unreachable!("bytes that differ have a line that differs")
}

/// The bytes of so many commands: those behind as many lines. All bytes where a command ends the run.
fn first_commands(sheet: &[u8], count: usize) -> &[u8] {
    let mut rest = sheet;
    for _ in 0..count {
        if rest.is_empty() {
            break;
        }
        let Ok((_, after)) = Command::decode(rest) else { return sheet };
        rest = after;
    }
    &sheet[..sheet.len() - rest.len()]
}
