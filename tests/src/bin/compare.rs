//! `compare PROGRAM`: random sheets through another sheet program and through the model, byte for byte.
//! `compare --kinds`: how many lines and keys of each kind these sheets have. Exit status 1 at the first difference.

use std::fmt::Display;
use std::io::{self, Write};
use std::ops::Range;
use std::process::ExitCode;
use std::time::Instant;
use store_tests::compare::{self, Kinds, Program};
use store_tests::generate;

const USAGE: &str = "usage: compare PROGRAM [--sheets N] [--from SEED] [--pieces]
       compare --kinds [--sheets N] [--from SEED]";

struct Options {
    program: Option<String>,
    sheets: u64,
    from: u64,
    pieces: bool,
    kinds: bool,
}

fn options(mut given: impl Iterator<Item = String>) -> Option<Options> {
    let mut options = Options { program: None, sheets: 1_000, from: 0, pieces: false, kinds: false };
    while let Some(word) = given.next() {
        match word.as_str() {
            "--sheets" => options.sheets = given.next()?.parse().ok()?,
            "--from" => options.from = given.next()?.parse().ok()?,
            "--pieces" => options.pieces = true,
            "--kinds" => options.kinds = true,
            _ if word.starts_with("--") || options.program.is_some() => return None,
            _ => options.program = Some(word),
        }
    }
    let fits = options.from.checked_add(options.sheets).is_some();
    (fits && options.program.is_some() != options.kinds).then_some(options)
}

fn main() -> ExitCode {
    let Some(options) = options(std::env::args().skip(1)) else {
        eprintln!("{USAGE}");
        return ExitCode::from(2);
    };
    let seeds = options.from..options.from + options.sheets;
    tell(format_args!("seeds {} to {}", seeds.start, seeds.end.saturating_sub(1)));
    match options.program {
        Some(path) => compare_with(&Program::new(&path), seeds, options.pieces),
        None => tell_kinds(seeds),
    }
}

/// Prints a line. A report that is read only in part (`compare .. | head`) is no fault.
fn tell(line: impl Display) {
    let _ = writeln!(io::stdout(), "{line}");
}

fn compare_with(program: &Program, seeds: Range<u64>, pieces: bool) -> ExitCode {
    let begun = Instant::now();
    match compare::seeds(program, seeds, pieces) {
        Ok(totals) => {
            let feed = if pieces { " in pieces" } else { "" };
            let seconds = begun.elapsed().as_secs_f64();
            let compare::Totals { sheets, commands, bytes } = totals;
            tell(format_args!(
                "same: {sheets} sheets{feed}, {commands} commands, {bytes} bytes compared, {seconds:.1} seconds"
            ));
            ExitCode::SUCCESS
        }
        Err(failure) => {
            tell(failure);
            ExitCode::FAILURE
        }
    }
}

fn tell_kinds(seeds: Range<u64>) -> ExitCode {
    let mut kinds = Kinds::default();
    seeds.for_each(|seed| kinds.count(&generate::sheet(seed)));
    tell(kinds);
    ExitCode::SUCCESS
}
