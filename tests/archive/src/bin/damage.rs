//! `damage [--calls N] [--from SEED] [--plan NAME]`: the archive's calls on random and altered words, each compared with
//! the model's; of one plan alone if it is named. Exit status 1 at the first difference, or where a kind of outcome was
//! never met.

use archive_tests::archive::ARCHIVE;
use archive_tests::run::{Run, ENOUGH};
use archive_tests::{sizes, unknown, watch};
use std::process::ExitCode;
use std::time::Instant;

const USAGE: &str = "usage: damage [--calls N] [--from SEED] [--plan NAME]";

struct Options {
    calls: u64,
    from: u64,
    plan: Option<String>,
}

fn options(mut given: impl Iterator<Item = String>) -> Option<Options> {
    let mut options = Options { calls: 400_000, from: 0, plan: None };
    while let Some(word) = given.next() {
        match word.as_str() {
            "--calls" => options.calls = given.next()?.parse().ok()?,
            "--from" => options.from = given.next()?.parse().ok()?,
            "--plan" => options.plan = Some(given.next()?),
            _ => return None,
        }
    }
    Some(options)
}

fn main() -> ExitCode {
    let Some(options) = options(std::env::args().skip(1)) else {
        eprintln!("{USAGE}");
        return ExitCode::from(2);
    };
    watch::begin();
    let first = sizes::check(&ARCHIVE).and_then(|()| unknown::check(&ARCHIVE));
    match first.and_then(|()| compare(&options)) {
        Ok(()) => ExitCode::SUCCESS,
        Err(failure) => {
            println!("{failure}");
            ExitCode::FAILURE
        }
    }
}

fn compare(options: &Options) -> Result<(), String> {
    let begun = Instant::now();
    let mut run = Run::new(&ARCHIVE);
    if let Some(plan) = &options.plan {
        run.keep_to(plan).ok_or_else(|| format!("no plan has the name {plan}"))?;
    }
    let next = run.calls(options.from, options.calls).map_err(|failure| failure.to_string())?;
    println!("{}\ncalls by plan: {}", run.met, run.plans());
    let (calls, seconds) = (run.calls, begun.elapsed().as_secs_f64());
    println!("same: {calls} calls of seeds {} to {next}, the last not included, {seconds:.1} seconds", options.from);
    if next - options.from < ENOUGH || options.plan.is_some() {
        println!("fewer than {ENOUGH} seeds of all plans: not all kinds of outcome are asked for");
        return Ok(());
    }
    run.met.complete()
}
