//! `sheet-text write [FILE]`: lines to a sheet; `sheet-text explain [FILE]`: a sheet to lines.
//! Without a file it reads standard input. It writes to standard output; bad lines are told on standard error.

use std::io::{self, Read, Write};
use std::process::ExitCode;
use store_tests::text;

const USAGE: &str = "usage: sheet-text write|explain [FILE]
lines: open TRAYS READINGS STATIONS LIMIT | put STATION TRAY VALUE STAMP DRAW | get STATION TRAY
       step STATION | steps STATION TIMES | look TRAY BACK | inspect | bytes BYTE... | # comment
       put8, get8, look8: the eight-byte command also where four bytes hold the tray";

fn main() -> ExitCode {
    let given: Vec<String> = std::env::args().skip(1).collect();
    let (task, file) = match given.as_slice() {
        [task] => (task.as_str(), None),
        [task, file] => (task.as_str(), Some(file.as_str())),
        _ => ("", None),
    };
    if !matches!(task, "write" | "explain") {
        eprintln!("{USAGE}");
        return ExitCode::from(2);
    }
    match input(file).map_err(|error| error.to_string()).and_then(|bytes| output(task, &bytes)) {
        Ok(()) => ExitCode::SUCCESS,
        Err(why) => {
            eprintln!("{why}");
            ExitCode::FAILURE
        }
    }
}

fn input(file: Option<&str>) -> io::Result<Vec<u8>> {
    let mut bytes = Vec::new();
    match file {
        Some(file) => bytes = std::fs::read(file)?,
        None => drop(io::stdin().read_to_end(&mut bytes)?),
    }
    Ok(bytes)
}

fn output(task: &str, bytes: &[u8]) -> Result<(), String> {
    let made = if task == "explain" {
        text::explain(bytes).into_bytes()
    } else {
        let lines = std::str::from_utf8(bytes).map_err(|_| "the lines are not UTF-8 text".to_string())?;
        text::write(lines).map_err(|bad| bad.iter().map(|bad| bad.to_string()).collect::<Vec<_>>().join("\n"))?
    };
    io::stdout().write_all(&made).map_err(|error| error.to_string())
}
