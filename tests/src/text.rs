//! Sheets as readable lines, for people.
//!
//! ```text
//! # a comment; numbers are decimal or 0x
//! open 2 3 1 40          trays readings stations limit
//! put 0 7 250 100 8      station tray value stamp draw
//! get 0 7                station tray
//! step 0                 station
//! steps 0 6              station times
//! look 7 0               tray back
//! inspect
//! bytes 0xFF 1 2         raw bytes: what no command says
//! ```
//!
//! (The words on the right are no part of the lines.) `put`, `get` and `look` take any tray number of 64 bits: in the
//! four-byte command where four bytes hold it, else in the eight-byte one. `put8`, `get8` and `look8` are always the
//! eight-byte command.
//!
//! [`write`] makes bytes of lines, [`explain`] lines of bytes; `write(&explain(bytes))` gives `bytes` back, whatever
//! they are. So a line of `explain` has the 8 exactly where a command has eight bytes for a tray that four would hold.

use crate::model::Refusal;
use crate::sheet::{Command, Key};

/// Most steps that one line may ask for.
pub const MOST_STEPS: u64 = 1_000_000;

/// A line that cannot be written: its number from 1, and why.
#[derive(Clone, Debug, PartialEq, Eq)]
pub struct BadLine {
    pub line: usize,
    pub why: String,
}

impl std::fmt::Display for BadLine {
    fn fmt(&self, f: &mut std::fmt::Formatter) -> std::fmt::Result {
        write!(f, "line {}: {}", self.line, self.why)
    }
}

/// The sheet of these lines, or all the bad ones.
pub fn write(text: &str) -> Result<Vec<u8>, Vec<BadLine>> {
    let mut bytes = Vec::new();
    let mut bad = Vec::new();
    for (index, line) in text.lines().enumerate() {
        let said = line.split('#').next().unwrap_or("");
        let words: Vec<&str> = said.split_whitespace().collect();
        if let Err(why) = write_line(&words, &mut bytes) {
            bad.push(BadLine { line: index + 1, why });
        }
    }
    if bad.is_empty() {
        Ok(bytes)
    } else {
        Err(bad)
    }
}

fn write_line(words: &[&str], bytes: &mut Vec<u8>) -> Result<(), String> {
    let Some((&word, operands)) = words.split_first() else { return Ok(()) };
    let command = match word {
        "open" => {
            let [keys, versions, processes, limit] = numbers(word, operands, [TRAYS, READINGS, STATIONS, LIMIT])?;
            Command::Open {
                keys: keys as u16,
                versions: versions as u16,
                processes: processes as u8,
                limit: limit as u32,
            }
        }
        "put" | "put8" => {
            let [process, key, value, timestamp, draw] = numbers(word, operands, [STATION, TRAY, VALUE, STAMP, DRAW])?;
            let (key, value, timestamp) = (carried(word, key), value as u32, timestamp as u32);
            Command::Put { process: process as u8, key, value, timestamp, draw: draw as u16 }
        }
        "get" | "get8" => {
            let [process, key] = numbers(word, operands, [STATION, TRAY])?;
            Command::Get { process: process as u8, key: carried(word, key) }
        }
        "step" => Command::Step { process: numbers(word, operands, [STATION])?[0] as u8 },
        "steps" => {
            let [process, times] = numbers(word, operands, [STATION, TIMES])?;
            (0..times).for_each(|_| Command::Step { process: process as u8 }.encode(bytes));
            return Ok(());
        }
        "look" | "look8" => {
            let [key, back] = numbers(word, operands, [TRAY, BACK])?;
            Command::Look { key: carried(word, key), back: back as u16 }
        }
        "inspect" => numbers(word, operands, []).map(|[]| Command::Inspect)?,
        "bytes" => return write_bytes(operands, bytes),
        _ => return Err(format!("unknown word \"{word}\" (known: {KNOWN})")),
    };
    command.encode(bytes);
    Ok(())
}

const KNOWN: &str = "open put put8 get get8 step steps look look8 inspect bytes";

/// The key in the width that the word asks for.
fn carried(word: &str, key: u64) -> Key {
    if word.ends_with('8') {
        Key::Eight(key)
    } else {
        Key::short(key)
    }
}

/// The word that asks for the key's width: `carried` backwards.
fn asking(word: &str, key: Key) -> String {
    let eight = if key == Key::short(key.number()) { "" } else { "8" };
    format!("{word}{eight}")
}

fn write_bytes(operands: &[&str], bytes: &mut Vec<u8>) -> Result<(), String> {
    let read: Result<Vec<u64>, String> = operands.iter().map(|word| number(word, BYTE)).collect();
    bytes.extend(read?.into_iter().map(|byte| byte as u8));
    Ok(())
}

/// An operand's name and its greatest number.
type Operand = (&'static str, u64);
const TRAYS: Operand = ("trays", 0xFFFF);
const READINGS: Operand = ("readings", 0xFFFF);
const STATIONS: Operand = ("stations", 0xFF);
const LIMIT: Operand = ("limit", 0xFFFF_FFFF);
const STATION: Operand = ("station", 0xFF);
const TRAY: Operand = ("tray", u64::MAX);
const VALUE: Operand = ("value", 0xFFFF_FFFF);
const STAMP: Operand = ("stamp", 0xFFFF_FFFF);
const DRAW: Operand = ("draw", 0xFFFF);
const BACK: Operand = ("back", 0xFFFF);
const TIMES: Operand = ("times", MOST_STEPS);
const BYTE: Operand = ("byte", 0xFF);

fn numbers<const N: usize>(word: &str, given: &[&str], operands: [Operand; N]) -> Result<[u64; N], String> {
    if given.len() != N {
        let names: Vec<&str> = operands.iter().map(|operand| operand.0).collect();
        let names = if N == 0 { "no numbers".to_string() } else { names.join(" ") };
        return Err(format!("{word} takes {names}; {} given", given.len()));
    }
    let mut read = [0; N];
    for (place, operand) in operands.into_iter().enumerate() {
        read[place] = number(given[place], operand)?;
    }
    Ok(read)
}

fn number(word: &str, (name, greatest): Operand) -> Result<u64, String> {
    // Wider than any operand, so that one a little too great is told as that.
    let read = match word.strip_prefix("0x") {
        Some(digits) if !digits.starts_with('+') => u128::from_str_radix(digits, 16),
        None if !word.starts_with('+') => word.parse(),
        _ => "+".parse(),
    };
    match read {
        Ok(number) if number <= greatest.into() => Ok(number as u64),
        Ok(number) => Err(format!("{name} {number} is above {greatest}")),
        Err(_) => Err(format!("{name} \"{word}\" is not a number (decimal or 0x, no sign)")),
    }
}

/// The lines of a sheet.
pub fn explain(mut bytes: &[u8]) -> String {
    let mut lines = Vec::new();
    while !bytes.is_empty() {
        match Command::decode(bytes) {
            Ok((Command::Step { process }, _)) => {
                let pair = &bytes[..2];
                let run = bytes.chunks_exact(2).take_while(|&chunk| chunk == pair).take(MOST_STEPS as usize).count();
                bytes = &bytes[2 * run..];
                lines.push(if run == 1 { format!("step {process}") } else { format!("steps {process} {run}") });
            }
            Ok((command, rest)) => {
                bytes = rest;
                lines.push(line(command));
            }
            Err(refusal) => {
                lines.push(ending(bytes, refusal));
                bytes = &[];
            }
        }
    }
    lines.iter().map(|line| format!("{line}\n")).collect()
}

fn line(command: Command) -> String {
    match command {
        Command::Open { keys, versions, processes, limit } => format!("open {keys} {versions} {processes} {limit}"),
        Command::Put { process, key, value, timestamp, draw } => {
            format!("{} {process} {} {value} {timestamp} {draw}", asking("put", key), key.number())
        }
        Command::Get { process, key } => format!("{} {process} {}", asking("get", key), key.number()),
        Command::Step { process } => format!("step {process}"),
        Command::Look { key, back } => format!("{} {} {back}", asking("look", key), key.number()),
        Command::Inspect => "inspect".to_string(),
    }
}

/// The bytes that end a run, and why.
fn ending(bytes: &[u8], refusal: Refusal) -> String {
    let why = if refusal == Refusal::CutShort { "a command cut short" } else { "an unknown byte ends the run" };
    let listed: Vec<String> = bytes.iter().map(|byte| format!("0x{byte:02X}")).collect();
    format!("bytes {} # {why}", listed.join(" "))
}
