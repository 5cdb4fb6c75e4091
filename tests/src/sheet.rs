//! The sheet program: commands in bytes, one printed line each.

use crate::machine::Machine;
use crate::model::*;
use std::fmt::Write;

/// One command with its operands in the widths of the sheet.
#[derive(Clone, Copy, Debug, PartialEq, Eq)]
pub enum Command {
    Open { keys: u16, versions: u16, processes: u8, limit: u32 },
    Put { process: u8, key: Key, value: u32, timestamp: u32, draw: u16 },
    Get { process: u8, key: Key },
    Step { process: u8 },
    Look { key: Key, back: u16 },
    Inspect,
}

/// A key as a command carries it: in four bytes, its high half being 0, or in eight.
#[derive(Clone, Copy, Debug, PartialEq, Eq)]
pub enum Key {
    Four(u32),
    Eight(u64),
}

impl Key {
    /// In four bytes where they hold it.
    pub fn short(key: u64) -> Key {
        u32::try_from(key).map_or(Key::Eight(key), Key::Four)
    }

    pub fn number(self) -> u64 {
        match self {
            Key::Four(key) => key.into(),
            Key::Eight(key) => key,
        }
    }

    /// The one of a command's two first bytes that says this width.
    fn first(self, four: u8, eight: u8) -> u8 {
        match self {
            Key::Four(_) => four,
            Key::Eight(_) => eight,
        }
    }

    fn encode(self, bytes: &mut Vec<u8>) {
        match self {
            Key::Four(key) => bytes.extend(key.to_be_bytes()),
            Key::Eight(key) => bytes.extend(key.to_be_bytes()),
        }
    }
}

pub const OPEN: u8 = 0x4F;
pub const PUT: u8 = 0x50;
pub const GET: u8 = 0x47;
pub const STEP: u8 = 0x53;
pub const LOOK: u8 = 0x4C;
pub const INSPECT: u8 = 0x49;
// The same with a key of eight bytes.
pub const PUT_EIGHT: u8 = 0x70;
pub const GET_EIGHT: u8 = 0x67;
pub const LOOK_EIGHT: u8 = 0x6C;

/// Every command by its first byte, with the count of its bytes, this one included.
pub const COMMANDS: [(u8, usize); 9] = [
    (OPEN, 10),
    (PUT, 16),
    (GET, 6),
    (STEP, 2),
    (LOOK, 7),
    (INSPECT, 1),
    (PUT_EIGHT, 20),
    (GET_EIGHT, 10),
    (LOOK_EIGHT, 11),
];

/// Takes big-endian numbers from the front of the operands; nothing when they run out.
struct Operands<'a>(&'a [u8]);

impl Operands<'_> {
    fn take(&mut self, width: usize) -> Option<u64> {
        let (number, rest) = self.0.split_at_checked(width)?;
        self.0 = rest;
        Some(number.iter().fold(0, |sum, &byte| sum << 8 | u64::from(byte)))
    }

    fn byte(&mut self) -> Option<u8> {
        self.take(1).map(|number| number as u8)
    }

    fn half(&mut self) -> Option<u16> {
        self.take(2).map(|number| number as u16)
    }

    fn word(&mut self) -> Option<u32> {
        self.take(4).map(|number| number as u32)
    }

    /// The key of a command with this first byte.
    fn key(&mut self, first: u8) -> Option<Key> {
        if [PUT_EIGHT, GET_EIGHT, LOOK_EIGHT].contains(&first) {
            self.take(8).map(Key::Eight)
        } else {
            self.word().map(Key::Four)
        }
    }

    fn command(&mut self, first: u8) -> Option<Command> {
        Some(match first {
            OPEN => Command::Open {
                keys: self.half()?,
                versions: self.half()?,
                processes: self.byte()?,
                limit: self.word()?,
            },
            PUT | PUT_EIGHT => Command::Put {
                process: self.byte()?,
                key: self.key(first)?,
                value: self.word()?,
                timestamp: self.word()?,
                draw: self.half()?,
            },
            GET | GET_EIGHT => Command::Get { process: self.byte()?, key: self.key(first)? },
            STEP => Command::Step { process: self.byte()? },
            LOOK | LOOK_EIGHT => Command::Look { key: self.key(first)?, back: self.half()? },
            _ => Command::Inspect,
        })
    }
}

impl Command {
    /// The first command and the bytes behind it. Refusals 15, 16; `bytes` is not empty.
    pub fn decode(bytes: &[u8]) -> Result<(Command, &[u8]), Refusal> {
        let (first, operands) = (bytes[0], &bytes[1..]);
        if !COMMANDS.iter().any(|&(known, _)| known == first) {
            return Err(Refusal::UnknownByte);
        }
        let mut operands = Operands(operands);
        let command = operands.command(first).ok_or(Refusal::CutShort)?;
        Ok((command, operands.0))
    }

    pub fn encode(self, bytes: &mut Vec<u8>) {
        match self {
            Command::Open { keys, versions, processes, limit } => {
                bytes.push(OPEN);
                bytes.extend(keys.to_be_bytes());
                bytes.extend(versions.to_be_bytes());
                bytes.push(processes);
                bytes.extend(limit.to_be_bytes());
            }
            Command::Put { process, key, value, timestamp, draw } => {
                bytes.extend([key.first(PUT, PUT_EIGHT), process]);
                key.encode(bytes);
                [value, timestamp].iter().for_each(|word| bytes.extend(word.to_be_bytes()));
                bytes.extend(draw.to_be_bytes());
            }
            Command::Get { process, key } => {
                bytes.extend([key.first(GET, GET_EIGHT), process]);
                key.encode(bytes);
            }
            Command::Step { process } => bytes.extend([STEP, process]),
            Command::Look { key, back } => {
                bytes.push(key.first(LOOK, LOOK_EIGHT));
                key.encode(bytes);
                bytes.extend(back.to_be_bytes());
            }
            Command::Inspect => bytes.push(INSPECT),
        }
    }
}

/// Runs a whole sheet; answers what it prints.
pub fn run(bytes: &[u8]) -> String {
    run_on(bytes, |store| store)
}

/// The same on machines that `build` makes of each opened store.
pub fn run_on<M: Machine>(mut bytes: &[u8], build: impl Fn(Store) -> M) -> String {
    let mut sheet = Sheet { store: None };
    let mut printed = String::new();
    while !bytes.is_empty() {
        let line = match Command::decode(bytes) {
            Ok((command, rest)) => {
                bytes = rest;
                sheet.perform(command, &build)
            }
            Err(refusal) => {
                bytes = &[];
                Err(refusal)
            }
        };
        let line = line.unwrap_or_else(|refusal| format!("refused {}", refusal.number()));
        writeln!(printed, "{line}").expect("a string takes all");
    }
    printed
}

/// The store of a running sheet; none before an accepted open and after a refused one.
pub struct Sheet<M> {
    pub store: Option<M>,
}

impl<M: Machine> Sheet<M> {
    /// Performs one command; answers its line.
    pub fn perform(&mut self, command: Command, build: impl Fn(Store) -> M) -> Result<String, Refusal> {
        if let Command::Open { keys, versions, processes, limit } = command {
            self.store = None;
            let mut store = Store::closed(keys.into(), versions.into());
            store.open(processes.into(), limit)?;
            self.store = Some(build(store));
            return Ok(format!("open {keys} {versions} {processes} {limit}"));
        }
        let store = self.store.as_mut().ok_or(Refusal::NotOpened)?;
        match command {
            Command::Put { process, key, value, timestamp, draw } => {
                let call = Call::Put { key: key.number(), value, timestamp, draw };
                let tick = store.start(process.into(), call)?;
                Ok(format!("start {process} {tick}"))
            }
            Command::Get { process, key } => {
                let tick = store.start(process.into(), Call::Get { key: key.number() })?;
                Ok(format!("start {process} {tick}"))
            }
            Command::Step { process } => store.step(process.into()).map(|step| step_line(process, step)),
            Command::Look { key, back } => {
                let key = key.number();
                let (value, timestamp) = store.look(key, back.into())?;
                Ok(format!("look {key} {back} {value} {timestamp}"))
            }
            _ => store.inspect().map(|verdict| match verdict {
                Verdict::Sound => "sound".to_string(),
                Verdict::Fault { level, node } => format!("fault {level} {node}"),
            }),
        }
    }
}

fn step_line(process: u8, step: Step) -> String {
    match step {
        Step::On(tick) => format!("step {process} {tick} on"),
        Step::Wait(tick) => format!("step {process} {tick} wait"),
        Step::Shown { .. } => unreachable!("no command starts a scan"),
        Step::Done(Done { kind, answer, value, timestamp, start, effect, finish }) => {
            let (kind, answer) = (kind_word(kind), answer_word(answer));
            format!("done {process} {kind} {answer} {value} {timestamp} {start} {effect} {finish}")
        }
    }
}

fn kind_word(kind: Kind) -> &'static str {
    match kind {
        Kind::Idle => "idle",
        Kind::Put => "put",
        Kind::Get => "get",
        Kind::Scan => "sweep",
    }
}

fn answer_word(answer: Answer) -> &'static str {
    match answer {
        Answer::TooOld => "too-old",
        Answer::ReadingsFull => "readings-full",
        Answer::Added => "added",
        Answer::TraysFull => "trays-full",
        Answer::New => "new",
        Answer::Found => "found",
        Answer::None => "none",
        Answer::Swept => "swept",
    }
}
