//! A sheet being written, command by command. The model runs beside it, only to know which processes have a call, so
//! that most commands are accepted.

use super::{call, draw, near, EDGE_KEYS};
use crate::model::*;
use crate::random::Random;
use crate::sheet::{Command, Key, Sheet};

pub struct Writer {
    pub random: Random,
    pub bytes: Vec<u8>,
    sheet: Sheet<Store>,
    /// The process that gets most moves just now.
    favourite: u32,
}

impl Writer {
    pub fn new(seed: u64) -> Writer {
        Writer { random: Random::new(seed), bytes: Vec::new(), sheet: Sheet { store: None }, favourite: 0 }
    }

    pub fn add(&mut self, command: Command) {
        command.encode(&mut self.bytes);
        let _ = self.sheet.perform(command, |store| store);
    }

    /// The key in a width that holds it: at times in eight bytes though four would do.
    fn carried(&mut self, key: u64) -> Key {
        if self.random.once_in(3) {
            Key::Eight(key)
        } else {
            Key::short(key)
        }
    }

    pub fn put(&mut self, process: u32, key: u64, value: u32, timestamp: u32, draw: u16) {
        let key = self.carried(key);
        self.add(Command::Put { process: process as u8, key, value, timestamp, draw });
    }

    pub fn get(&mut self, process: u32, key: u64) {
        let key = self.carried(key);
        self.add(Command::Get { process: process as u8, key });
    }

    pub fn look(&mut self, key: u64, back: u32) {
        let key = self.carried(key);
        self.add(Command::Look { key, back: back as u16 });
    }

    pub fn open(&mut self, keys: u32, versions: u32, processes: u32, limit: u32) {
        self.add(Command::Open { keys: keys as u16, versions: versions as u16, processes: processes as u8, limit });
    }

    /// Opens within the ranges given and plays; every `odd`th command or so is a strange one.
    pub fn session(&mut self, keys: (u32, u32), versions: (u32, u32), processes: (u32, u32), commands: u32, odd: u32) {
        let keys = self.random.within(keys.0, keys.1);
        let versions = self.random.within(versions.0, versions.1);
        let processes = self.random.within(processes.0, processes.1);
        if self.random.once_in(4) {
            self.odd(2);
        }
        self.open(keys, versions, processes, MAX_LIMIT);
        let pool = keys + self.random.within(1, 3);
        for _ in 0..commands {
            self.any(odd, pool);
        }
    }

    /// A strange command once in `odd` times, else a usual one.
    pub fn any(&mut self, odd: u32, pool: u32) {
        if self.random.once_in(odd) {
            self.odd(pool)
        } else {
            self.usual(pool)
        }
    }

    /// A look now and then, else the next move of a process.
    fn usual(&mut self, pool: u32) {
        if self.random.once_in(15) {
            let key = call(&mut self.random, pool).key();
            let back = self.random.below(4);
            return self.look(key, back);
        }
        let process = self.next_process();
        if !self.step_if_running(process) {
            self.start(process, pool);
        }
    }

    /// Mostly the favourite, so that calls come to their end in good time.
    pub fn next_process(&mut self) -> u32 {
        let processes = self.sheet.store.as_ref().map_or(1, |store| store.state.processes);
        if self.random.once_in(6) {
            self.favourite = self.random.below(processes);
        }
        if self.random.once_in(3) {
            self.random.below(processes)
        } else {
            self.favourite
        }
    }

    /// Steps the process if it has a call; tells whether it had.
    pub fn step_if_running(&mut self, process: u32) -> bool {
        let running = self.is_running(process);
        if running {
            self.add(Command::Step { process: process as u8 });
        }
        running
    }

    pub fn is_running(&self, process: u32) -> bool {
        let status = self.sheet.store.as_ref().map(|store| store.status(process));
        matches!(status, Some(Ok(Status::Running { .. })))
    }

    /// How many versions the store holds; none without a store.
    pub fn versions(&self) -> Option<u32> {
        self.sheet.store.as_ref().map(|store| store.state.versions)
    }

    pub fn start(&mut self, process: u32, pool: u32) {
        match call(&mut self.random, pool) {
            Call::Put { key, value, timestamp, draw } => self.put(process, key, value, timestamp, draw),
            Call::Get { key } => self.get(process, key),
            Call::Scan { .. } => unreachable!("no command starts a scan"),
        }
    }

    /// A get once in three times, else a put with any value and one of these timestamps.
    pub fn start_on(&mut self, process: u32, key: u64, timestamps: (u32, u32)) {
        if self.random.once_in(3) {
            return self.get(process, key);
        }
        let (value, draw) = (self.random.word(), draw(&mut self.random));
        let timestamp = self.random.within(timestamps.0, timestamps.1);
        self.put(process, key, value, timestamp, draw);
    }

    /// A command that is mostly refused, or an inspection.
    pub fn odd(&mut self, pool: u32) {
        let process = self.random.below(10);
        let wild = self.random.word();
        let usual = call(&mut Random::new(wild.into()), pool).key();
        let key = self.odd_key(usual);
        match self.random.below(8) {
            0 => self.add(Command::Step { process: process as u8 }),
            1 => self.add(Command::Step { process: wild as u8 }),
            2 => self.get(process, key),
            3 => self.put(process, key, wild, wild, wild as u16),
            4 => self.start(process, pool),
            5 => self.look(key, wild),
            6 => self.look(usual, wild % 9),
            _ => self.finish_all_and_inspect(),
        }
    }

    /// At an edge, any, or one that agrees in one half with the usual one.
    fn odd_key(&mut self, usual: u64) -> u64 {
        match self.random.below(4) {
            0 => self.random.long(),
            1 => near(&mut self.random, usual),
            _ => self.random.pick(&EDGE_KEYS),
        }
    }

    /// Lets all calls finish, then inspects.
    pub fn finish_all_and_inspect(&mut self) {
        self.add(Command::Inspect);
        for _ in 0..400 {
            let Some(process) = (0..PROCESSES as u32).rfind(|&p| self.is_running(p)) else { break };
            let other = self.random.below(PROCESSES as u32);
            let process = if self.is_running(other) { other } else { process };
            self.add(Command::Step { process: process as u8 });
        }
        self.add(Command::Inspect);
    }

    /// The end of a sheet: whole, cut short, or an unknown byte with more behind it.
    pub fn finale(&mut self) {
        match self.random.below(4) {
            0 => {
                let whole = self.bytes.len();
                self.put(0, 5, 6, 7, 8);
                let command = (self.bytes.len() - whole) as u32;
                let kept = whole + self.random.within(1, command - 1) as usize;
                self.bytes.truncate(kept);
            }
            1 => {
                let unknown = self.random.pick(&[0, 0x0A, 0x4E, 0x51, 0x69, 0x6D, 0x6F, 0x71, 0x73, 0x80, 0xFF]);
                self.bytes.push(unknown);
                self.add(Command::Inspect);
            }
            _ => self.finish_all_and_inspect(),
        }
    }
}
