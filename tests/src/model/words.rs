//! The state as a row of words, for a comparison with another implementation through a C interface.
//!
//! Words 0 to 7: opened (0 or 1), processes, limit, events, node words, version words, nodes, versions. Then 21 words
//! for each of the 8 processes: kind, low and high half of the key and of the last key, value, timestamp, top, start,
//! phase, level, pred, made, answer, effect and the six remembered nodes. Kind, phase and answer are the numbers of
//! their enums, in the order of declaration.

use super::*;

const HEAD: usize = 8;
const PROCESS_WORDS: usize = 15 + LEVELS;
pub const STATE_WORDS: usize = HEAD + PROCESSES * PROCESS_WORDS;

impl Kind {
    pub const ALL: [Kind; 4] = [Kind::Idle, Kind::Put, Kind::Get, Kind::Scan];
}

impl Phase {
    pub const ALL: [Phase; 10] = [
        Phase::Walk,
        Phase::Read,
        Phase::Seek,
        Phase::Lock,
        Phase::Check,
        Phase::Update,
        Phase::Make,
        Phase::Link,
        Phase::Release,
        Phase::Follow,
    ];
}

impl State {
    pub fn to_words(&self) -> Vec<u32> {
        let mut words = vec![self.opened as u32, self.processes, self.limit, self.events];
        words.extend([self.node_words, self.version_words, self.nodes, self.versions]);
        for process in &self.process {
            process.write_words(&mut words);
        }
        words
    }

    /// Nothing if the length is wrong or a kind, phase, answer or opened word has no such number.
    pub fn from_words(words: &[u32]) -> Option<State> {
        if words.len() != STATE_WORDS || words[0] > 1 {
            return None;
        }
        let mut process = [Process::IDLE; PROCESSES];
        for (process, part) in process.iter_mut().zip(words[HEAD..].chunks(PROCESS_WORDS)) {
            *process = Process::from_words(part)?;
        }
        Some(State {
            opened: words[0] == 1,
            processes: words[1],
            limit: words[2],
            events: words[3],
            node_words: words[4],
            version_words: words[5],
            nodes: words[6],
            versions: words[7],
            process,
        })
    }
}

impl Process {
    fn write_words(&self, words: &mut Vec<u32>) {
        words.push(self.kind as u32);
        words.extend([self.key, self.last].iter().flat_map(|&key| [low_half(key), high_half(key)]));
        words.extend([self.value, self.timestamp, self.top, self.start]);
        words.extend([self.phase as u32, self.level, self.pred, self.made, self.answer as u32, self.effect]);
        words.extend(self.preds);
    }

    fn from_words(words: &[u32]) -> Option<Process> {
        Some(Process {
            kind: *Kind::ALL.get(words[0] as usize)?,
            key: key_of_halves(words[1], words[2]),
            last: key_of_halves(words[3], words[4]),
            value: words[5],
            timestamp: words[6],
            top: words[7],
            start: words[8],
            phase: *Phase::ALL.get(words[9] as usize)?,
            level: words[10],
            pred: words[11],
            made: words[12],
            answer: *Answer::ALL.get(words[13] as usize)?,
            effect: words[14],
            preds: words[15..].try_into().ok()?,
        })
    }
}
