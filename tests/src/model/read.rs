//! The calls that change nothing: look, inspect, status (document 01: standing).

use super::*;
use std::iter::successors;

/// What an inspection finds.
#[derive(Clone, Copy, Debug, PartialEq, Eq, Hash)]
pub enum Verdict {
    Sound,
    Fault { level: u32, node: u32 },
}

/// What a process is doing. The effect tick is 0 before the effect.
#[derive(Clone, Copy, Debug, PartialEq, Eq, Hash)]
pub enum Status {
    Idle,
    Running { kind: Kind, start: u32, effect: u32 },
}

impl Store {
    /// Value and timestamp `back` places behind a key's newest. Refusals 10, 6, 12, 11, 13.
    pub fn look(&self, key: u64, back: u32) -> Result<(u32, u32), Refusal> {
        self.check_lent()?;
        require(lawful_key(key), Refusal::KeyOutOfRange)?;
        let node = (1..=self.state.nodes).find(|&node| self.key(node) == key).ok_or(Refusal::NoSuchKey)?;
        let mut place = self.newest_in_use(node)?;
        for _ in 0..back {
            let prev = self.version_word(place, PREV);
            require(prev < place, Refusal::AlteredMemory)?;
            require(prev != 0, Refusal::FewerVersions)?;
            place = prev;
        }
        Ok(self.version(place))
    }

    /// Refusals 10 (the state alone), 5.
    pub fn status(&self, process: u32) -> Result<Status, Refusal> {
        self.state.check()?;
        let call = self.state.process[self.check_process(process)?];
        Ok(match call.kind {
            Kind::Idle => Status::Idle,
            kind => Status::Running { kind, start: call.start, effect: call.effect },
        })
    }

    /// The first fault, level by level along the links. Refusals 10, 7.
    pub fn inspect(&self) -> Result<Verdict, Refusal> {
        self.check_lent()?;
        let counted = &self.state.process[..self.state.processes as usize];
        require(counted.iter().all(|process| process.kind == Kind::Idle), Refusal::Busy)?;
        for level in 0..=TOP_LEVEL {
            if let Some(node) = self.fault_on(level) {
                return Ok(Verdict::Fault { level, node });
            }
        }
        Ok(Verdict::Sound)
    }

    /// The node reached when the first fault of this level shows. Ends, since the keys on the way rise.
    fn fault_on(&self, level: u32) -> Option<u32> {
        let mut node = 0;
        let mut seen = 0;
        loop {
            let versions_wrong = level == 0 && node != 0 && !self.sound_versions(node);
            let next = self.next(node, level);
            if self.lock(node, level) != 0 || versions_wrong || next > self.state.nodes {
                return Some(node);
            }
            if next == 0 {
                let due = (1..=self.state.nodes).filter(|&n| self.node_word(n, TOP) >= level).count();
                return (seen < due).then_some(node);
            }
            if self.key(next) <= self.key(node) || self.node_word(next, TOP) < level {
                return Some(node);
            }
            node = next;
            seen += 1;
        }
    }

    /// The chain is followed for places, then again for timestamps: the two passes of document 01, which request P2 holds
    /// one pass to. The second follows only places that fall, so it stays among those in use and ends.
    fn sound_versions(&self, node: u32) -> bool {
        let Ok(newest) = self.newest_in_use(node) else { return false };
        let prev = |place: u32| self.version_word(place, PREV);
        let timestamp = |place: u32| self.version_word(place, TIMESTAMP);
        let chain = || successors(Some(newest), |&place| Some(prev(place)).filter(|&prev| prev != 0));
        if !chain().all(|place| prev(place) < place) {
            return false;
        }
        chain().all(|place| prev(place) == 0 || timestamp(prev(place)) <= timestamp(place))
    }
}
