//! One step of a process. Each phase makes all its tests before its first write.

use super::*;

enum Move {
    On,
    Wait,
    Shown { key: u64, value: u32, timestamp: u32 },
    End { answer: Answer, value: u32, timestamp: u32, effect: u32 },
}

type Moved = Result<Move, Refusal>;

/// What a phase works on: the call turned, and the memory.
struct Memory<'a> {
    call: &'a mut Process,
    nodes: &'a mut [Node],
    versions: &'a mut [Version],
    used_nodes: &'a mut u32,
    used_versions: &'a mut u32,
    tick: u32,
}

/// Not inlined, so that it is called as the exported steps are; named, so that it can be counted.
#[inline(never)]
#[export_name = "rust_tray_step"]
pub fn step(
    state: &mut State,
    nodes: &mut [u32],
    versions: &mut [u32],
    tally: &mut [u32],
    process: u32,
) -> Result<Turn, Refusal> {
    refuse_unless(state.lawful(nodes, versions) && tally.len() == COUNTS, Refusal::Corrupt)?;
    refuse_unless(process < state.processes, Refusal::NoProcess)?;
    let call = &mut state.process[process as usize];
    refuse_unless(call.kind != Kind::Idle, Refusal::NoCall)?;
    refuse_unless(state.events < state.limit, Refusal::Spent)?;
    refuse_unless(lawful_call(call, state.nodes), Refusal::Damaged)?;
    let tick = state.events + 1;
    let (nodes, versions) = (nodes.as_chunks_mut().0, versions.as_chunks_mut().0);
    let (used_nodes, used_versions) = (&mut state.nodes, &mut state.versions);
    let moved = Memory { call, nodes, versions, used_nodes, used_versions, tick }.run(process + 1)?;
    state.events = tick;
    Ok(match moved {
        Move::On => Turn::On(tick),
        Move::Wait => Turn::Wait(tick),
        Move::Shown { key, value, timestamp } => Turn::Shown { tick, key, value, timestamp },
        Move::End { answer, value, timestamp, effect } => {
            let start = call.start;
            *call = Process::IDLE;
            if let Some(count) = tally.get_mut(answer as usize) {
                *count = count.saturating_add(1);
            }
            Turn::Done(Done { answer: answer as u32, value, timestamp, start, effect, finish: tick })
        }
    })
}

/// Refusal 11 at any step.
#[inline]
fn lawful_call(call: &Process, nodes: u32) -> bool {
    if call.level > TOP_LEVEL || call.pred > nodes {
        return false;
    }
    match call.kind {
        Kind::Get => matches!(call.phase, Phase::Walk | Phase::Read) && call.effect == 0,
        Kind::Scan => matches!(call.phase, Phase::Walk | Phase::Follow) && call.effect == 0,
        _ => {
            let answered = call.effect != 0 || call.phase == Phase::Release;
            !matches!(call.phase, Phase::Read | Phase::Follow) && (!answered || call.answer <= Answer::New)
        }
    }
}

impl Memory<'_> {
    #[inline]
    fn run(&mut self, holder: u32) -> Moved {
        match self.call.phase {
            Phase::Walk => self.walk(),
            Phase::Read => self.read(),
            Phase::Seek => self.seek(),
            Phase::Lock => self.lock(holder),
            Phase::Check => self.check(),
            Phase::Update => self.update(),
            Phase::Make => self.make(),
            Phase::Link => self.link(),
            Phase::Release => self.release(),
            Phase::Follow => self.follow(),
        }
    }

    fn link_at(&mut self, level: u32) -> &mut u32 {
        &mut self.nodes[self.call.pred as usize][NEXT + level as usize]
    }

    fn lock_word(&mut self) -> &mut u32 {
        &mut self.nodes[self.call.pred as usize][LOCK + self.call.level as usize]
    }

    fn key(&self, node: u32) -> u64 {
        key_at(&self.nodes[node as usize])
    }

    /// The link of p at L, a node in use or the end, and whether that is before the call's key.
    fn ahead(&mut self) -> Result<(u32, bool), Refusal> {
        let next = *self.link_at(self.call.level);
        refuse_unless(next <= *self.used_nodes, Refusal::Damaged)?;
        Ok((next, next != 0 && self.key(next) < self.call.key))
    }

    fn leads_to_key(&self, next: u32) -> bool {
        next != 0 && self.key(next) == self.call.key
    }

    fn newest(&self, node: u32) -> Result<u32, Refusal> {
        let newest = self.nodes[node as usize][NEWEST];
        refuse_unless(newest != 0 && newest <= *self.used_versions, Refusal::Damaged)?;
        Ok(newest)
    }

    #[inline]
    fn walk(&mut self) -> Moved {
        let (next, before) = self.ahead()?;
        if before {
            self.call.pred = next;
            return Ok(Move::On);
        }
        self.call.preds[self.call.level as usize] = self.call.pred;
        if self.call.level > 0 {
            self.call.level -= 1;
        } else if self.call.kind == Kind::Put {
            self.call.phase = Phase::Seek;
        } else if self.call.kind == Kind::Scan {
            self.call.phase = Phase::Follow;
        } else if self.leads_to_key(next) {
            self.call.pred = next;
            self.call.phase = Phase::Read;
        } else {
            return Ok(Move::End { answer: Answer::None, value: 0, timestamp: 0, effect: self.tick });
        }
        Ok(Move::On)
    }

    #[inline]
    fn read(&mut self) -> Moved {
        let newest = self.newest(self.call.pred)?;
        let [value, timestamp, _] = self.versions[newest as usize];
        Ok(Move::End { answer: Answer::Found, value, timestamp, effect: self.tick })
    }

    #[inline]
    fn seek(&mut self) -> Moved {
        let (next, before) = self.ahead()?;
        if before {
            self.call.pred = next;
        } else {
            self.call.phase = Phase::Lock;
        }
        Ok(Move::On)
    }

    #[inline]
    fn lock(&mut self, holder: u32) -> Moved {
        if *self.lock_word() != 0 {
            return Ok(Move::Wait);
        }
        *self.lock_word() = holder;
        self.call.phase = Phase::Check;
        Ok(Move::On)
    }

    /// The link is read again, now under the lock.
    #[inline]
    fn check(&mut self) -> Moved {
        let (next, before) = self.ahead()?;
        self.call.phase = if before {
            *self.lock_word() = 0;
            self.call.pred = next;
            Phase::Seek
        } else if self.call.level > 0 {
            Phase::Link
        } else if self.leads_to_key(next) {
            Phase::Update
        } else {
            Phase::Make
        };
        Ok(Move::On)
    }

    fn commit(&mut self, answer: Answer) -> Moved {
        self.call.answer = answer;
        self.call.effect = self.tick;
        self.call.phase = Phase::Release;
        Ok(Move::On)
    }

    fn versions_full(&self) -> bool {
        *self.used_versions as usize + 1 >= self.versions.len()
    }

    /// The call's own version at the next unused index; answers the index.
    fn add_version(&mut self, prev: u32) -> u32 {
        *self.used_versions += 1;
        self.versions[*self.used_versions as usize] = [self.call.value, self.call.timestamp, prev];
        *self.used_versions
    }

    #[inline]
    fn update(&mut self) -> Moved {
        let node = *self.link_at(0);
        refuse_unless(node != 0 && node <= *self.used_nodes, Refusal::Damaged)?;
        let newest = self.newest(node)?;
        if self.call.timestamp < self.versions[newest as usize][TIMESTAMP] {
            return self.commit(Answer::TooOld);
        }
        if self.versions_full() {
            return self.commit(Answer::VersionsFull);
        }
        self.nodes[node as usize][NEWEST] = self.add_version(newest);
        self.commit(Answer::Added)
    }

    #[inline]
    fn make(&mut self) -> Moved {
        if *self.used_nodes as usize + 1 >= self.nodes.len() {
            return self.commit(Answer::KeysFull);
        }
        if self.versions_full() {
            return self.commit(Answer::VersionsFull);
        }
        refuse_unless(self.call.top <= TOP_LEVEL, Refusal::Damaged)?;
        *self.used_nodes += 1;
        let made = *self.used_nodes;
        let mut record = [0; NODE_WORDS];
        record[KEY_LOW] = self.call.key as u32;
        record[KEY_HIGH] = (self.call.key >> 32) as u32;
        record[NEWEST] = self.add_version(0);
        record[TOP] = self.call.top;
        record[NEXT] = *self.link_at(0);
        self.nodes[made as usize] = record;
        *self.link_at(0) = made;
        self.call.made = made;
        self.commit(Answer::New)
    }

    #[inline]
    fn link(&mut self) -> Moved {
        let Process { made, level, .. } = *self.call;
        refuse_unless(made != 0 && made <= *self.used_nodes, Refusal::Damaged)?;
        self.nodes[made as usize][NEXT + level as usize] = *self.link_at(level);
        *self.link_at(level) = made;
        self.call.phase = Phase::Release;
        Ok(Move::On)
    }

    #[inline]
    fn release(&mut self) -> Moved {
        let Process { level, top, answer, value, timestamp, effect, .. } = *self.call;
        refuse_unless(answer != Answer::New || top <= TOP_LEVEL, Refusal::Damaged)?;
        if answer != Answer::New || level >= top {
            *self.lock_word() = 0;
            return Ok(Move::End { answer, value, timestamp, effect });
        }
        let pred = self.call.preds[level as usize + 1];
        refuse_unless(pred <= *self.used_nodes, Refusal::Damaged)?;
        *self.lock_word() = 0;
        self.call.level += 1;
        self.call.pred = pred;
        self.call.phase = Phase::Seek;
        Ok(Move::On)
    }

    /// Along level 0, whatever the call's level. A key below the first was made since the walk; its version is not read.
    #[inline]
    fn follow(&mut self) -> Moved {
        let next = *self.link_at(0);
        refuse_unless(next <= *self.used_nodes, Refusal::Damaged)?;
        let key = self.key(next);
        if next == 0 || key > self.call.last {
            return Ok(Move::End { answer: Answer::Swept, value: 0, timestamp: 0, effect: 0 });
        }
        if key < self.call.key {
            self.call.pred = next;
            return Ok(Move::On);
        }
        let newest = self.newest(next)?;
        let [value, timestamp, _] = self.versions[newest as usize];
        self.call.pred = next;
        Ok(Move::Shown { key, value, timestamp })
    }
}
