//! What scans meet among other calls, counted move by move: whether a search has been where it should.

use crate::machine::Machine;
use crate::model::*;
use std::fmt;

/// What a move can be to a scan: one of its own, or that of another process while it runs.
#[derive(Clone, Copy, Debug, PartialEq, Eq)]
pub enum Meeting {
    /// It shows a version that was held at its start, one added since, one of a key made since.
    ShownHeld,
    ShownAdded,
    ShownMade,
    /// It passes a key below its first.
    Passed,
    /// It finishes at the end, or at a key past its last.
    SweptAtEnd,
    SweptPastLast,
    /// It goes along a link whose lock is held.
    PastLock,
    /// It shows a key while another scan follows too.
    TwoFollow,
    /// While it follows, a key of its span is made behind p or ahead of p, or one below its first ahead of p.
    MadeBehind,
    MadeAhead,
    MadeBelow,
    /// While it follows, a version is added to a key that it has shown, or to one that is still to come.
    AddedBehind,
    AddedAhead,
    /// A key of its span is made while it walks.
    MadeInWalk,
    /// Another call waits at a lock.
    WaitBeside,
}

const ALL: [Meeting; 15] = [
    Meeting::ShownHeld,
    Meeting::ShownAdded,
    Meeting::ShownMade,
    Meeting::Passed,
    Meeting::SweptAtEnd,
    Meeting::SweptPastLast,
    Meeting::PastLock,
    Meeting::TwoFollow,
    Meeting::MadeBehind,
    Meeting::MadeAhead,
    Meeting::MadeBelow,
    Meeting::AddedBehind,
    Meeting::AddedAhead,
    Meeting::MadeInWalk,
    Meeting::WaitBeside,
];

/// How many nodes and versions were in use when a scan started.
pub type Since = (u32, u32);

/// What is in use where this call starts, if it is a scan.
pub fn since(store: &Store, call: Call) -> Option<Since> {
    (call.kind() == Kind::Scan).then_some((store.state.nodes, store.state.versions))
}

/// One step of a process: the store before and behind it and, if its call is a scan, what was in use at its start.
pub struct Move<'a> {
    pub before: &'a Store,
    pub after: &'a Store,
    pub process: u32,
    pub step: Step,
    pub since: Option<Since>,
}

/// How often each was met.
#[derive(Clone, Copy, Debug, Default, PartialEq, Eq, Hash)]
pub struct Meetings([u64; ALL.len()]);

impl Meetings {
    pub fn of(self, meeting: Meeting) -> u64 {
        self.0[meeting as usize]
    }

    /// Those that were met less often than this.
    pub fn below(self, often: u64) -> Vec<Meeting> {
        ALL.into_iter().filter(|&meeting| self.of(meeting) < often).collect()
    }

    pub fn add(&mut self, others: Meetings) {
        self.0.iter_mut().zip(others.0).for_each(|(count, more)| *count += more);
    }

    fn met(&mut self, meeting: Meeting) {
        self.0[meeting as usize] += 1;
    }

    pub fn count(&mut self, moved: &Move) {
        match moved.since {
            Some(since) => self.own(moved, since),
            None => moved.beside().for_each(|scan| self.other(moved, scan)),
        }
    }

    /// A scan's own step.
    fn own(&mut self, moved: &Move, (nodes, versions): Since) {
        let call = moved.call();
        if call.phase != Phase::Follow {
            return;
        }
        let next = moved.before.next(call.pred, 0);
        self.met(match moved.step {
            Step::Shown { .. } if next > nodes => Meeting::ShownMade,
            Step::Shown { .. } if moved.before.node_word(next, NEWEST) > versions => Meeting::ShownAdded,
            Step::Shown { .. } => Meeting::ShownHeld,
            Step::Done(_) if next == 0 => Meeting::SweptAtEnd,
            Step::Done(_) => Meeting::SweptPastLast,
            Step::On(_) | Step::Wait(_) => Meeting::Passed,
        });
        if moved.before.lock(call.pred, 0) != 0 {
            self.met(Meeting::PastLock);
        }
        if matches!(moved.step, Step::Shown { .. }) && moved.beside().any(|other| other.phase == Phase::Follow) {
            self.met(Meeting::TwoFollow);
        }
    }

    /// A step of another call beside this scan.
    fn other(&mut self, moved: &Move, scan: &Process) {
        if matches!(moved.step, Step::Wait(_)) {
            self.met(Meeting::WaitBeside);
        }
        if moved.after.state.versions == moved.before.state.versions {
            return;
        }
        let key = moved.call().key;
        let made = moved.after.state.nodes > moved.before.state.nodes;
        let (spanned, below) = ((scan.key..=scan.last).contains(&key), key < scan.key);
        let ahead = key > moved.before.key(scan.pred);
        let meeting = match (scan.phase, made, ahead) {
            (Phase::Walk, true, _) if spanned => Meeting::MadeInWalk,
            (Phase::Follow, true, true) if below => Meeting::MadeBelow,
            (Phase::Follow, true, true) if spanned => Meeting::MadeAhead,
            (Phase::Follow, true, false) if spanned => Meeting::MadeBehind,
            (Phase::Follow, false, true) if spanned => Meeting::AddedAhead,
            (Phase::Follow, false, false) if spanned => Meeting::AddedBehind,
            _ => return,
        };
        self.met(meeting);
    }
}

impl fmt::Display for Meetings {
    fn fmt(&self, f: &mut fmt::Formatter) -> fmt::Result {
        let told: Vec<String> = ALL.iter().map(|&meeting| format!("{meeting:?} {}", self.of(meeting))).collect();
        write!(f, "{}", told.join(", "))
    }
}

impl Move<'_> {
    /// The call that is stepped, as it stood before.
    fn call(&self) -> &Process {
        &self.before.state.process[self.process as usize]
    }

    /// The scans of the other processes.
    fn beside(&self) -> impl Iterator<Item = &Process> {
        let others = self.before.state.process.iter().enumerate();
        let others = others.filter(|&(other, _)| other != self.process as usize);
        others.map(|(_, call)| call).filter(|call| call.kind == Kind::Scan)
    }
}

/// A store that counts what its scans meet.
#[derive(Clone, Hash)]
pub struct Metered {
    store: Store,
    since: [Option<Since>; PROCESSES],
    pub meetings: Meetings,
}

impl Metered {
    pub fn new(store: Store) -> Metered {
        Metered { store, since: [None; PROCESSES], meetings: Meetings::default() }
    }
}

impl Machine for Metered {
    fn store(&self) -> &Store {
        &self.store
    }

    fn store_mut(&mut self) -> &mut Store {
        &mut self.store
    }

    fn start(&mut self, process: u32, call: Call) -> Result<u32, Refusal> {
        let since = since(&self.store, call);
        let tick = self.store.start(process, call)?;
        self.since[process as usize] = since;
        Ok(tick)
    }

    fn step(&mut self, process: u32) -> Result<Step, Refusal> {
        let before = self.store.clone();
        let step = self.store.step(process)?;
        let since = self.since[process as usize];
        self.meetings.count(&Move { before: &before, after: &self.store, process, step, since });
        Ok(step)
    }
}
