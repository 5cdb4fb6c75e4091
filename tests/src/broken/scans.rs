//! The slips in scans, and those of other calls that do what only a scan does.

use super::{Broken, Slip};
use crate::model::*;

impl Broken {
    /// A start that accepts a span of which the first is above the last.
    pub(super) fn span_accepted(&mut self, process: u32, call: Call) -> Result<u32, Refusal> {
        let right = self.store.start(process, call);
        let (Err(Refusal::BadSpan), Call::Scan { first, last }) = (right, call) else { return right };
        let tick = self.store.start(process, Call::Scan { first: last, last: first })?;
        let started = self.after(process);
        (started.key, started.last) = (first, last);
        Ok(tick)
    }

    /// A step that the slip changes, by its phase; nothing if it does not.
    pub(super) fn scan_slip(&mut self, process: u32, call: &Process) -> Option<Step> {
        match (self.slip, call.kind, call.phase) {
            (Slip::GetShows, Kind::Get, Phase::Walk) => self.get_shows(process),
            (_, Kind::Scan, Phase::Walk) => self.walk_slip(process, call),
            (_, Kind::Scan, Phase::Follow) => self.follow_slip(process, call),
            _ => None,
        }
    }

    /// The walk's last step goes another way or keeps something.
    fn walk_slip(&mut self, process: u32, call: &Process) -> Option<Step> {
        let step = self.store.step(process).ok()?;
        let State { nodes, versions, .. } = self.store.state;
        let next = self.store.next(call.pred, 0);
        if self.after(process).phase != Phase::Follow {
            return Some(step);
        }
        match self.slip {
            Slip::ScanOfWalk => self.after(process).made = versions,
            Slip::ScanOfOldKeys => self.after(process).made = nodes,
            Slip::ScanFindsFirst if next != 0 && self.store.key(next) == call.key => self.after(process).pred = next,
            Slip::ScanShowsInWalk if next != 0 && (call.key..=call.last).contains(&self.store.key(next)) => {
                self.after(process).pred = next;
                return Some(self.shown(step.tick(), next, self.store.node_word(next, NEWEST)));
            }
            _ => {}
        }
        Some(step)
    }

    fn follow_slip(&mut self, process: u32, call: &Process) -> Option<Step> {
        let next = self.store.next(call.pred, 0);
        let below = next != 0 && self.store.key(next) < call.key;
        let at_end = next == 0 || self.store.key(next) > call.last;
        match self.slip {
            Slip::ScanByTop => self.by_top(process, call),
            Slip::ScanPastLast => self.with_span(process, call.key, u64::MAX),
            Slip::ScanBelowFirst => self.with_span(process, 0, call.last),
            Slip::ScanEndsBelow if below => self.with_span(process, call.key, 0),
            Slip::ScanStays if below => self.goes_on(process, *call),
            Slip::ScanOfOldKeys if next > call.made && !at_end => {
                self.goes_on(process, Process { pred: next, ..*call })
            }
            Slip::ScanAgain if at_end && call.made == 0 => {
                self.goes_on(process, Process { pred: call.preds[0], made: 1, ..*call })
            }
            Slip::ScanOlder | Slip::ScanOfWalk => self.shows_older(process, call),
            Slip::ScanKeeps => self.keeps(process, call),
            _ => None,
        }
    }

    fn after(&mut self, process: u32) -> &mut Process {
        &mut self.store.state.process[process as usize]
    }

    /// A step that shows this version of a node.
    fn shown(&self, tick: u32, node: u32, place: u32) -> Step {
        let (value, timestamp) = self.store.version(place);
        Step::Shown { tick, key: self.store.key(node), value, timestamp }
    }

    /// A step with another span; behind it the call has its own again.
    fn with_span(&mut self, process: u32, first: u64, last: u64) -> Option<Step> {
        let own = *self.after(process);
        (self.after(process).key, self.after(process).last) = (first, last);
        let step = self.store.step(process).ok();
        if self.after(process).kind != Kind::Idle {
            (self.after(process).key, self.after(process).last) = (own.key, own.last);
        }
        step
    }

    fn by_top(&mut self, process: u32, call: &Process) -> Option<Step> {
        let right = self.store.next(call.pred, 0);
        let own = self.store.next(call.pred, self.store.node_word(call.pred, TOP));
        self.store.set_next(call.pred, 0, own);
        let step = self.store.step(process).ok();
        self.store.set_next(call.pred, 0, right);
        step
    }

    /// Shows the version before the newest, or the newest of those held at the walk's end, if there is one.
    fn shows_older(&mut self, process: u32, call: &Process) -> Option<Step> {
        let step = self.store.step(process).ok()?;
        let Step::Shown { tick, .. } = step else { return Some(step) };
        let node = self.after(process).pred;
        let newest = self.store.node_word(node, NEWEST);
        let before = |&place: &u32| Some(self.store.version_word(place, PREV)).filter(|&prev| prev != 0);
        let mut chain = std::iter::successors(Some(newest), before);
        let older = match self.slip {
            Slip::ScanOfWalk => chain.find(|&place| place <= call.made),
            _ => chain.nth(1),
        };
        Some(self.shown(tick, node, older.unwrap_or(newest)))
    }

    /// Keeps what was shown last and answers it at the finish.
    fn keeps(&mut self, process: u32, call: &Process) -> Option<Step> {
        let Process { value, timestamp, .. } = *call;
        let step = self.store.step(process).ok()?;
        match step {
            Step::Shown { value, timestamp, .. } => {
                (self.after(process).value, self.after(process).timestamp) = (value, timestamp);
                Some(step)
            }
            Step::Done(done) => Some(Step::Done(Done { value, timestamp, ..done })),
            _ => Some(step),
        }
    }

    fn get_shows(&mut self, process: u32) -> Option<Step> {
        let step = self.store.step(process).ok()?;
        let Process { phase, pred, .. } = *self.after(process);
        let finds = phase == Phase::Read;
        Some(if finds { self.shown(step.tick(), pred, self.store.node_word(pred, NEWEST)) } else { step })
    }

    /// What is told at a finish.
    pub(super) fn invented_end(&mut self, done: Done) -> Done {
        match (self.slip, done.kind, done.answer) {
            (Slip::ScanCounted, Kind::Scan, _) => {
                self.store.tally[Answer::None as usize] += 1;
                done
            }
            (Slip::ScanEffect, Kind::Scan, _) => Done { effect: done.finish, ..done },
            (Slip::PutSwept, Kind::Put, Answer::TooOld) => {
                self.store.tally[Answer::TooOld as usize] -= 1;
                Done { answer: Answer::Swept, ..done }
            }
            _ => done,
        }
    }
}
