//! The second machine's step.

use super::{End, Goal, Machine, Phase, Record, Reply};
use std::mem;

impl Machine {
    pub(super) fn step(&mut self, task: usize, phase: Phase) -> Reply {
        let n = self.tasks[task].uses.len();
        match phase {
            Phase::Idle | Phase::Open => (4, 0),
            Phase::Taking(goal, i) if i < n => {
                self.tasks[task].phase = self.take(task, goal, i);
                (0, 0)
            }
            Phase::Taking(Goal::Commit, _) => self.enter(task, Phase::Writing(0)),
            Phase::Taking(Goal::Sleep, _) => {
                self.tasks[task].phase = Phase::Asleep;
                (20, 0)
            }
            Phase::Asleep => (20, 0),
            Phase::Writing(i) if i < n => {
                let it = self.tasks[task].uses[i];
                self.words[it.address] = it.left;
                self.enter(task, Phase::Writing(i + 1))
            }
            Phase::Writing(_) => self.enter(task, Phase::Releasing(End::Committed, 0)),
            Phase::Releasing(end, i) if i < n => {
                self.release(task, end, i);
                self.enter(task, Phase::Releasing(end, i + 1))
            }
            Phase::Releasing(end, _) => {
                self.goes_idle(task);
                let number = match end {
                    End::Committed => 21,
                    End::Failed => 22,
                    End::Woken => 23,
                };
                (number, 0)
            }
        }
    }

    /// The phase of a task after it has tried to take the record of its use at `i`.
    fn take(&mut self, task: usize, goal: Goal, i: usize) -> Phase {
        let record = self.tasks[task].uses[i].address % self.records.len();
        let found = self.found(task, record);
        match self.records[record] {
            Record::Version(version) if version == found => {
                self.records[record] = Record::Owner(task);
                Phase::Taking(goal, i + 1)
            }
            Record::Version(_) => Phase::Releasing(End::Failed, 0),
            Record::Owner(owner) if owner == task => Phase::Taking(goal, i + 1),
            Record::Owner(owner) if goal == Goal::Sleep && self.tasks[owner].phase == Phase::Asleep => {
                if self.found(owner, record) != found {
                    return Phase::Releasing(End::Failed, 0);
                }
                self.tasks[owner].list.insert(task);
                Phase::Taking(goal, i + 1)
            }
            Record::Owner(owner) => {
                self.ends(owner);
                Phase::Releasing(End::Failed, 0)
            }
        }
    }

    /// A task that is met ends, where it takes or sleeps, and then all on its list, and so on.
    fn ends(&mut self, task: usize) {
        let it = &mut self.tasks[task];
        match it.phase {
            Phase::Taking(..) => it.phase = Phase::Releasing(End::Failed, 0),
            Phase::Asleep => it.phase = Phase::Releasing(End::Woken, 0),
            _ => {}
        }
        for other in mem::take(&mut it.list) {
            self.ends(other);
        }
    }

    fn release(&mut self, task: usize, end: End, i: usize) {
        let record = self.tasks[task].uses[i].address % self.records.len();
        if self.records[record] == Record::Owner(task) {
            let it = &self.tasks[task];
            let mark = it.marks[it.marked(record).expect("a used address has a mark")];
            let version = if end == End::Committed { mark.left } else { mark.found };
            self.records[record] = Record::Version(version);
        }
    }

    fn found(&self, task: usize, record: usize) -> u32 {
        let it = &self.tasks[task];
        it.marks[it.marked(record).expect("a used address has a mark")].found
    }
}
