//! The line of those whose commit has failed, and what else a shared board keeps of its tasks.

use crate::turns::Stepped;
use crate::{Board, Outcome, Phase, Progress, MOST_TASKS};

pub(super) type Watcher = Box<dyn FnMut(&Board, Stepped)>;

/// What a shared board keeps beside its tables.
pub(super) struct State {
    pub(super) line: Line,
    /// which turn of the scheduler it is, and in which one each task had its transaction
    pub(super) turn: u64,
    pub(super) took: [u64; MOST_TASKS],
    /// how a transaction ended that another task stepped to its end
    pub(super) ended: [Option<Outcome>; MOST_TASKS],
    pub(super) watcher: Option<Watcher>,
}

/// Those whose commit has failed, the first one first. Tasks are bits of `waiting` and `called`.
#[derive(Default)]
pub(super) struct Line {
    pub(super) tasks: Vec<usize>,
    /// who waits for the line to let it begin
    pub(super) waiting: u32,
    /// who waited when the line emptied: it begins at its next turn even if the line has filled again,
    /// and before the first of the line
    pub(super) called: u32,
}

impl Line {
    pub(super) fn join(&mut self, task: usize) {
        if !self.tasks.contains(&task) {
            self.tasks.push(task);
        }
    }

    pub(super) fn leave(&mut self, task: usize) {
        self.tasks.retain(|&other| other != task);
        if self.tasks.is_empty() {
            self.called |= std::mem::take(&mut self.waiting);
        }
    }

    /// Whether a task may begin now. If not, it is noted as one that waits.
    pub(super) fn lets(&mut self, task: usize, board: &Board) -> bool {
        let bit = 1 << task;
        let lets = match self.tasks.first() {
            None => true,
            Some(_) if self.called & bit != 0 => true,
            Some(&first) => first == task && self.called == 0 && road_is_clear(board, task),
        };
        if !lets {
            self.waiting |= bit;
        }
        lets
    }
}

/// Whether no other task is on its way to commit, to sleep or to its end.
fn road_is_clear(board: &Board, task: usize) -> bool {
    use Phase::*;
    (0..board.sizes().tasks).all(|other| other == task || matches!(board.phase(other), Some(Idle | Open | Asleep)))
}

impl State {
    /// Another task's whole turn has stepped a task to its end.
    pub(super) fn ended_by_another(&mut self, task: usize, outcome: Outcome) {
        self.ended[task] = Some(outcome);
        if outcome == Outcome::Failed {
            self.line.join(task);
        }
    }

    /// Keeps the line by what a step did, and tells the watcher. The phases are those before it.
    pub(super) fn stepped(&mut self, board: &Board, before: &[Option<Phase>], step: Stepped) {
        let failed = |task: usize| {
            before.get(task) == Some(&Some(Phase::TakingToCommit)) && board.phase(task) == Some(Phase::ReleasingFailed)
        };
        // the one that came stands before the one that it met; one that would sleep stands in no line
        for task in std::iter::once(step.task).chain(0..board.sizes().tasks) {
            if failed(task) {
                self.line.join(task);
            }
        }
        if step.progress == Progress::Ended(Outcome::Committed) {
            self.line.leave(step.task);
        }
        if let Some(watcher) = &mut self.watcher {
            watcher(board, step);
        }
    }
}

pub(super) fn phases(board: &Board) -> Vec<Option<Phase>> {
    (0..board.sizes().tasks).map(|task| board.phase(task)).collect()
}
