//! Transactions that span turns: their bodies may await, and their tasks keep the line.

use super::line::phases;
use super::{pass, Shared};
use crate::turns::{End, Ended, Open, Stepped, Turn};
use crate::{Board, Outcome, Phase, Progress, Refusal, Task};
use std::cell::Cell;

impl Shared {
    /// A transaction that spans turns: its body may await. It is run until it commits, sleeps or
    /// gives up; after a failure the task stands in line.
    ///
    /// From when it begins as the first in line, with k the sleepers that own a record in its way and the
    /// tasks that are neither idle nor asleep, it is through at try k + 1 or before. That is measured, not
    /// proved.
    pub async fn span<T>(
        &self,
        task: usize,
        mut body: impl AsyncFnMut(&Spanning<'_>) -> Result<End<T>, Refusal>,
    ) -> Result<Turn<T>, Refusal> {
        let spanning = Spanning { shared: self, task, calls: Cell::new(0) };
        let mut tries = 0;
        loop {
            tries += 1;
            self.may_begin(task).await?;
            spanning.call(|mut task| task.start())?;
            let (value, ended) = match body(&spanning).await {
                Err(Refusal::Overtaken) => {
                    self.state.borrow_mut().line.join(task);
                    continue;
                }
                Err(refusal) => return Err(refusal),
                Ok(End::Abort(value)) => (value, Some(Ended::Aborted)),
                Ok(End::Commit(value)) => {
                    spanning.call(|mut task| task.commit())?;
                    (value, spanning.arrive().await?)
                }
                Ok(End::Sleep(value)) => {
                    self.state.borrow_mut().line.leave(task);
                    spanning.call(|mut task| task.wait())?;
                    (value, spanning.arrive().await?)
                }
            };
            if let Some(ended) = ended {
                return Ok(Turn { value, ended, tries, calls: spanning.calls.get() });
            }
        }
    }

    fn step(&self, task: usize) -> Result<Progress, Refusal> {
        let (mut board, mut state) = (self.board.borrow_mut(), self.state.borrow_mut());
        let before = phases(&board);
        board.watched_step(task, &mut |board: &Board, step: Stepped| state.stepped(board, &before, step))
    }

    /// Has a task stand nowhere: not open, not half way, not in line. It may sleep.
    pub(super) fn let_go(&self, task: usize) {
        let (mut board, mut state) = (self.board.borrow_mut(), self.state.borrow_mut());
        // neither is refused in these phases
        let _ = match board.phase(task) {
            None => return,
            Some(Phase::Idle | Phase::Asleep) => Ok(()),
            Some(Phase::Open) => board.task(task).abort(),
            Some(_) => board.task(task).settle().map(drop),
        };
        state.line.leave(task);
    }
}

/// An open transaction that spans turns. Between its calls the body may await.
///
/// If the body ends early, or the future is dropped, the task is not left open.
pub struct Spanning<'shared> {
    shared: &'shared Shared,
    task: usize,
    calls: Cell<usize>,
}

impl Spanning<'_> {
    /// Reads a word: the transaction's own value if it wrote one, else what it saw first.
    pub fn read(&self, address: usize) -> Result<u32, Refusal> {
        self.now(|open| open.read(address))
    }

    /// Writes a word. Others see it once the transaction has committed.
    pub fn write(&self, address: usize, value: u32) -> Result<(), Refusal> {
        self.now(|open| open.write(address, value))
    }

    /// Several calls at once, with the same code as a body of [`Shared::turn`].
    pub fn now<T>(&self, act: impl FnOnce(&mut Open<'_>) -> Result<T, Refusal>) -> Result<T, Refusal> {
        let mut board = self.shared.board.borrow_mut();
        let mut open = Open::lend(&mut board, self.task);
        let result = act(&mut open);
        self.calls.set(self.calls.get() + open.calls());
        result
    }

    fn call(&self, act: impl FnOnce(Task<'_>) -> Result<(), Refusal>) -> Result<(), Refusal> {
        self.calls.set(self.calls.get() + 1);
        act(self.shared.board.borrow_mut().task(self.task))
    }

    /// Steps the task until it is asleep or at its end. Nothing if it has failed.
    async fn arrive(&self) -> Result<Option<Ended>, Refusal> {
        loop {
            match self.step()? {
                Progress::Asleep => return Ok(Some(Ended::Asleep)),
                Progress::Ended(Outcome::Committed) => return Ok(Some(Ended::Committed)),
                // a task that was woken before it took another turn has slept all the same
                Progress::Ended(Outcome::Woken) => return Ok(Some(Ended::Asleep)),
                Progress::Ended(Outcome::Failed) => return Ok(None),
                Progress::Going if self.shared.steps_apart => pass().await,
                Progress::Going => {}
            }
        }
    }

    /// One step, unless another task's whole turn has made the steps already.
    fn step(&self) -> Result<Progress, Refusal> {
        if let Some(outcome) = self.shared.state.borrow_mut().ended[self.task].take() {
            return Ok(Progress::Ended(outcome));
        }
        self.calls.set(self.calls.get() + 1);
        self.shared.step(self.task)
    }
}

impl Drop for Spanning<'_> {
    fn drop(&mut self) {
        self.shared.let_go(self.task);
    }
}
