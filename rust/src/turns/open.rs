//! An open transaction, as a body is lent it.

use super::{End, Ended};
use crate::{Board, Phase, Refusal};

/// An open transaction, lent to a body.
///
/// However the body ends, by an answer, by `?` or by a panic, the task is not left open.
#[derive(Debug)]
pub struct Open<'board> {
    board: &'board mut Board,
    task: usize,
    calls: usize,
    stays: bool,
}

impl<'board> Open<'board> {
    pub(super) fn start(board: &'board mut Board, task: usize) -> Result<Open<'board>, Refusal> {
        board.task(task).start()?;
        Ok(Open { board, task, calls: 1, stays: false })
    }

    /// An open transaction that goes on when this is dropped.
    pub(crate) fn lend(board: &'board mut Board, task: usize) -> Open<'board> {
        Open { board, task, calls: 0, stays: true }
    }

    pub(crate) fn calls(&self) -> usize {
        self.calls
    }

    /// The task whose transaction this is.
    pub fn task(&self) -> usize {
        self.task
    }

    /// Reads a word: the transaction's own value if it wrote one, else what it saw first.
    pub fn read(&mut self, address: usize) -> Result<u32, Refusal> {
        self.calls += 1;
        self.board.task(self.task).read(address)
    }

    /// Writes a word. Others see it once the transaction has committed.
    pub fn write(&mut self, address: usize, value: u32) -> Result<(), Refusal> {
        self.calls += 1;
        self.board.task(self.task).write(address, value)
    }

    /// Asks for what the body wishes. The body's answer, and the end if there are no steps to it.
    pub(super) fn close<T>(self, wish: End<T>) -> Result<(T, Option<Ended>), Refusal> {
        let mut task = self.board.task(self.task);
        match wish {
            End::Commit(value) => task.commit().map(|()| (value, None)),
            End::Sleep(value) => task.wait().map(|()| (value, None)),
            End::Abort(value) => task.abort().map(|()| (value, Some(Ended::Aborted))),
        }
    }
}

impl Drop for Open<'_> {
    fn drop(&mut self) {
        if !self.stays && self.board.phase(self.task) == Some(Phase::Open) {
            // an open transaction may always be given up
            let _ = self.board.task(self.task).abort();
        }
    }
}
