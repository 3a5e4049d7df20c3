//! Whole turns: a transaction from its start to its end, with nobody's call between.

mod calm;
mod label;
mod open;

pub use calm::Longest;
pub use label::Label;
pub use open::Open;

use crate::{Board, Outcome, Phase, Progress, Refusal};

/// How a body wants its transaction to end, and what it answers.
#[derive(Clone, Copy, Debug, PartialEq, Eq)]
pub enum End<T> {
    /// What was written goes to the board.
    Commit(T),
    /// The task sleeps on what was read, until one that would commit comes to one of its words.
    Sleep(T),
    /// Nothing was written.
    Abort(T),
}

/// How a turn ended.
#[derive(Clone, Copy, Debug, PartialEq, Eq, Hash)]
pub enum Ended {
    /// What was written is on the board, and what was read stood on one board with it.
    Committed,
    /// The task sleeps, and what it read is the board for as long as it does.
    Asleep,
    /// The body gave up. Nothing was written.
    Aborted,
}

/// What a turn came to.
#[derive(Clone, Copy, Debug, PartialEq, Eq)]
pub struct Turn<T> {
    /// What the body answered in its last try.
    pub value: T,
    pub ended: Ended,
    /// How often the body was run.
    pub tries: usize,
    /// How many calls of the library the turn took.
    pub calls: usize,
}

/// A step that was made in a turn, for whoever watches.
#[derive(Clone, Copy, Debug, PartialEq, Eq)]
pub struct Stepped {
    /// The task that was stepped: the one whose turn it is, or one that it met.
    pub task: usize,
    /// Its phase before the step.
    pub before: Phase,
    /// What the step came to.
    pub progress: Progress,
}

/// Whether a task is stepped to its end by whoever meets it: it has decided or is releasing.
fn is_ending(phase: Option<Phase>) -> bool {
    use Phase::*;
    matches!(phase, Some(Writing | ReleasingCommitted | ReleasingFailed | ReleasingWoken))
}

impl Board {
    /// One whole turn of a task: start, body, commit or wait, and all its steps.
    ///
    /// If the try fails, whoever it met is stepped to its end and the body is run again, in the same
    /// turn. On a board where every other task is idle or asleep, a turn that commits is through at
    /// try k + 1 or before, where k is the number of sleepers that own a record of its addresses.
    /// Those on their lists are woken with them, and cost no try of their own.
    /// So [`Board::longest_turn`] says beforehand how long a turn can take. There are never more
    /// tries than tasks: then [`Refusal::Overtaken`] is answered, which no board that was opened and
    /// used by calls comes to.
    ///
    /// ```
    /// use chezumobari::{Board, End, Ended, Refusal, Sizes};
    /// let mut board = Board::open(Sizes { words: 2, records: 2, tasks: 2 }, 1)?;
    ///
    /// // Task 0 reads word 0 and sleeps on it.
    /// let label = board.turn(0, |open| Ok(End::Sleep(open.read(0)?)))?;
    /// assert_eq!((label.ended, label.value), (Ended::Asleep, 0));
    ///
    /// // Task 1 writes it. The sleeper is in the way, so it takes two tries, in one turn.
    /// assert_eq!(board.longest_turn(&[0]).tries, 2);
    /// let trade = board.turn(1, |open| {
    ///     let old = open.read(0)?;
    ///     open.write(0, old + 5)?;
    ///     Ok(End::Commit(old))
    /// })?;
    /// assert_eq!((trade.ended, trade.value, trade.tries), (Ended::Committed, 0, 2));
    /// assert_eq!(board.look(0)?.value, 5);
    ///
    /// // A body that ends early leaves nothing behind.
    /// assert_eq!(board.turn(1, |open| Ok(End::Commit(open.read(7)?))), Err(Refusal::NoSuchAddress));
    /// assert!(board.is_calm());
    /// # Ok::<(), Refusal>(())
    /// ```
    pub fn turn<T>(
        &mut self,
        task: usize,
        body: impl FnMut(&mut Open<'_>) -> Result<End<T>, Refusal>,
    ) -> Result<Turn<T>, Refusal> {
        self.watched_turn(task, body, |_, _| {})
    }

    /// The same, and each step is told to a watcher, with the board after it.
    pub fn watched_turn<T>(
        &mut self,
        task: usize,
        mut body: impl FnMut(&mut Open<'_>) -> Result<End<T>, Refusal>,
        mut watch: impl FnMut(&Board, Stepped),
    ) -> Result<Turn<T>, Refusal> {
        let mut calls = self.end_if_ending(task, &mut watch)?;
        for tries in 1..=self.sizes().tasks {
            if let Some((value, ended)) = self.one_try(task, &mut body, &mut watch, &mut calls)? {
                return Ok(Turn { value, ended, tries, calls });
            }
            for other in 0..self.sizes().tasks {
                calls += self.end_if_ending(other, &mut watch)?;
            }
        }
        Err(Refusal::Overtaken)
    }

    /// The body once, to the end of its transaction. Nothing if it failed.
    fn one_try<T>(
        &mut self,
        task: usize,
        body: &mut impl FnMut(&mut Open<'_>) -> Result<End<T>, Refusal>,
        watch: &mut impl FnMut(&Board, Stepped),
        calls: &mut usize,
    ) -> Result<Option<(T, Ended)>, Refusal> {
        let mut open = Open::start(self, task)?;
        let wish = body(&mut open);
        *calls += open.calls();
        let value = match wish {
            Err(Refusal::Overtaken) => return Ok(None),
            Err(refusal) => return Err(refusal),
            Ok(wish) => {
                *calls += 1;
                match open.close(wish)? {
                    (value, Some(ended)) => return Ok(Some((value, ended))),
                    (value, None) => value,
                }
            }
        };
        let (progress, steps) = self.watched_settle(task, watch)?;
        *calls += steps;
        Ok(match progress {
            Progress::Asleep => Some((value, Ended::Asleep)),
            Progress::Ended(Outcome::Committed) => Some((value, Ended::Committed)),
            Progress::Ended(_) | Progress::Going => None,
        })
    }

    /// Steps a task to its end if it has decided or is releasing. Answers the steps.
    pub(crate) fn end_if_ending(
        &mut self,
        task: usize,
        watch: &mut impl FnMut(&Board, Stepped),
    ) -> Result<usize, Refusal> {
        if is_ending(self.phase(task)) {
            return Ok(self.watched_settle(task, watch)?.1);
        }
        Ok(0)
    }

    pub(crate) fn watched_step(
        &mut self,
        task: usize,
        watch: &mut impl FnMut(&Board, Stepped),
    ) -> Result<Progress, Refusal> {
        let before = self.phase(task).unwrap_or(Phase::Idle);
        let progress = self.task(task).step()?;
        watch(self, Stepped { task, before, progress });
        Ok(progress)
    }

    fn watched_settle(
        &mut self,
        task: usize,
        watch: &mut impl FnMut(&Board, Stepped),
    ) -> Result<(Progress, usize), Refusal> {
        // a task with n entries settles within 3n + 3 steps
        let mut steps = 0;
        loop {
            steps += 1;
            let progress = self.watched_step(task, watch)?;
            if progress != Progress::Going {
                return Ok((progress, steps));
            }
        }
    }
}
