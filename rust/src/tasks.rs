//! Tasks written as futures over one board, which they share.

mod line;
mod scheduler;
mod span;

pub use scheduler::{pass, rest, Scheduler};
pub use span::Spanning;

use crate::turns::{End, Label, Open, Stepped, Turn};
use crate::{Board, Phase, Progress, Refusal, Seen, MOST_TASKS};
use line::{Line, State};
use std::cell::{Ref, RefCell};

/// A board that tasks share, with the line of those whose commit has failed.
///
/// A transaction is best a whole turn: [`Shared::turn`]. A body that must wait for something in its
/// middle spans turns: [`Shared::span`]. Both may be used on one board.
///
/// The line: a task whose commit fails joins its end in that very step. While somebody is in it only
/// the first begins a transaction, and only when no other is on its way to commit, to sleep or to its
/// end. Those that are open go on. A task leaves the line when it commits, sleeps or gives up. When
/// the line empties, all who wait for it begin at their next turn.
///
/// ```
/// use chezumobari::{pass, Board, End, Ended, Label, Refusal, Scheduler, Shared, Sizes};
/// use std::cell::RefCell;
/// let shared = Shared::new(Board::open(Sizes { words: 2, records: 2, tasks: 3 }, 1)?);
/// let spoken = RefCell::new(Vec::new());
///
/// let mut scheduler = Scheduler::new(&shared);
/// // Task 0 moves 5 from one word to the other, and takes a few turns to think in between.
/// let trade = scheduler.add(0, async {
///     let traded = shared.span(0, async |t| {
///         let left = t.read(0)?;
///         t.write(0, left.wrapping_sub(5))?;
///         pass().await;
///         let right = t.read(1)?;
///         t.write(1, right + 5)?;
///         Ok(End::Commit(()))
///     });
///     assert_eq!(traded.await.map(|turn| turn.ended), Ok(Ended::Committed));
/// });
/// // Tasks 1 and 2 are labels, each on one word.
/// let (board, voice) = (&shared, &spoken);
/// for word in 0..2 {
///     let label = Label::new(1 + word, move |open| Ok(open.read(word)? as i32));
///     let speak = move |value: &i32| voice.borrow_mut().push((word, *value));
///     scheduler.add(1 + word, async move { board.label(label, speak).await.unwrap() });
/// }
/// while scheduler.turn().is_some() {}
/// assert!(scheduler.has_ended(trade));
/// drop(scheduler);
/// assert_eq!(spoken.take(), [(0, 0), (1, 0), (0, -5), (1, 5)]);
/// # Ok::<(), Refusal>(())
/// ```
pub struct Shared {
    board: RefCell<Board>,
    state: RefCell<State>,
    steps_apart: bool,
}

impl Shared {
    pub fn new(board: Board) -> Shared {
        let state =
            State { line: Line::default(), turn: 1, took: [0; MOST_TASKS], ended: [None; MOST_TASKS], watcher: None };
        Shared { board: RefCell::new(board), state: RefCell::new(state), steps_apart: false }
    }

    /// Gives each step of a transaction that spans turns a turn of its own. Without this its commit
    /// runs to its end in one turn. For large boards, where a call is dear; labels then speak later.
    pub fn with_steps_apart(self) -> Shared {
        Shared { steps_apart: true, ..self }
    }

    /// Has each step of each task told to a watcher, with the board after it.
    pub fn watch(&self, watcher: impl FnMut(&Board, Stepped) + 'static) {
        self.state.borrow_mut().watcher = Some(Box::new(watcher));
    }

    /// The board, to look at.
    pub fn board(&self) -> Ref<'_, Board> {
        self.board.borrow()
    }

    /// The board again, when no task needs it any more.
    pub fn into_board(self) -> Board {
        self.board.into_inner()
    }

    /// What is on the board now.
    pub fn look(&self, address: usize) -> Result<Seen, Refusal> {
        self.board.borrow().look(address)
    }

    /// Who stands first in the line of those that have failed.
    pub fn first_in_line(&self) -> Option<usize> {
        self.state.borrow().line.tasks.first().copied()
    }

    /// A new turn begins. The [`Scheduler`] calls this; so does a program that polls futures itself,
    /// before each poll. Without it a task has one transaction and then waits.
    pub fn next_turn(&self) {
        self.state.borrow_mut().turn += 1;
    }

    /// Waits until a task may begin a transaction: it has had none in this turn, and the line lets it.
    /// A task that was woken steps to its end here, so that it stands in nobody's way.
    async fn may_begin(&self, task: usize) -> Result<(), Refusal> {
        let _waiting = Waiting { shared: self, task };
        while !self.begins(task)? {
            pass().await;
        }
        Ok(())
    }

    fn begins(&self, task: usize) -> Result<bool, Refusal> {
        let (mut board, mut state) = (self.board.borrow_mut(), self.state.borrow_mut());
        if task >= board.sizes().tasks {
            return Err(Refusal::NoSuchTask);
        }
        board.end_if_ending(task, &mut |board: &Board, step: Stepped| state.stepped(board, &[], step))?;
        let turn = state.turn;
        let begins = state.took[task] != turn && state.line.lets(task, &board);
        if begins {
            state.took[task] = turn;
            state.ended[task] = None;
        }
        Ok(begins)
    }

    /// A whole turn, as [`Board::turn`], when this task's turn has come.
    ///
    /// The body has the board: it uses what it is lent, and not `Shared`. What the turn answers is
    /// the board when this answers; it is no longer after the next `await`.
    pub async fn turn<T>(
        &self,
        task: usize,
        body: impl FnMut(&mut Open<'_>) -> Result<End<T>, Refusal>,
    ) -> Result<Turn<T>, Refusal> {
        self.may_begin(task).await?;
        let mut state = self.state.borrow_mut();
        self.board.borrow_mut().watched_turn(task, body, |board, step| {
            if let (true, Progress::Ended(outcome)) = (step.task != task, step.progress) {
                state.ended_by_another(step.task, outcome);
            }
            state.stepped(board, &[], step);
        })
    }

    /// Sleeps until a body answers something, and answers that.
    pub async fn until<T>(
        &self,
        task: usize,
        mut body: impl FnMut(&mut Open<'_>) -> Result<Option<T>, Refusal>,
    ) -> Result<T, Refusal> {
        loop {
            let wish = |found: Option<T>| if found.is_some() { End::Commit(found) } else { End::Sleep(found) };
            if let Some(found) = self.turn(task, |open| Ok(wish(body(open)?))).await?.value {
                return Ok(found);
            }
            self.woken(task).await;
        }
    }

    /// Passes until a task does not sleep.
    pub async fn woken(&self, task: usize) {
        while self.board.borrow().phase(task) == Some(Phase::Asleep) {
            pass().await;
        }
    }

    /// A label as a task: it speaks what is news, sleeps, and goes on when it is woken.
    pub async fn label<T: PartialEq, R: FnMut(&mut Open<'_>) -> Result<T, Refusal>>(
        &self,
        mut label: Label<T, R>,
        mut speak: impl FnMut(&T),
    ) -> Result<(), Refusal> {
        loop {
            let text = self.turn(label.task(), |open| Ok(End::Sleep(label.read(open)?))).await?.value;
            if let Some(news) = label.news(text) {
                speak(news);
            }
            self.woken(label.task()).await;
        }
    }
}

/// While this is there a task waits for the line to let it begin.
struct Waiting<'shared> {
    shared: &'shared Shared,
    task: usize,
}

impl Drop for Waiting<'_> {
    fn drop(&mut self) {
        let bit = 1_u32.checked_shl(self.task as u32).unwrap_or(0);
        let line = &mut self.shared.state.borrow_mut().line;
        line.waiting &= !bit;
        line.called &= !bit;
    }
}
