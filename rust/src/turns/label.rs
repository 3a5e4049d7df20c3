//! A label: it reads, sleeps, and has something to say if that is news.

use super::{End, Open};
use crate::{Board, Phase, Refusal};

/// A label: it reads, sleeps on what it read, and has something to say if that is news.
///
/// Any number of labels sleep on one word, and none of them wakes another.
///
/// ```
/// use chezumobari::{Board, End, Label, Refusal, Sizes};
/// let mut board = Board::open(Sizes { words: 2, records: 2, tasks: 2 }, 1)?;
/// let (owner, houses) = (0, 1);
/// let mut label = Label::new(0, |open| Ok(format!("Owner {}, houses {}.", open.read(owner)?, open.read(houses)?)));
/// let mut spoken = Vec::new();
///
/// for round in 0..5 {
///     if round == 2 {
///         let trade = board.turn(1, |open| Ok(End::Commit(open.write(owner, 3)?)))?;
///         assert_eq!(trade.tries, 2);
///     }
///     if let Some(text) = label.turn(&mut board)? {
///         spoken.push(format!("{round}: {text}"));
///     }
/// }
/// assert_eq!(spoken, ["0: Owner 0, houses 0.", "2: Owner 3, houses 0."]);
/// # Ok::<(), Refusal>(())
/// ```
#[derive(Debug)]
pub struct Label<T, R> {
    task: usize,
    read: R,
    said: Option<T>,
}

impl<T: PartialEq, R: FnMut(&mut Open<'_>) -> Result<T, Refusal>> Label<T, R> {
    /// A label that is a task of the board. `read` reads the words and makes the text of them.
    pub fn new(task: usize, read: R) -> Label<T, R> {
        Label { task, read, said: None }
    }

    /// The same label, as if it had said this already. For a saved game, or a board that is known.
    pub fn having_said(self, text: T) -> Label<T, R> {
        Label { said: Some(text), ..self }
    }

    /// What it said last.
    pub fn said(&self) -> Option<&T> {
        self.said.as_ref()
    }

    /// The label's turn: nothing if it sleeps. Otherwise it reads, sleeps, and answers the text if
    /// that differs from what it said last. The text is the board, and stays so until the label is
    /// woken. Then it takes its next turn.
    pub fn turn(&mut self, board: &mut Board) -> Result<Option<&T>, Refusal> {
        if board.phase(self.task) == Some(Phase::Asleep) {
            return Ok(None);
        }
        let turn = board.turn(self.task, |open| Ok(End::Sleep((self.read)(open)?)))?;
        Ok(self.news(turn.value))
    }

    /// One try for its text, and what of it is news.
    pub(crate) fn read(&mut self, open: &mut Open<'_>) -> Result<T, Refusal> {
        (self.read)(open)
    }

    pub(crate) fn task(&self) -> usize {
        self.task
    }

    pub(crate) fn news(&mut self, text: T) -> Option<&T> {
        if self.said.as_ref() == Some(&text) {
            return None;
        }
        self.said = Some(text);
        self.said.as_ref()
    }
}
