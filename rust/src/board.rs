//! A board that owns its tables, and a handle for each of its tasks.

use crate::numbers::{done, progress, Progress, Refusal};
use crate::tables::{PlaceRow, Sizes, Tables};
use crate::MOST_TASKS;

/// A board of words that several tasks read and write in transactions.
///
/// ```
/// use chezumobari::{Board, Refusal, Sizes};
/// let board = Board::open(Sizes { words: 160, records: 160, tasks: 8 }, 1)?;
/// assert_eq!(board.look(3)?.value, 0);
/// assert_eq!(board.look(160), Err(Refusal::NoSuchAddress));
/// assert_eq!(Board::open(Sizes { words: 0, records: 1, tasks: 1 }, 1), Err(Refusal::OutOfRange));
/// # Ok::<(), Refusal>(())
/// ```
#[derive(Clone, Debug, PartialEq, Eq)]
pub struct Board {
    sizes: Sizes,
    tables: Tables,
}

/// The value and the version at an address.
#[must_use]
#[derive(Clone, Copy, Debug, PartialEq, Eq)]
pub struct Seen {
    pub value: u32,
    pub version: u32,
}

/// The phase that a task is in.
#[derive(Clone, Copy, Debug, PartialEq, Eq, Hash)]
pub enum Phase {
    Idle,
    Open,
    TakingToCommit,
    TakingToSleep,
    Asleep,
    Writing,
    ReleasingCommitted,
    ReleasingFailed,
    ReleasingWoken,
}

impl Board {
    /// Opens a board. Every word is 0, every task is idle, and every record has the first version.
    pub fn open(sizes: Sizes, first_version: u32) -> Result<Board, Refusal> {
        let mut tables = Tables::for_sizes(sizes);
        done(tables.open(sizes, first_version).number)?;
        Ok(Board { sizes, tables })
    }

    /// A board over tables from elsewhere, as a saved game.
    /// Nothing is checked here: each call checks, and answers [`Refusal::Unsound`] if they are unsound.
    /// Sound tables that no run of calls has left are taken too. What is promised of a board's history
    /// is promised of a saved one only if it was saved from a board that was opened here.
    pub fn from_tables(sizes: Sizes, tables: Tables) -> Board {
        Board { sizes, tables }
    }

    /// The tables, to be saved.
    pub fn tables(&self) -> &Tables {
        &self.tables
    }

    /// The sizes that the board was opened with.
    pub fn sizes(&self) -> Sizes {
        self.sizes
    }

    /// The logical value and version of an address: what committed transactions have left there.
    pub fn look(&self, address: usize) -> Result<Seen, Refusal> {
        let looked = self.tables.look(self.sizes, address);
        done(looked.number)?;
        Ok(Seen { value: looked.value, version: looked.version })
    }

    /// A handle for a task. It holds nothing: make it anew for each call, and tasks take turns.
    /// A task number that is too high is refused by each request.
    pub fn task(&mut self, task: usize) -> Task<'_> {
        Task { board: self, task }
    }

    /// The phase of a task, for a scheduler that passes over sleepers.
    /// `None` if there is no such task, or its place in unsound tables is no phase.
    pub fn phase(&self, task: usize) -> Option<Phase> {
        use Phase::*;
        let phases = [
            Idle,
            Open,
            TakingToCommit,
            TakingToSleep,
            Asleep,
            Writing,
            ReleasingCommitted,
            ReleasingFailed,
            ReleasingWoken,
        ];
        let code = self.tables.places.get(task)?[1];
        phases.get(code as usize).copied()
    }

    /// The tasks on a sleeper's list: they came for one of its records to sleep on it too, and are woken
    /// with it. Empty for a task that does not sleep.
    ///
    /// ```
    /// use chezumobari::{Board, End, Phase, Sizes};
    /// let mut board = Board::open(Sizes { words: 1, records: 1, tasks: 4 }, 1)?;
    /// for listener in 0..3 {
    ///     board.turn(listener, |open| Ok(End::Sleep(open.read(0)?)))?;
    /// }
    /// assert_eq!(board.list(0), [1, 2]);
    ///
    /// // One writer wakes all three, with one try.
    /// let turn = board.turn(3, |open| Ok(End::Commit(open.write(0, 7)?)))?;
    /// assert_eq!(turn.tries, 2);
    /// assert!((0..3).all(|listener| board.phase(listener) == Some(Phase::Idle)));
    /// # Ok::<(), chezumobari::Refusal>(())
    /// ```
    pub fn list(&self, task: usize) -> Vec<usize> {
        let joined = |row: &PlaceRow| task < MOST_TASKS && row[3] >> task & 1 == 1;
        (0..self.tables.places.len()).filter(|&other| joined(&self.tables.places[other])).collect()
    }
}

/// One task's transaction.
///
/// The handle borrows the board for as long as it is used, so two tasks never act at once:
///
/// ```compile_fail
/// # use chezumobari::{Board, Sizes};
/// # let mut board = Board::open(Sizes { words: 2, records: 2, tasks: 2 }, 1).unwrap();
/// let mut one = board.task(0);
/// let mut other = board.task(1);
/// one.start();
/// other.start();
/// ```
///
/// What the transaction has read and written stands in the board, so the handle may be dropped at
/// any time and made again. Dropping it ends nothing and frees nothing. A task that nobody goes on with
/// stays where it was:
/// - Open, it keeps what it read, and stands in nobody's way. [`Task::abort`] ends it.
/// - On its way to commit, to sleep or to the end, it keeps the records that it has taken, and every
///   task that comes for one of them fails, until this one has been stepped to its end.
/// - Asleep, it sleeps on until a task that would commit comes for one of its records, or for one of a
///   sleeper whose list it is on. Then it is on its way to the end.
///
/// ```
/// # use chezumobari::{Board, Outcome, Phase, Progress, Sizes};
/// # let mut board = Board::open(Sizes { words: 2, records: 2, tasks: 2 }, 1)?;
/// {
///     let mut handle = board.task(0);
///     handle.start()?;
///     handle.write(1, 7)?;
///     handle.commit()?;
///     assert_eq!(handle.step()?, Progress::Going);
/// } // dropped half way
/// assert_eq!(board.phase(0), Some(Phase::TakingToCommit));
/// assert_eq!(board.task(0).settle()?, Progress::Ended(Outcome::Committed));
/// # Ok::<(), chezumobari::Refusal>(())
/// ```
#[must_use = "a handle does nothing by itself"]
#[derive(Debug)]
pub struct Task<'board> {
    board: &'board mut Board,
    task: usize,
}

impl Task<'_> {
    /// Starts a transaction. The task must be idle.
    pub fn start(&mut self) -> Result<(), Refusal> {
        done(self.board.tables.start(self.board.sizes, self.task).number)
    }

    /// Reads a word: the transaction's own value if it wrote one, else what it saw first.
    pub fn read(&mut self, address: usize) -> Result<u32, Refusal> {
        let answer = self.board.tables.read(self.board.sizes, self.task, address);
        done(answer.number)?;
        Ok(answer.value)
    }

    /// Writes a word. Others see it once the transaction has committed.
    pub fn write(&mut self, address: usize, value: u32) -> Result<(), Refusal> {
        done(self.board.tables.write(self.board.sizes, self.task, address, value).number)
    }

    /// Gives the transaction up. Nothing was written.
    pub fn abort(&mut self) -> Result<(), Refusal> {
        done(self.board.tables.abort(self.board.sizes, self.task).number)
    }

    /// Asks to commit. The task's steps then do it, or fail.
    pub fn commit(&mut self) -> Result<(), Refusal> {
        done(self.board.tables.commit(self.board.sizes, self.task).number)
    }

    /// Asks to sleep on what was read. The task's steps then do it, or fail.
    pub fn wait(&mut self) -> Result<(), Refusal> {
        done(self.board.tables.wait(self.board.sizes, self.task).number)
    }

    /// One step on the way to commit, to sleep or to the end.
    pub fn step(&mut self) -> Result<Progress, Refusal> {
        progress(self.board.tables.step(self.board.sizes, self.task).number)
    }

    /// Steps until the task sleeps or its transaction has ended. With n entries that is within
    /// 3n + 3 steps. A game that steps its tasks in turn calls [`Task::step`] instead.
    pub fn settle(&mut self) -> Result<Progress, Refusal> {
        loop {
            match self.step()? {
                Progress::Going => {}
                settled => return Ok(settled),
            }
        }
    }
}
