//! A transactional memory for games that are played by ear.
//!
//! A [`Board`] is a few thousand words of memory. Rules, robots, network and voice are small tasks
//! that a scheduler steps in turn. Each task has one transaction at a time: it reads and writes
//! words, then commits or sleeps, one step at a time. What a transaction that committed was told
//! stood together on one board, and a task that sleeps is woken before any word that it read changes.
//!
//! The memory itself is written in Rattle and proved. This package links it and gives it Rust types.
//!
//! # A label that sleeps on its tile
//!
//! ```
//! use chezumobari::{Board, End, Label, Sizes};
//!
//! const OWNER: usize = 0;
//! const HOUSES: usize = 1;
//! let (label, trade) = (0, 1);
//! let mut board = Board::open(Sizes { words: 2, records: 2, tasks: 2 }, 1)?;
//!
//! // The label reads its tile, sleeps on it, and has something to say.
//! let mut label = Label::new(label, |open| Ok((open.read(OWNER)?, open.read(HOUSES)?)));
//! assert_eq!(label.turn(&mut board)?, Some(&(0, 0)));
//! assert_eq!(label.turn(&mut board)?, None);
//!
//! // A trade comes. Its first try wakes the label and fails; the second one commits. It is one turn.
//! let turn = board.turn(trade, |open| {
//!     open.write(OWNER, 2)?;
//!     Ok(End::Commit(()))
//! })?;
//! assert_eq!(turn.tries, 2);
//!
//! // The label's next turn: this is the board.
//! assert_eq!(label.turn(&mut board)?, Some(&(2, 0)));
//! # Ok::<(), chezumobari::Refusal>(())
//! ```
//!
//! # What to know before the first game
//!
//! - Make each transaction one whole turn: [`Board::turn`], or [`Shared::turn`] for tasks that are
//!   futures. Then it comes through, after one try for each sleeper that owns a record in its way,
//!   however many sleep with that one. A body that must wait in its middle takes [`Shared::span`],
//!   which keeps a line of those that have failed.
//! - The calls by themselves are [`Board::task`]. There a clash fails the task that comes, and wakes
//!   or fails the owner that it meets, unless that owner is already writing or releasing. Trying
//!   again at once may then go on for ever, and so may trying again after a rest.
//! - Any number of tasks sleep on one record: the first owns it, and the others join its list
//!   ([`Board::list`]). Nobody is woken by one that would only sleep. One that would commit wakes them
//!   all at once. So a task may be woken for a word of one that it joined, which it has not read.
//! - An address belongs to record `address % records`.
//! - A transaction has at most [`ENTRIES_PER_TASK`] addresses.
//! - Every call checks the four tables first. `docs/SPEED.md` says what that costs.

mod board;
mod numbers;
mod saved;
mod tables;
mod tasks;
mod turns;

pub use board::{Board, Phase, Seen, Task};
pub use numbers::{Outcome, Progress, Refusal};
pub use saved::NotLoaded;
pub use tables::{Answer, EntryRow, Looked, PlaceRow, Sizes, Tables};
pub use tasks::{pass, rest, Scheduler, Shared, Spanning};
pub use turns::{End, Ended, Label, Longest, Open, Stepped, Turn};

/// The version of this package. That of the header and of the archive is the same.
pub const VERSION: &str = env!("CARGO_PKG_VERSION");
/// A board has 1 to this many words.
pub const MOST_WORDS: usize = 4096;
/// A board has 1 to this many ownership records.
pub const MOST_RECORDS: usize = 1024;
/// A board has 1 to this many tasks.
pub const MOST_TASKS: usize = 32;
/// A transaction has at most this many entries.
pub const ENTRIES_PER_TASK: usize = 64;
/// A task's row has this many numbers.
pub const PLACE_WIDTH: usize = 4;
/// An entry's row has this many numbers.
pub const ENTRY_WIDTH: usize = 5;
/// Versions go from 1 to this number.
pub const TOP_VERSION: u32 = 2_147_483_647;
/// A record's number from here on is an owner's: this number plus the task.
pub const FIRST_OWNER: u32 = 2_147_483_648;
