//! Saved games: a board as bytes, and back.
//!
//! All numbers are little-endian. The bytes are, in order:
//! - the eight letters `chezumob`;
//! - the version of the format, 32 bits, which is 2;
//! - how many words, records and tasks, 32 bits each;
//! - every word, every record, every task's row and every entry's, as [`Tables`] has them, number by
//!   number, 32 bits each;
//! - a checksum of all bytes before it, 64 bits: FNV-1a.
//!
//! Boards that were saved in version 1 are loaded too. There a task's row has three numbers: it lacks the
//! last, the lists that the task is on, and each task is on none.
//!
//! `include/chezumobari_saved.h` reads and writes the same bytes.

use crate::{Board, Refusal, Sizes, Tables};
use crate::{ENTRIES_PER_TASK, ENTRY_WIDTH, MOST_RECORDS, MOST_TASKS, MOST_WORDS, PLACE_WIDTH};
use std::error::Error;
use std::fmt;

const MARK: &[u8; 8] = b"chezumob";
const FORMAT: u32 = 2;
/// The version before: it is read, and no longer written.
const WITHOUT_LISTS: u32 = 1;
const HEAD: usize = 24;
const SUM: usize = 8;

/// Why bytes are no board.
#[derive(Clone, Copy, Debug, PartialEq, Eq, Hash)]
pub enum NotLoaded {
    /// They do not begin as a saved board does.
    NotABoard,
    /// They are of another version of the format, neither 1 nor 2: this one.
    OtherVersion(u32),
    /// There are too few or too many, a size is out of range, or the checksum is another.
    Damaged,
    /// They are as they were saved, and the tables in them are unsound.
    Unsound,
}

impl fmt::Display for NotLoaded {
    fn fmt(&self, f: &mut fmt::Formatter<'_>) -> fmt::Result {
        match self {
            NotLoaded::NotABoard => f.write_str("this is no saved board"),
            NotLoaded::OtherVersion(version) => write!(f, "the board was saved in version {version} of the format"),
            NotLoaded::Damaged => f.write_str("the saved board is damaged"),
            NotLoaded::Unsound => f.write_str("the saved board is unsound"),
        }
    }
}

impl Error for NotLoaded {}

/// FNV-1a. A change of one byte always changes it.
fn checksum(bytes: &[u8]) -> u64 {
    bytes.iter().fold(0xcbf2_9ce4_8422_2325, |sum, &byte| (sum ^ u64::from(byte)).wrapping_mul(0x0100_0000_01b3))
}

/// Takes numbers off the front of bytes whose length has been checked.
struct Numbers<'bytes>(std::slice::ChunksExact<'bytes, u8>);

impl Numbers<'_> {
    fn next(&mut self) -> u32 {
        self.0.next().map_or(0, |four| u32::from_le_bytes([four[0], four[1], four[2], four[3]]))
    }

    /// Rows of which the bytes have the first numbers, so many, and the others are 0.
    fn rows<const N: usize>(&mut self, count: usize, width: usize) -> Vec<[u32; N]> {
        (0..count).map(|_| std::array::from_fn(|at| if at < width { self.next() } else { 0 })).collect()
    }

    fn list(&mut self, count: usize) -> Vec<u32> {
        (0..count).map(|_| self.next()).collect()
    }
}

/// How many numbers a board has, where a task's row has so many.
fn numbers_in(sizes: Sizes, place_width: usize) -> usize {
    sizes.words + sizes.records + sizes.tasks * (place_width + ENTRIES_PER_TASK * ENTRY_WIDTH)
}

/// How many numbers a task's row has in a version of the format that is known.
fn place_width(version: u32) -> Option<usize> {
    match version {
        FORMAT => Some(PLACE_WIDTH),
        WITHOUT_LISTS => Some(PLACE_WIDTH - 1),
        _ => None,
    }
}

impl Board {
    /// The board as bytes. A sleeper is saved asleep. Unsound tables are refused.
    ///
    /// ```
    /// use chezumobari::{Board, End, Label, NotLoaded, Phase, Sizes};
    /// let mut board = Board::open(Sizes { words: 2, records: 2, tasks: 2 }, 1)?;
    /// let mut label = Label::new(0, |open| open.read(0));
    /// label.turn(&mut board)?;
    /// let bytes = board.save()?;
    ///
    /// // Later: the label sleeps on, and is woken by the first trade.
    /// let mut board = Board::load(&bytes).expect("the bytes are as they were saved");
    /// assert_eq!(board.phase(0), Some(Phase::Asleep));
    /// let mut label = Label::new(0, |open| open.read(0)).having_said(0);
    /// board.turn(1, |open| Ok(End::Commit(open.write(0, 7)?)))?;
    /// assert_eq!(label.turn(&mut board)?, Some(&7));
    ///
    /// // A damaged one is refused.
    /// let mut damaged = bytes.clone();
    /// damaged[30] ^= 1;
    /// assert_eq!(Board::load(&damaged), Err(NotLoaded::Damaged));
    /// # Ok::<(), chezumobari::Refusal>(())
    /// ```
    pub fn save(&self) -> Result<Vec<u8>, Refusal> {
        // any call checks the tables, and address 0 is on every board
        self.look(0).map(drop)?;
        let (sizes, tables) = (self.sizes(), self.tables());
        let mut bytes = Vec::with_capacity(HEAD + 4 * numbers_in(sizes, PLACE_WIDTH) + SUM);
        bytes.extend(MARK);
        let head = [FORMAT, sizes.words as u32, sizes.records as u32, sizes.tasks as u32];
        let tables = [&tables.words[..], &tables.records, tables.places.as_flattened(), tables.entries.as_flattened()];
        for number in head.iter().chain(tables.into_iter().flatten()) {
            bytes.extend(number.to_le_bytes());
        }
        bytes.extend(checksum(&bytes).to_le_bytes());
        Ok(bytes)
    }

    /// The board that was saved as these bytes, in this version of the format or the one before.
    ///
    /// If it was saved from a board that calls had reached, it is that board again, and what is
    /// promised of it goes on. Bytes that somebody else made, with a checksum that fits, are only
    /// checked for soundness. A task that was in the middle of something still is:
    /// [`Board::calm_down`] ends that.
    pub fn load(bytes: &[u8]) -> Result<Board, NotLoaded> {
        if bytes.len() < HEAD + SUM || !bytes.starts_with(MARK) {
            return Err(NotLoaded::NotABoard);
        }
        let (body, sum) = bytes.split_at(bytes.len() - SUM);
        let mut numbers = Numbers(body[MARK.len()..].chunks_exact(4));
        let version = numbers.next();
        let width = place_width(version).ok_or(NotLoaded::OtherVersion(version))?;
        let [words, records, tasks] = std::array::from_fn(|_| numbers.next() as usize);
        let sizes = Sizes { words, records, tasks };
        let in_range = words <= MOST_WORDS && records <= MOST_RECORDS && tasks <= MOST_TASKS;
        if !in_range || body.len() != HEAD + 4 * numbers_in(sizes, width) || sum != checksum(body).to_le_bytes() {
            return Err(NotLoaded::Damaged);
        }
        let tables = Tables {
            words: numbers.list(words),
            records: numbers.list(records),
            places: numbers.rows(tasks, width),
            entries: numbers.rows(tasks * ENTRIES_PER_TASK, ENTRY_WIDTH),
        };
        let board = Board::from_tables(sizes, tables);
        board.look(0).map(|_| board).map_err(|_| NotLoaded::Unsound)
    }
}
