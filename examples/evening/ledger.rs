//! What is written down beside the board: the serial board, the transcript and the counts.
//!
//! The serial board is a plain list of words to which each transaction is applied whole at its
//! deciding step. What a transaction was told is compared with it there, or when it falls asleep,
//! and so is each label.

use crate::lateness::Lateness;
use crate::layout::{houses, mortgaged, owner, TASKS, TILES, WORDS};
use crate::wording::{self, TileState};
use chezumobari::{Board, Outcome, Phase, Progress, Stepped};
use std::cell::{Cell, RefCell};
use std::collections::HashSet;

/// A line of the transcript.
#[derive(Clone, Debug, PartialEq, Eq)]
pub enum Line {
    /// Something happened in the game.
    Event(String),
    /// A label spoke.
    Label(String),
}

/// What a transaction was told and what it wrote, what is to be said if it commits, and its calls.
#[derive(Clone, Default)]
pub struct Notes {
    told: Vec<(usize, u32)>,
    wrote: Vec<(usize, u32)>,
    pub lines: Vec<Line>,
    calls: u64,
}

impl Notes {
    pub fn read(&mut self, address: usize, value: u32) {
        self.calls += 1;
        if !self.wrote.iter().any(|&(a, _)| a == address) {
            self.told.push((address, value));
        }
    }

    pub fn write(&mut self, address: usize, value: u32) {
        self.calls += 1;
        self.wrote.push((address, value));
    }
}

/// What is counted for the report.
#[derive(Clone, Copy, Debug, Default)]
pub struct Counts {
    pub rounds: u64,
    pub calls: u64,
    pub commits: u64,
    pub failures: u64,
    pub wakings: u64,
    pub snapshots: u64,
    pub labels: u64,
    /// changes that the braille line showed
    pub shown: u64,
    /// tasks that fell asleep on the list of another
    pub joined: u64,
    /// sleepers that were woken by one that would only sleep
    pub woken_by_listening: u64,
}

pub struct Ledger {
    serial: RefCell<Vec<u32>>,
    /// every state that a tile has had on a serial board
    history: RefCell<HashSet<(usize, TileState)>>,
    notes: RefCell<Vec<Notes>>,
    /// who slept after the last step
    asleep: Cell<u32>,
    pub lines: RefCell<Vec<Line>>,
    pub counts: Cell<Counts>,
    pub lateness: RefCell<Lateness>,
}

fn tile_state(words: &[u32], tile: usize) -> TileState {
    TileState { owner: words[owner(tile)], houses: words[houses(tile)], mortgaged: words[mortgaged(tile)] }
}

impl Ledger {
    pub fn new() -> Ledger {
        let serial = vec![0; WORDS];
        let tiles: Vec<TileState> = (0..TILES.len()).map(|tile| tile_state(&serial, tile)).collect();
        Ledger {
            serial: RefCell::new(serial),
            history: RefCell::new(tiles.iter().copied().enumerate().collect()),
            notes: RefCell::new(vec![Notes::default(); TASKS]),
            asleep: Cell::default(),
            lines: RefCell::default(),
            counts: Cell::default(),
            lateness: RefCell::new(Lateness::new(tiles)),
        }
    }

    pub fn count(&self, change: impl FnOnce(&mut Counts)) {
        let mut counts = self.counts.get();
        change(&mut counts);
        self.counts.set(counts);
    }

    /// Whether a tile was so on some board of the evening.
    pub fn has_been(&self, tile: usize, state: TileState) -> bool {
        self.history.borrow().contains(&(tile, state))
    }

    pub fn tile(&self, tile: usize) -> TileState {
        tile_state(&self.serial.borrow(), tile)
    }

    /// A body has been run: its start, its reads and writes, and its commit or wait.
    pub fn begun(&self, task: usize, notes: Notes) {
        self.count(|c| c.calls += notes.calls + 2);
        self.notes.borrow_mut()[task] = notes;
    }

    /// A task has been stepped.
    pub fn stepped(&self, board: &Board, step: Stepped) {
        self.count(|c| c.calls += 1);
        if step.before == Phase::TakingToCommit && board.phase(step.task) == Some(Phase::Writing) {
            self.decided(step.task);
        }
        if step.before == Phase::TakingToSleep && step.progress == Progress::Asleep {
            self.check(&self.notes.borrow()[step.task]);
        }
        self.see_sleepers(board, step);
        if let Progress::Ended(outcome) = step.progress {
            self.count(|c| match outcome {
                Outcome::Committed => c.commits += 1,
                Outcome::Failed => c.failures += 1,
                Outcome::Woken => c.wakings += 1,
            });
        }
    }

    /// Who sleeps now, and who has been woken by a step towards sleep.
    fn see_sleepers(&self, board: &Board, step: Stepped) {
        let sleeps = |&task: &usize| board.phase(task) == Some(Phase::Asleep);
        let asleep = (0..TASKS).filter(sleeps).fold(0, |set, task| set | 1 << task);
        let woken = self.asleep.replace(asleep) & !asleep;
        if step.before == Phase::TakingToSleep {
            let joined = step.progress == Progress::Asleep && board.tables().places[step.task][3] != 0;
            self.count(|c| {
                c.woken_by_listening += u64::from(woken.count_ones());
                c.joined += u64::from(joined);
            });
        }
    }

    /// Sees that what a transaction was told is the serial board.
    fn check(&self, notes: &Notes) {
        let serial = self.serial.borrow();
        for &(address, value) in &notes.told {
            assert_eq!(serial[address], value, "a task was told what was not on the board");
        }
    }

    /// The moment of a commit: the transaction is applied to the serial board, whole.
    fn decided(&self, task: usize) {
        let notes = std::mem::take(&mut self.notes.borrow_mut()[task]);
        self.check(&notes);
        let mut tiles: Vec<usize> = notes.wrote.iter().map(|&(address, _)| address / 3).collect();
        tiles.retain(|&tile| tile < TILES.len());
        tiles.dedup();
        let before: Vec<TileState> = tiles.iter().map(|&tile| self.tile(tile)).collect();
        for &(address, value) in &notes.wrote {
            self.serial.borrow_mut()[address] = value;
        }
        for (&tile, before) in tiles.iter().zip(before) {
            self.history.borrow_mut().insert((tile, self.tile(tile)));
            if self.tile(tile) != before {
                self.lateness.borrow_mut().changed(tile, self.tile(tile), self.counts.get());
            }
        }
        self.lines.borrow_mut().extend(notes.lines);
    }

    /// The braille line shows a tile. It must be the board.
    pub fn show(&self, tile: usize, state: TileState) {
        assert_eq!(state, self.tile(tile), "the braille line showed what was not the board");
        self.count(|c| c.shown += 1);
    }

    /// A label speaks. It must be the board.
    pub fn speak(&self, tile: usize, state: TileState) {
        assert_eq!(state, self.tile(tile), "a label spoke what was not the board");
        self.lines.borrow_mut().push(Line::Label(wording::label(tile, state)));
        self.count(|c| c.labels += 1);
        self.lateness.borrow_mut().said(tile, state, self.counts.get());
    }
}
