//! A second machine, written from the specification alone.
//!
//! It shares no code and no layout with the library. A task keeps its addresses in one list and the
//! versions of their records in another, once for each record, and a record is a Rust enum. A sleeper
//! keeps its list itself, as the set of those who joined it. The four tables appear only in
//! `tables.rs`, which reads them in and writes them out.

mod steps;
pub mod tables;

use std::collections::BTreeSet;

// The specification's limits and widths, written here by hand and not taken from the package, so that a
// wrong one there shows.
pub const TOP_VERSION: u32 = 0x7fff_ffff;
const MOST_WORDS: usize = 4096;
const MOST_RECORDS: usize = 1024;
const MOST_TASKS: usize = 32;
/// Rows of the entry table that are one task's.
pub const RUN: usize = 64;
/// Numbers in a task's row, and in an entry's.
const PLACE_WIDTH: usize = 4;
const ENTRY_WIDTH: usize = 5;

#[derive(Clone, Copy, Debug, PartialEq, Eq)]
pub enum Record {
    Version(u32),
    Owner(usize),
}

#[derive(Clone, Copy, Debug, PartialEq, Eq)]
pub enum Goal {
    Commit,
    Sleep,
}

#[derive(Clone, Copy, Debug, PartialEq, Eq)]
pub enum End {
    Committed,
    Failed,
    Woken,
}

#[derive(Clone, Copy, Debug, PartialEq, Eq)]
pub enum Phase {
    Idle,
    Open,
    Taking(Goal, usize),
    Asleep,
    Writing(usize),
    Releasing(End, usize),
}

/// An address that a transaction uses, with the value it found and the value it leaves.
#[derive(Clone, Copy, Debug, PartialEq, Eq)]
pub struct Use {
    pub address: usize,
    pub found: u32,
    pub left: u32,
}

/// The version of a record that a transaction found, and the one it leaves.
#[derive(Clone, Copy, Debug, PartialEq, Eq)]
pub struct Mark {
    pub record: usize,
    pub found: u32,
    pub left: u32,
}

#[derive(Clone, Debug, PartialEq, Eq)]
pub struct Task {
    pub phase: Phase,
    pub uses: Vec<Use>,
    pub marks: Vec<Mark>,
    /// Those who sleep on records of this one.
    pub list: BTreeSet<usize>,
}

#[derive(Clone, Debug, PartialEq, Eq)]
pub struct Machine {
    pub words: Vec<u32>,
    pub records: Vec<Record>,
    pub tasks: Vec<Task>,
}

/// A request, with what goes with it.
#[derive(Clone, Copy, Debug, PartialEq, Eq)]
pub enum Request {
    Start,
    Read(usize),
    Write(usize, u32),
    Abort,
    Commit,
    Wait,
    Step,
}

/// A number and a value.
pub type Reply = (u32, u32);

impl Task {
    pub fn idle() -> Task {
        Task { phase: Phase::Idle, uses: Vec::new(), marks: Vec::new(), list: BTreeSet::new() }
    }

    pub fn used(&self, address: usize) -> Option<usize> {
        self.uses.iter().position(|u| u.address == address)
    }

    pub fn marked(&self, record: usize) -> Option<usize> {
        self.marks.iter().position(|m| m.record == record)
    }

    fn has_committed(&self) -> bool {
        matches!(self.phase, Phase::Writing(_) | Phase::Releasing(End::Committed, _))
    }
}

impl Machine {
    pub fn opened(words: usize, records: usize, tasks: usize, first: u32) -> Machine {
        Machine {
            words: vec![0; words],
            records: vec![Record::Version(first); records],
            tasks: vec![Task::idle(); tasks],
        }
    }

    /// The logical value and version of an address.
    pub fn logical(&self, address: usize) -> (u32, u32) {
        let record = address % self.records.len();
        let owner = match self.records[record] {
            Record::Version(version) => return (self.words[address], version),
            Record::Owner(task) => &self.tasks[task],
        };
        let done = owner.has_committed();
        let mark = owner.marks[owner.marked(record).expect("an owner has used its record")];
        let version = if done { mark.left } else { mark.found };
        let value = match owner.used(address) {
            Some(at) if done => owner.uses[at].left,
            Some(at) => owner.uses[at].found,
            None => self.words[address],
        };
        (value, version)
    }

    /// Number, value and version.
    pub fn look(&self, address: usize) -> (u32, u32, u32) {
        if address >= self.words.len() {
            return (5, 0, 0);
        }
        let (value, version) = self.logical(address);
        (0, value, version)
    }

    pub fn ask(&mut self, task: usize, request: Request) -> Reply {
        if task >= self.tasks.len() {
            return (3, 0);
        }
        let phase = self.tasks[task].phase;
        match request {
            Request::Start if phase == Phase::Idle => self.enter(task, Phase::Open),
            Request::Read(address) if phase == Phase::Open => self.read(task, address),
            Request::Write(address, value) if phase == Phase::Open => self.write(task, address, value),
            Request::Abort if phase == Phase::Open => {
                self.goes_idle(task);
                (0, 0)
            }
            Request::Commit if phase == Phase::Open => self.enter(task, Phase::Taking(Goal::Commit, 0)),
            Request::Wait if phase == Phase::Open && self.tasks[task].uses.is_empty() => (7, 0),
            Request::Wait if phase == Phase::Open => self.enter(task, Phase::Taking(Goal::Sleep, 0)),
            Request::Step => self.step(task, phase),
            _ => (4, 0),
        }
    }

    /// The transaction is over: nothing is used, and the task is on nobody's list.
    fn goes_idle(&mut self, task: usize) {
        let it = &mut self.tasks[task];
        it.phase = Phase::Idle;
        it.uses.clear();
        it.marks.clear();
        for other in &mut self.tasks {
            other.list.remove(&task);
        }
    }

    fn enter(&mut self, task: usize, phase: Phase) -> Reply {
        self.tasks[task].phase = phase;
        (0, 0)
    }

    fn read(&mut self, task: usize, address: usize) -> Reply {
        match self.find(task, address) {
            Ok(at) => (0, self.tasks[task].uses[at].left),
            Err(reply) => reply,
        }
    }

    fn write(&mut self, task: usize, address: usize, value: u32) -> Reply {
        if address < self.words.len() && self.used_up(task, address) {
            return (8, 0);
        }
        let at = match self.find(task, address) {
            Ok(at) => at,
            Err(reply) => return reply,
        };
        let record = address % self.records.len();
        let it = &mut self.tasks[task];
        it.uses[at].left = value;
        let mark = it.marked(record).expect("a used address has a mark");
        it.marks[mark].left = it.marks[mark].found + 1;
        (0, 0)
    }

    /// Whether a write is refused by 8. Numbers 6 and 9 come before it.
    fn used_up(&self, task: usize, address: usize) -> bool {
        let it = &self.tasks[task];
        let mark = it.marked(address % self.records.len()).map(|m| it.marks[m].found);
        if it.used(address).is_some() {
            return mark == Some(TOP_VERSION);
        }
        let (_, version) = self.logical(address);
        let overtaken = mark.is_some_and(|found| found != version);
        it.uses.len() < RUN && !overtaken && version == TOP_VERSION
    }

    /// Where the address stands among the uses of a task, noted anew if it has to be.
    fn find(&mut self, task: usize, address: usize) -> Result<usize, Reply> {
        if address >= self.words.len() {
            return Err((5, 0));
        }
        if let Some(at) = self.tasks[task].used(address) {
            return Ok(at);
        }
        if self.tasks[task].uses.len() == RUN {
            return Err((6, 0));
        }
        let record = address % self.records.len();
        let (value, version) = self.logical(address);
        let it = &mut self.tasks[task];
        match it.marked(record) {
            Some(mark) if it.marks[mark].found != version => {
                self.goes_idle(task);
                return Err((9, 0));
            }
            Some(_) => {}
            None => it.marks.push(Mark { record, found: version, left: version }),
        }
        it.uses.push(Use { address, found: value, left: value });
        Ok(it.uses.len() - 1)
    }
}
