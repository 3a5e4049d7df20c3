//! The board with everything that listens to it.
//!
//! Each transaction is a whole turn. With cached labels its commit is given one step a turn instead,
//! so that the cache has its turn between two stored words, as it had when there was no memory.

use crate::cache::Cache;
use crate::layout::{houses, mortgaged, owner, SIZES};
use crate::ledger::{Ledger, Line, Notes};
use crate::wording::TileState;
use chezumobari::{Board, End, Open, Refusal, Shared, Turn};
use std::cell::RefCell;
use std::rc::Rc;

pub struct World {
    pub seed: u64,
    pub shared: Shared,
    pub ledger: Rc<Ledger>,
    pub cache: Option<Rc<RefCell<Cache>>>,
}

impl World {
    pub fn new(seed: u64, cached: bool) -> World {
        let ledger = Rc::new(Ledger::new());
        let cache = cached.then(|| Rc::new(RefCell::new(Cache::new())));
        let shared = Shared::new(Board::open(SIZES, 1).expect("the sizes are in range"));
        let shared = if cached { shared.with_steps_apart() } else { shared };
        let (listening, hearing) = (ledger.clone(), cache.clone());
        shared.watch(move |board, step| {
            listening.stepped(board, step);
            if let Some(cache) = &hearing {
                cache.borrow_mut().hear(&board.tables().words);
            }
        });
        World { seed, shared, ledger, cache }
    }

    /// What is on the board now.
    pub fn look(&self, address: usize) -> u32 {
        self.ledger.count(|c| c.calls += 1);
        self.shared.look(address).expect("the address is on the board").value
    }

    /// A transaction that commits.
    pub async fn atomically<T>(&self, task: usize, body: impl Fn(&mut Transaction<'_, '_>) -> Result<T, Refusal>) -> T {
        let attempt = |open: &mut Open| Ok(End::Commit(self.noted(open, &body)?));
        let turn = match self.cache {
            None => self.shared.turn(task, attempt).await,
            Some(_) => self.shared.span(task, async |t| t.now(attempt)).await,
        };
        self.through(turn)
    }

    /// Sleeps until words are as a task wants them, and answers them.
    pub async fn until<const N: usize>(
        &self,
        task: usize,
        addresses: [usize; N],
        wanted: impl Fn([u32; N]) -> bool,
    ) -> [u32; N] {
        let read = |t: &mut Transaction<'_, '_>| {
            let mut words = [0; N];
            for (word, address) in words.iter_mut().zip(addresses) {
                *word = t.read(address)?;
            }
            Ok(wanted(words).then_some(words))
        };
        self.shared.until(task, |open| self.noted(open, &read)).await.expect("the words are on the board")
    }

    /// Runs a body, with what it was told, what it wrote and what it has to say noted in the ledger.
    pub fn noted<T>(
        &self,
        open: &mut Open<'_>,
        body: &impl Fn(&mut Transaction<'_, '_>) -> Result<T, Refusal>,
    ) -> Result<T, Refusal> {
        let task = open.task();
        let mut transaction = Transaction { open, notes: Notes::default() };
        let result = body(&mut transaction);
        self.ledger.begun(task, transaction.notes);
        result
    }

    fn through<T>(&self, turn: Result<Turn<T>, Refusal>) -> T {
        turn.expect("every address is on the board").value
    }
}

/// An open transaction of a task.
pub struct Transaction<'a, 'board> {
    open: &'a mut Open<'board>,
    notes: Notes,
}

impl Transaction<'_, '_> {
    pub fn read(&mut self, address: usize) -> Result<u32, Refusal> {
        let value = self.open.read(address)?;
        self.notes.read(address, value);
        Ok(value)
    }

    pub fn write(&mut self, address: usize, value: u32) -> Result<(), Refusal> {
        self.open.write(address, value)?;
        self.notes.write(address, value);
        Ok(())
    }

    /// Reads a number and writes it changed.
    fn change(&mut self, address: usize, by: impl Fn(u32) -> u32) -> Result<(), Refusal> {
        let value = by(self.read(address)?);
        self.write(address, value)
    }

    /// Moves money from one word to another.
    pub fn pay(&mut self, from: usize, to: usize, amount: u32) -> Result<(), Refusal> {
        self.change(from, |cash| cash - amount)?;
        self.change(to, |cash| cash + amount)
    }

    pub fn tile(&mut self, tile: usize) -> Result<TileState, Refusal> {
        Ok(TileState {
            owner: self.read(owner(tile))?,
            houses: self.read(houses(tile))?,
            mortgaged: self.read(mortgaged(tile))?,
        })
    }

    /// To be told at the moment of the commit, if it comes.
    pub fn tell(&mut self, text: String) {
        self.notes.lines.push(Line::Event(text));
    }
}
