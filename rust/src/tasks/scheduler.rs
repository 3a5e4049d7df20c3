//! A scheduler that gives turns to tasks that are futures, and the ends of their turns.

use super::Shared;
use crate::Phase;
use std::future::{poll_fn, Future};
use std::pin::Pin;
use std::task::{Context, Poll, Waker};

/// Ends the turn of the task that awaits it.
pub async fn pass() {
    let mut passed = false;
    poll_fn(|_| match std::mem::replace(&mut passed, true) {
        true => Poll::Ready(()),
        false => Poll::Pending,
    })
    .await;
}

/// Lets a number of rounds go by.
pub async fn rest(rounds: u32) {
    for _ in 0..rounds {
        pass().await;
    }
}

/// A future that is a task of the scheduler.
type Work<'shared> = Pin<Box<dyn Future<Output = ()> + 'shared>>;

/// Gives turns to tasks that are futures, in the order in which they were added, round after round.
/// A task that sleeps is passed over: it needs no turn until it is woken.
///
/// Audio has its turn between two turns: the program calls [`Scheduler::turn`] again and again and
/// does in between what cannot wait. The example is at [`Shared`].
pub struct Scheduler<'shared> {
    shared: &'shared Shared,
    works: Vec<(Option<usize>, Option<Work<'shared>>)>,
    next: usize,
    rounds: u64,
}

impl<'shared> Scheduler<'shared> {
    pub fn new(shared: &'shared Shared) -> Scheduler<'shared> {
        Scheduler { shared, works: Vec::new(), next: 0, rounds: 0 }
    }

    /// Adds a future whose transactions are those of a task of the board. Answers its number here.
    pub fn add(&mut self, task: usize, work: impl Future<Output = ()> + 'shared) -> usize {
        self.works.push((Some(task), Some(Box::pin(work))));
        self.works.len() - 1
    }

    /// Adds a future that is no task of the board.
    pub fn add_other(&mut self, work: impl Future<Output = ()> + 'shared) -> usize {
        self.works.push((None, Some(Box::pin(work))));
        self.works.len() - 1
    }

    /// Whether a future has ended.
    pub fn has_ended(&self, number: usize) -> bool {
        self.works.get(number).is_none_or(|(_, work)| work.is_none())
    }

    /// The rounds that have begun. In each one every task that needed a turn had one.
    pub fn rounds(&self) -> u64 {
        self.rounds
    }

    /// Gives the next one that needs it its turn, and answers its number. Nothing if nobody needs one:
    /// all have ended or sleep.
    pub fn turn(&mut self) -> Option<usize> {
        let number = self.choose()?;
        self.give(number);
        Some(number)
    }

    /// The next one that needs a turn, for a program that does something between this and
    /// [`Scheduler::give`].
    pub fn choose(&mut self) -> Option<usize> {
        for _ in 0..self.works.len() {
            let number = self.next;
            self.next = (number + 1) % self.works.len();
            self.rounds += u64::from(number == 0);
            if self.needs_a_turn(number) {
                return Some(number);
            }
        }
        None
    }

    /// Gives a turn to one of the futures, in whatever order the program likes.
    pub fn give(&mut self, number: usize) {
        let Some((_, work)) = self.works.get_mut(number) else { return };
        let Some(future) = work else { return };
        self.shared.next_turn();
        if future.as_mut().poll(&mut Context::from_waker(Waker::noop())).is_ready() {
            *work = None;
        }
    }

    fn needs_a_turn(&self, number: usize) -> bool {
        let (task, work) = &self.works[number];
        let phase = task.and_then(|task| self.shared.board().phase(task));
        if let (None, Some(task), Some(Phase::ReleasingWoken)) = (work, task, phase) {
            // its future ended while it slept, and nobody else would step it
            self.shared.let_go(*task);
        }
        work.is_some() && phase != Some(Phase::Asleep)
    }
}
