//! Random requests, and what they have met.

use crate::lists::Lists;
use crate::random::Random;
use crate::second_machine::{Machine, Phase, Request};
use chezumobari::Sizes;

/// What the schedules have met, so that a test can say that it was not empty.
#[derive(Default)]
pub struct Met {
    pub numbers: [u64; 32],
    pub lists: Lists,
}

/// What the tasks of a schedule are like.
#[derive(Clone, Copy, Debug, PartialEq, Eq)]
pub enum Sort {
    Any,
    /// They mostly read a word or two and wait, so that lists grow and lead on before somebody writes. Task 0
    /// never waits: whoever listens wakes nobody.
    Listeners,
}

impl Met {
    pub fn note(&mut self, number: u32) {
        self.numbers[number as usize] += 1;
    }
}

/// A request that fits the task's phase more often than not.
pub fn some_request(random: &mut Random, machine: &Machine, task: usize, sizes: Sizes, sort: Sort) -> Request {
    let address = match random.below(40) {
        0 => sizes.words,
        1 => usize::MAX - random.below(3),
        // a few addresses that everyone wants
        2..=20 => random.below(sizes.words.min(4)),
        _ => random.below(sizes.words),
    };
    let write = Request::Write(address, random.one_of(&[0, 1, 7, u32::MAX, address as u32]));
    let anything =
        [Request::Start, Request::Read(address), write, Request::Abort, Request::Commit, Request::Wait, Request::Step];
    if random.once_in(12) {
        return random.one_of(&anything);
    }
    match machine.tasks.get(task).map(|t| t.phase) {
        Some(Phase::Idle) => Request::Start,
        Some(Phase::Open) if sort == Sort::Listeners => match random.below(20) {
            0..=1 => Request::Commit,
            2 => write,
            3..=10 if task == 0 => write,
            3..=10 => Request::Wait,
            _ => Request::Read(random.below(sizes.words.min(4))),
        },
        Some(Phase::Open) => match random.below(20) {
            0 => Request::Abort,
            1..=3 => Request::Commit,
            4..=6 => Request::Wait,
            7..=12 => write,
            _ => Request::Read(address),
        },
        _ => Request::Step,
    }
}

pub fn some_task(random: &mut Random, tasks: usize) -> usize {
    match random.below(60) {
        0 => tasks,
        1 => usize::MAX,
        _ => random.below(tasks),
    }
}
