//! A board between whole turns: that it is calm, who is in a turn's way, and how long a turn can take.

use crate::{Board, Phase, Refusal, FIRST_OWNER};

/// The most that a turn can take.
#[derive(Clone, Copy, Debug, PartialEq, Eq)]
pub struct Longest {
    pub tries: usize,
    pub calls: usize,
}

impl Board {
    /// Whether every task is idle or asleep, as whole turns leave a board.
    pub fn is_calm(&self) -> bool {
        (0..self.sizes().tasks).all(|task| matches!(self.phase(task), Some(Phase::Idle | Phase::Asleep)))
    }

    /// Makes a board calm: who is on its way is stepped to its end, and open transactions are given
    /// up. Sleepers sleep on. For a saved game whose program was in the middle of something.
    pub fn calm_down(&mut self) -> Result<(), Refusal> {
        for task in 0..self.sizes().tasks {
            match self.phase(task) {
                Some(Phase::Idle | Phase::Asleep) => {}
                Some(Phase::Open) => self.task(task).abort()?,
                _ => {
                    let _ended = self.task(task).settle()?;
                }
            }
        }
        // one that was on its way may have failed or woken some before it
        match self.is_calm() {
            true => Ok(()),
            false => self.calm_down(),
        }
    }

    /// The tasks that own the record of one of these addresses. Between whole turns they are the
    /// sleepers in the way of a turn that uses these addresses. Those on their lists own nothing there.
    pub fn owners(&self, addresses: &[usize]) -> Vec<usize> {
        let records = &self.tables().records;
        let owns = |task: &usize| {
            addresses
                .iter()
                .any(|address| records.get(address % records.len().max(1)) == Some(&(FIRST_OWNER + *task as u32)))
        };
        (0..self.sizes().tasks).filter(owns).collect()
    }

    /// The sleepers that a commit which uses these addresses may wake: the owners, all on their lists, and
    /// all on theirs.
    pub fn woken_by(&self, addresses: &[usize]) -> Vec<usize> {
        let mut woken = self.owners(addresses);
        let mut seen = 0;
        while let Some(&sleeper) = woken.get(seen) {
            seen += 1;
            for other in self.list(sleeper) {
                if !woken.contains(&other) {
                    woken.push(other);
                }
            }
        }
        woken.sort_unstable();
        woken
    }

    /// The most tries and calls that a turn can take on this board, if it reads and writes each of
    /// these addresses once at most and every other task is idle or asleep.
    ///
    /// A try with n addresses is 5n + 5 calls if it commits, and at most 4n + 3 if it fails. One fails for
    /// each owner that it meets. Each sleeper that is woken, met or only on a list, is m + 1 more, where it
    /// has m addresses.
    pub fn longest_turn(&self, addresses: &[usize]) -> Longest {
        let mut distinct = addresses.to_vec();
        distinct.sort_unstable();
        distinct.dedup();
        let n = distinct.len();
        let met = self.owners(&distinct).len();
        let rising = |&task: &usize| self.tables().places[task][0] as usize + 1;
        let calls = 5 * n + 5 + met * (4 * n + 3) + self.woken_by(&distinct).iter().map(rising).sum::<usize>();
        Longest { tries: met + 1, calls }
    }
}
