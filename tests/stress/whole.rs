//! Whole turns, one after the other. Between two of them every task is idle or asleep.

use crate::random::Random;
use crate::Tally;
use chezumobari::{Board, End, Ended, Phase, Refusal, Sizes, ENTRIES_PER_TASK, MOST_TASKS, TOP_VERSION};

/// A board with the list of words that it should be.
struct Checked {
    board: Board,
    serial: Vec<u32>,
    tally: Tally,
}

impl Checked {
    fn open(words: usize, records: usize, tasks: usize, first_version: u32) -> Checked {
        let board = Board::open(Sizes { words, records, tasks }, first_version).unwrap();
        Checked { board, serial: vec![0; words], tally: Tally::default() }
    }

    fn is_idle(&self, task: usize) -> bool {
        self.board.phase(task) == Some(Phase::Idle)
    }

    fn is_asleep(&self, task: usize) -> bool {
        self.board.phase(task) == Some(Phase::Asleep)
    }

    fn sleepers(&self) -> Vec<usize> {
        (0..self.board.sizes().tasks).filter(|&task| self.is_asleep(task)).collect()
    }

    /// A task reads these words and sleeps on them.
    fn sleep(&mut self, task: usize, addresses: &[usize]) {
        self.turn(task, addresses, &mut |_| (addresses.to_vec(), false), false);
    }

    /// A task adds 1 to each of these words.
    fn add(&mut self, task: usize, addresses: &[usize]) {
        self.turn(task, addresses, &mut |_| (addresses.to_vec(), true), true);
    }

    /// A whole turn over an area. In each try the body chooses anew which words it uses, and whether
    /// it writes them.
    fn turn(
        &mut self,
        task: usize,
        area: &[usize],
        choose: &mut dyn FnMut(usize) -> (Vec<usize>, bool),
        commits: bool,
    ) {
        assert!(self.board.is_calm());
        let k = self.board.owners(area).len();
        let longest = self.board.longest_turn(area);
        let (sleepers, woken) = (self.sleepers(), self.board.woken_by(area));
        let mut wrote = Vec::new();
        let mut tries = 0;
        let serial = &self.serial;
        let turn = self.board.turn(task, |open| {
            tries += 1;
            wrote.clear();
            let (addresses, writes) = choose(tries);
            for &address in &addresses {
                let value = open.read(address)?;
                assert_eq!(value, serial[address], "a task was told what was not on the board");
                if writes {
                    open.write(address, value + 1)?;
                    wrote.push((address, value + 1));
                }
            }
            Ok(if commits { End::Commit(()) } else { End::Sleep(()) })
        });
        assert!(self.board.is_calm());
        let turn = match turn {
            // the versions of a record are used up: nothing was written, and nobody is left open
            Err(Refusal::VersionsUsedUp) => return assert!(self.is_idle(task)),
            other => other.expect("a turn comes through"),
        };
        match turn.ended {
            Ended::Committed => {
                self.tally.through(k, turn.tries);
                self.tally.woken(k, woken.len());
                assert!(sleepers.iter().all(|sleeper| woken.contains(sleeper) || self.is_asleep(*sleeper)));
            }
            _ => {
                self.tally.asleep(turn.tries, (0..MOST_TASKS).any(|other| self.board.list(other).contains(&task)));
                assert!(sleepers.iter().all(|&sleeper| self.is_asleep(sleeper)), "one that would sleep woke another");
            }
        }
        self.tally.calls(turn.calls, longest.calls);
        if commits {
            for &(address, value) in &wrote {
                self.serial[address] = value;
            }
        }
        for &address in area {
            assert_eq!(self.board.look(address).unwrap().value, self.serial[address]);
        }
    }
}

/// One record for all words: every label but the first joins the first, and the trade wakes them all with one try.
pub fn one_tile(games: u64) -> Tally {
    let mut all = Checked::open(3, 1, MOST_TASKS, 1);
    for game in 0..games {
        for label in 1..MOST_TASKS {
            if all.is_idle(label) {
                all.sleep(label, &[0, 1, 2]);
            }
            if label % 4 == 0 {
                all.add(0, &[label % 3]);
            }
        }
        for label in (1..MOST_TASKS).rev().filter(|label| game % 2 == 0 || label % 3 > 0) {
            if all.is_idle(label) {
                all.sleep(label, &[2, 1]);
            }
        }
    }
    all.tally
}

/// Each label sleeps on its own word and on that of the one before it, so that each list leads on to the next. A
/// trade at the first word wakes all 31, and one in the middle those behind it.
pub fn chains(games: u64) -> Tally {
    let mut all = Checked::open(MOST_TASKS, MOST_TASKS, MOST_TASKS, 1);
    for game in 0..games as usize {
        for label in 1..MOST_TASKS {
            if all.is_idle(label) {
                all.sleep(label, &[label - 1, label]);
            }
        }
        let first = if game % 3 == 0 { 0 } else { 11 * game % MOST_TASKS };
        assert_eq!(all.board.woken_by(&[first]).len(), MOST_TASKS - first.max(1));
        all.add(0, &[first, (first + 1 + game % 31) % MOST_TASKS]);
    }
    all.tally
}

/// 31 labels on words of their own, and a trade that writes one word of each: 32 tries.
pub fn every_label(games: u64) -> Tally {
    let mut all = Checked::open(62, 62, MOST_TASKS, 1);
    let trade: Vec<usize> = (0..31).map(|label| 2 * label + 1).collect();
    let backwards: Vec<usize> = trade.iter().rev().copied().collect();
    for game in 0..games {
        for label in 1..MOST_TASKS {
            if all.is_idle(label) {
                all.sleep(label, &[2 * label - 2, 2 * label - 1]);
            }
        }
        assert_eq!(all.board.owners(&trade).len(), 31);
        all.add(0, if game % 2 == 0 { &trade } else { &backwards });
    }
    all.tally
}

/// Tasks that take words in each other's order, and sleep on what the others write.
pub fn crossing(games: u64) -> Tally {
    let mut all = Checked::open(8, 8, 8, 1);
    for game in 0..8 * games as usize {
        for task in 0..8 {
            let mut pair = vec![(task + game) % 8, (task + 8 - game % 8) % 8];
            pair.dedup();
            if all.is_idle(task) && task % 2 == 0 {
                all.add(task, &pair);
            } else if all.is_idle(task) {
                pair.reverse();
                all.sleep(task, &pair);
            }
        }
    }
    all.tally
}

fn some_words(random: &mut Random, words: usize) -> Vec<usize> {
    let mut area: Vec<usize> = (0..1 + random.below(12)).map(|_| random.below(words)).collect();
    area.sort_unstable();
    area.dedup();
    area
}

/// Any sizes, any words, any order; a body may use other words of its area in each try.
pub fn anything(games: u64) -> Tally {
    let mut tally = Tally::default();
    for seed in 0..games {
        let mut random = Random::from_seed(seed);
        let words = 1 + random.below(40);
        let first = if seed % 10 == 9 { TOP_VERSION - 20 } else { 1 };
        let mut all = Checked::open(words, 1 + random.below(words), 1 + random.below(MOST_TASKS), first);
        all.tally = tally;
        for _ in 0..200 {
            let task = random.below(all.board.sizes().tasks);
            // task 0 never sleeps: who sleeps wakes nobody
            let (area, commits) = (some_words(&mut random, words), task == 0 || random.once_in(3));
            if !all.is_idle(task) {
                continue;
            }
            let mut again = random.clone();
            let mut choose = |_| {
                let mut used = area.clone();
                used.retain(|_| !again.once_in(4));
                used.sort_by_key(|_| again.next());
                if used.is_empty() {
                    used.push(area[0]);
                }
                (used, commits && !again.once_in(5))
            };
            all.turn(task, &area, &mut choose, commits);
            random.next();
        }
        tally = all.tally;
    }
    tally
}

/// The largest tables, all tasks but one asleep with all the entries that they may have, and a trade of as
/// many words that meets them all.
pub fn full_board(games: u64) -> Tally {
    let mut all = Checked::open(4096, 1024, MOST_TASKS, 1);
    let words_of = |label: usize| -> Vec<usize> {
        (0..ENTRIES_PER_TASK).map(|i| 32 * i % 1024 + label + 1024 * (i / 32)).collect()
    };
    let mut trade: Vec<usize> = (1..MOST_TASKS).collect();
    trade.extend((1..MOST_TASKS).map(|label| label + 1024));
    trade.extend([2048, 3072]);
    assert_eq!(trade.len(), ENTRIES_PER_TASK);
    for _ in 0..games {
        for label in 1..MOST_TASKS {
            if all.is_idle(label) {
                all.sleep(label, &words_of(label));
            }
        }
        all.add(0, &trade);
    }
    all.tally
}
