//! What came of many evenings, in words and in figures.

use crate::lateness::{all, in_words, Lateness};
use crate::Evening;
use std::fmt;
use std::time::Duration;

/// A turn that the scheduler gave.
#[derive(Clone, Copy)]
pub struct TurnTaken {
    pub round: u64,
    pub calls: u64,
    pub time: Duration,
}

/// The most calls and the longest time of a turn, or of a round.
#[derive(Clone, Copy, Default)]
struct Longest {
    calls: u64,
    time: Duration,
}

impl Longest {
    fn of(pairs: impl Iterator<Item = (u64, Duration)>) -> Longest {
        pairs.fold(Longest::default(), |longest, (calls, time)| longest.or(Longest { calls, time }))
    }

    fn or(self, other: Longest) -> Longest {
        Longest { calls: self.calls.max(other.calls), time: self.time.max(other.time) }
    }
}

/// The longest turn and the longest round of an evening.
fn longest(turns: &[TurnTaken]) -> (Longest, Longest) {
    let rounds = turns.chunk_by(|a, b| a.round == b.round);
    (
        Longest::of(turns.iter().map(|turn| (turn.calls, turn.time))),
        Longest::of(rounds.map(|round| (round.iter().map(|t| t.calls).sum(), round.iter().map(|t| t.time).sum()))),
    )
}

#[derive(Default)]
pub struct Report {
    labels: u64,
    calls: u64,
    rounds: u64,
    longest_evening: u64,
    spoke: u64,
    wrong: u64,
    never: u64,
    without: u64,
    lateness: Lateness,
    turn: Longest,
    round: Longest,
    shown: u64,
    woken_by_listening: u64,
}

/// What is said of evenings with two listeners on each tile.
pub fn braille(shown: u64, woken_by_listening: u64) -> String {
    format!("The braille line showed {shown} changes, and each was the board when it was shown. With two listeners on each tile, {woken_by_listening} sleepers were woken by one that only listened.")
}

impl Report {
    pub fn add(&mut self, sleeping: &Evening, cached: &Evening) {
        self.labels += sleeping.counts.labels;
        self.calls += sleeping.counts.calls + cached.counts.calls;
        self.rounds += sleeping.counts.rounds;
        self.longest_evening = self.longest_evening.max(sleeping.counts.rounds);
        self.spoke += cached.cache_spoke;
        self.wrong += cached.cache_wrong;
        self.never += cached.cache_never;
        self.without += u64::from(cached.cache_never == 0);
        self.lateness.add(&sleeping.lateness);
        self.shown += sleeping.counts.shown;
        self.woken_by_listening += sleeping.counts.woken_by_listening;
    }

    pub fn braille(&self) -> String {
        braille(self.shown, self.woken_by_listening) + "\n"
    }

    /// The turns of an evening. One whose longest turn or round would be the longest so far is played
    /// again, so many times in all at the most, and the fastest of each turn counts: what else the
    /// machine does makes single turns slower.
    pub fn add_turns(&mut self, mut turns: Vec<TurnTaken>, plays: usize, again: impl Fn() -> Vec<TurnTaken>) {
        for _ in 1..plays {
            let (turn, round) = longest(&turns);
            if turn.time <= self.turn.time && round.time <= self.round.time {
                break;
            }
            for (turn, same) in turns.iter_mut().zip(again()) {
                turn.time = turn.time.min(same.time);
            }
        }
        let (turn, round) = longest(&turns);
        (self.turn, self.round) = (self.turn.or(turn), self.round.or(round));
    }

    /// Every figure on a line of its own, for the page on lateness.
    pub fn figures(&self) -> String {
        let mut text = String::new();
        for (name, histogram) in [("rounds", &self.lateness.rounds), ("calls", &self.lateness.calls)] {
            for (late, times) in histogram {
                text += &format!("late {name} {late} {times}\n");
            }
        }
        for (name, longest) in [("turn", &self.turn), ("round", &self.round)] {
            text += &format!("longest {name} {} {}\n", longest.calls, longest.time.as_nanos());
        }
        text += &format!("changes {} {} {}\n", self.lateness.overtaken, self.lateness.undone, self.lateness.unspoken);
        text + &format!("listening {} {}\n", self.shown, self.woken_by_listening)
    }
}

impl fmt::Display for Report {
    fn fmt(&self, f: &mut fmt::Formatter<'_>) -> fmt::Result {
        writeln!(f, "{} labels were spoken, and each was the board when it was spoken.", self.labels)?;
        writeln!(
            f,
            "The same games with labels cached per tile: {} labels, {} of them not the board, {} of these a board that never was.",
            self.spoke, self.wrong, self.never
        )?;
        writeln!(f, "{} evenings had no such label.", self.without)?;
        writeln!(f, "{} calls of the library.", self.calls)?;
        writeln!(
            f,
            "{} changes of tiles were said, {} more were undone before they were said, and {} were not said.",
            all(&self.lateness.rounds),
            self.lateness.undone,
            self.lateness.unspoken
        )?;
        writeln!(f, "Rounds from a change to its label: {}.", in_words(&self.lateness.rounds))?;
        writeln!(f, "Calls from a change to its label: {}.", in_words(&self.lateness.calls))?;
        let micros = |time: Duration| time.as_nanos() / 1000;
        writeln!(f, "The longest turn: {} calls, {} microseconds.", self.turn.calls, micros(self.turn.time))?;
        writeln!(f, "The longest round: {} calls, {} microseconds.", self.round.calls, micros(self.round.time))?;
        writeln!(f, "{} rounds in all, and {} in the longest evening.", self.rounds, self.longest_evening)
    }
}
