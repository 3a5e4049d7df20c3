//! How late a label says a change of its tile: from the step that decided the change to the step
//! with which the label has read it and sleeps.

use crate::ledger::Counts;
use crate::wording::TileState;
use std::collections::BTreeMap;

/// How often each number came.
pub type Histogram = BTreeMap<u64, u64>;

#[derive(Clone, Debug, Default)]
pub struct Lateness {
    /// the changes of each tile that have not been said, by round and call, and what was said last
    unsaid: Vec<Vec<(u64, u64)>>,
    said: Vec<TileState>,
    pub rounds: Histogram,
    pub calls: Histogram,
    /// changes that were followed by another one before they were said
    pub overtaken: u64,
    /// changes that were undone before they were said, so that there was nothing to say
    pub undone: u64,
    /// changes that were not said when the evening ended
    pub unspoken: u64,
}

impl Lateness {
    pub fn new(tiles: Vec<TileState>) -> Lateness {
        Lateness { unsaid: vec![Vec::new(); tiles.len()], said: tiles, ..Lateness::default() }
    }

    pub fn changed(&mut self, tile: usize, state: TileState, now: Counts) {
        self.unsaid[tile].push((now.rounds, now.calls));
        self.unspoken += 1;
        if state == self.said[tile] {
            let undone = std::mem::take(&mut self.unsaid[tile]).len() as u64;
            self.undone += undone;
            self.unspoken -= undone;
        }
    }

    pub fn said(&mut self, tile: usize, state: TileState, now: Counts) {
        let changes = std::mem::take(&mut self.unsaid[tile]);
        self.said[tile] = state;
        self.unspoken -= changes.len() as u64;
        self.overtaken += (changes.len() as u64).saturating_sub(1);
        for (round, call) in changes {
            *self.rounds.entry(now.rounds - round).or_default() += 1;
            *self.calls.entry(now.calls - call).or_default() += 1;
        }
    }

    pub fn add(&mut self, other: &Lateness) {
        for (sum, part) in [(&mut self.rounds, &other.rounds), (&mut self.calls, &other.calls)] {
            for (&late, &times) in part {
                *sum.entry(late).or_default() += times;
            }
        }
        self.overtaken += other.overtaken;
        self.undone += other.undone;
        self.unspoken += other.unspoken;
    }
}

/// All that a histogram has counted.
pub fn all(histogram: &Histogram) -> u64 {
    histogram.values().sum()
}

/// The number that so many of a thousand do not go beyond.
pub fn share(histogram: &Histogram, of_a_thousand: u64) -> u64 {
    let mut seen = 0;
    for (&late, &times) in histogram {
        seen += times;
        if seen * 1000 >= all(histogram) * of_a_thousand {
            return late;
        }
    }
    0
}

/// A histogram in words.
pub fn in_words(histogram: &Histogram) -> String {
    let [half, most, nearly_all, latest] = [500, 900, 990, 1000].map(|part| share(histogram, part));
    format!("half within {half}, 9 of 10 within {most}, 99 of 100 within {nearly_all}, the latest {latest}")
}
