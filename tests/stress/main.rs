//! The worst schedules for whole turns and for the line. At every commit it is counted how often it was
//! tried, and seen that this is at most once more than the tasks in its way.

mod line;
#[path = "../random.rs"]
#[allow(dead_code)]
mod random;
mod whole;

use std::collections::BTreeMap;
use std::process::ExitCode;

/// What was counted of one kind of game.
#[derive(Default)]
pub struct Tally {
    commits: u64,
    sleeps: u64,
    /// those of them that sleep with another, and the most that one list led to
    joined: u64,
    longest_list: usize,
    /// by the number of tasks in the way: commits, and those that took every try they might
    by_k: BTreeMap<usize, (u64, u64)>,
    most_calls: usize,
}

impl Tally {
    /// A transaction came through. This is what the program is for.
    pub fn through(&mut self, k: usize, tries: usize) {
        assert!(tries <= k + 1, "through at try {tries} with {k} in the way");
        self.commits += 1;
        let (all, last) = self.by_k.entry(k).or_default();
        *all += 1;
        *last += u64::from(tries == k + 1);
    }

    /// A turn ended asleep. It is so at its first try, whoever sleeps there. No theorem says so: it is counted here.
    pub fn asleep(&mut self, tries: usize, joined: bool) {
        assert_eq!(tries, 1, "one that would sleep was in somebody's way");
        self.sleeps += 1;
        self.joined += u64::from(joined);
    }

    /// A trade meets as many owners, and as many wake.
    pub fn woken(&mut self, owners: usize, woken: usize) {
        self.longest_list = self.longest_list.max(woken - owners);
    }

    pub fn calls(&mut self, calls: usize, most: usize) {
        assert!(calls <= most, "{calls} calls, where {most} are the most");
        self.most_calls = self.most_calls.max(calls);
    }

    fn say(&self, what: &str) {
        let most = self.by_k.keys().max().copied().unwrap_or(0);
        let last: u64 = self.by_k.values().map(|&(_, last)| last).sum();
        print!("{what}: {} commits. ", self.commits);
        print!("Each was through at try k + 1 or before, {last} of them at try k + 1, and k was up to {most}.");
        if self.sleeps > 0 {
            print!(" {} turns ended asleep at their first try, {} of them on a list,", self.sleeps, self.joined);
            print!(" and up to {} joined ones woke with those in the way.", self.longest_list);
            print!(" The longest turn had {} calls.", self.most_calls);
        }
        println!();
    }
}

const HELP: &str =
    "stress: the worst schedules for whole turns and for the line; stops at the first commit tried too often

  --games N   how many games of each kind (default 20)";

/// How many games the words ask for. Nothing if they ask for help.
fn games(words: &[String]) -> Result<Option<u64>, String> {
    match words {
        [] => Ok(Some(20)),
        [one] if one == "--help" => Ok(None),
        [one, n] if one == "--games" => n.parse().map(Some).map_err(|_| format!("--games takes a number, not {n}")),
        _ => Err("it takes --games N and nothing else".to_string()),
    }
}

fn main() -> ExitCode {
    let words: Vec<String> = std::env::args().skip(1).collect();
    let games = match games(&words) {
        Ok(Some(games)) => games,
        Ok(None) => {
            println!("{HELP}");
            return ExitCode::SUCCESS;
        }
        Err(why) => {
            eprintln!("stress: {why}");
            return ExitCode::from(2);
        }
    };
    whole::one_tile(games).say("Every task on one tile");
    whole::chains(games).say("Labels in a chain");
    whole::every_label(games).say("A trade that meets every label");
    whole::crossing(games).say("Writers that cross, each after its own sleep");
    whole::anything(40 * games).say("Whole turns at random");
    whole::full_board(games.div_ceil(10)).say("The largest board");
    line::games(10 * games).say("The line");
    ExitCode::SUCCESS
}
