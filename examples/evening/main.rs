//! An evening with the screen dark: a whole game, from the first roll to a winner.
//!
//! Rules, four hands, the network and 26 labels are tasks that a scheduler gives turns to. A
//! transaction is one whole turn. Every label is checked against the serial board as it is spoken.
//! Then the same game is played once more with labels cached per tile and a commit given one step a
//! turn, and the cache's labels that were not the board are counted.
//!
//! On request a braille line listens beside the voice, so that two labels sleep on each tile. There are 32
//! tasks, so a label then has the tiles of a group.

mod cache;
mod debts;
mod hand;
mod lateness;
mod layout;
mod ledger;
mod network;
#[path = "../../tests/random.rs"]
#[allow(dead_code)]
mod random;
mod report;
mod rules;
mod voice;
mod wish;
mod wording;
mod world;

use chezumobari::Scheduler;
use lateness::Lateness;
use layout::{FIRST_HAND, FIRST_LABEL, NETWORK, PLAYERS, RULES};
use ledger::{Counts, Ledger, Line};
use report::{Report, TurnTaken};
use std::io::{ErrorKind, Write};
use std::path::Path;
use std::process::{Command, ExitCode};
use std::time::Instant;
use wish::{wish, Wish, HELP};
use world::World;

/// What ends the program early.
enum Stop {
    /// the words are wrong
    Usage(String),
    /// it could not be spoken or told
    Failed(String),
    /// nobody listens to standard output any more
    Unheard,
}

/// Who listens to the tiles.
#[derive(Clone, Copy, Debug, PartialEq, Eq)]
enum Listening {
    /// a label for each tile
    Voice,
    /// two labels for each group of tiles
    VoiceAndBraille,
    /// the cache, and no labels
    Cached,
}

/// What is left of an evening.
struct Evening {
    lines: Vec<Line>,
    counts: Counts,
    lateness: Lateness,
    turns: Vec<TurnTaken>,
    cache_spoke: u64,
    cache_wrong: u64,
    cache_never: u64,
}

/// No evening takes so many rounds, unless two tasks fail each other for ever.
const MOST_ROUNDS: u64 = 100_000;

/// Gives turns until the rules have come to an end.
fn take_turns(world: &World, mut scheduler: Scheduler<'_>, rules: usize) -> Vec<TurnTaken> {
    let mut turns = Vec::new();
    while !scheduler.has_ended(rules) {
        let next = scheduler.choose().expect("somebody is awake until the game is over");
        let round = scheduler.rounds();
        assert!(round < MOST_ROUNDS, "the evening does not end");
        world.ledger.count(|c| c.rounds = round);
        let (before, began) = (world.ledger.counts.get().calls, Instant::now());
        scheduler.give(next);
        let (time, calls) = (began.elapsed(), world.ledger.counts.get().calls - before);
        turns.push(TurnTaken { round, calls, time });
    }
    turns
}

/// Plays one game. With a cache there are no label tasks: the cached voice speaks instead.
fn play(seed: u64, listening: Listening) -> Evening {
    let world = World::new(seed, listening == Listening::Cached);
    let mut scheduler = Scheduler::new(&world.shared);
    let rules = scheduler.add(RULES, rules::rules(&world));
    for player in 0..PLAYERS {
        scheduler.add(FIRST_HAND + player, hand::hand(&world, player));
    }
    scheduler.add(NETWORK, network::network(&world));
    let (speak, show) = (Ledger::speak as voice::Hears, Ledger::show as voice::Hears);
    let labels: Vec<(Vec<usize>, voice::Hears)> = match listening {
        Listening::Voice => layout::estate().map(|tile| (vec![tile], speak)).collect(),
        Listening::VoiceAndBraille => {
            layout::groups().flat_map(|group| [(group.clone(), speak), (group, show)]).collect()
        }
        Listening::Cached => Vec::new(),
    };
    for (which, (tiles, hears)) in labels.into_iter().enumerate() {
        scheduler.add(FIRST_LABEL + which, voice::label(&world, FIRST_LABEL + which, tiles, hears));
    }
    if listening == Listening::Cached {
        scheduler.add_other(cache::cached_voice(&world));
    }
    let turns = take_turns(&world, scheduler, rules);
    let (mut cache_spoke, mut cache_wrong, mut cache_never) = (0, 0, 0);
    if let Some(cache) = &world.cache {
        let cache = cache.borrow();
        cache_spoke = cache.spoken;
        cache_wrong = cache.wrong.len() as u64;
        cache_never = cache.wrong.iter().filter(|&&(tile, state)| !world.ledger.has_been(tile, state)).count() as u64;
    }
    let (lines, lateness) = (world.ledger.lines.take(), world.ledger.lateness.take());
    Evening { lines, counts: world.ledger.counts.get(), lateness, turns, cache_spoke, cache_wrong, cache_never }
}

/// What happened in the game, without the labels.
fn events(evening: &Evening) -> Vec<&Line> {
    evening.lines.iter().filter(|line| matches!(line, Line::Event(_))).collect()
}

/// Plays the evening both ways, and sees that it was the same game.
fn play_both(seed: u64, listening: Listening) -> (Evening, Evening) {
    let (sleeping, cached) = (play(seed, listening), play(seed, Listening::Cached));
    assert_eq!(events(&sleeping), events(&cached), "the two plays differ");
    (sleeping, cached)
}

fn transcript(evening: &Evening) -> String {
    let mut text = String::new();
    for line in &evening.lines {
        match line {
            Line::Event(event) => text += event,
            Line::Label(label) => text += &format!("Label. {label}"),
        }
        text.push('\n');
    }
    text
}

/// Prints a text. A listener who has gone, as the end of a pipe, is no fault.
fn tell(text: &str) -> Result<(), Stop> {
    let mut out = std::io::stdout().lock();
    match out.write_all(text.as_bytes()).and_then(|()| out.flush()) {
        Ok(()) => Ok(()),
        Err(e) if e.kind() == ErrorKind::BrokenPipe => Err(Stop::Unheard),
        Err(e) => Err(Stop::Failed(format!("standard output: {e}"))),
    }
}

fn one_evening(wish: &Wish) -> Result<(), Stop> {
    let seed = wish.seed.unwrap_or(1);
    let (sleeping, cached) = play_both(seed, wish.listening());
    let told = transcript(if wish.cached == Some(true) { &cached } else { &sleeping });
    let counts = sleeping.counts;
    tell(&format!(
        "{told}
Evening {seed}. To hear it again: --seed {seed}.
{} labels were spoken, and each was the board when it was spoken, {} rounds after the change at the latest.
The same game with labels cached per tile: {} labels, {} of them not the board, {} of these a board that never was.
{} transactions committed, {} failed and were tried again, sleepers were woken {} times, and the network sent the money {} times.
",
        counts.labels,
        lateness::share(&sleeping.lateness.rounds, 1000),
        cached.cache_spoke,
        cached.cache_wrong,
        cached.cache_never,
        counts.commits,
        counts.failures,
        counts.wakings,
        counts.snapshots
    ))?;
    if wish.braille {
        tell(&format!("{}\n", report::braille(counts.shown, counts.woken_by_listening)))?;
    }
    match &wish.speak {
        Some(file) => speak(&told, file).map_err(|why| Stop::Failed(format!("{file} was not spoken: {why}"))),
        None => Ok(()),
    }
}

/// Has espeak-ng speak a text. It speaks into a file of its own first: some versions say nothing of a
/// file that they could not write.
fn speak(text: &str, file: &str) -> Result<(), String> {
    let name = |ending: &str| std::env::temp_dir().join(format!("evening-{}.{ending}", std::process::id()));
    let (say, spoken) = (name("txt"), name("wav"));
    let result = speak_into(text, &say, &spoken)
        .and_then(|()| std::fs::copy(&spoken, file).map(|_| ()).map_err(|e| e.to_string()));
    let _ = std::fs::remove_file(&say);
    let _ = std::fs::remove_file(&spoken);
    result
}

fn speak_into(text: &str, say: &Path, spoken: &Path) -> Result<(), String> {
    std::fs::write(say, text).map_err(|e| e.to_string())?;
    let status = Command::new("espeak-ng").arg("-w").arg(spoken).arg("-f").arg(say).status();
    match status {
        Err(e) => Err(format!("espeak-ng could not be run ({e})")),
        Ok(status) if !status.success() => Err(format!("espeak-ng ended with {status}")),
        Ok(_) if std::fs::metadata(spoken).map_or(0, |found| found.len()) == 0 => {
            Err("espeak-ng wrote nothing".to_string())
        }
        Ok(_) => Ok(()),
    }
}

/// Plays evenings and says what came of them. Measured, those that take longest are played again.
fn many_evenings(first: u64, evenings: u64, wish: &Wish) -> Result<(), Stop> {
    let listening = wish.listening();
    let mut report = Report::default();
    let mut said = Instant::now();
    for seed in first..first + evenings {
        if said.elapsed().as_secs() >= 5 {
            eprintln!("evening: {} of {evenings} evenings are played", seed - first);
            said = Instant::now();
        }
        let (sleeping, cached) = play_both(seed, listening);
        report.add(&sleeping, &cached);
        report.add_turns(sleeping.turns, if wish.measured { 20 } else { 1 }, || play(seed, listening).turns);
    }
    let braille = if wish.braille { report.braille() } else { String::new() };
    let figures = if wish.measured { report.figures() } else { String::new() };
    tell(&format!("{evenings} evenings, seeds {first} to {}.\n{report}{braille}{figures}", first + evenings - 1))
}

fn run() -> Result<(), Stop> {
    let wish = wish(std::env::args().skip(1)).map_err(Stop::Usage)?;
    match wish.evenings {
        _ if wish.help => tell(&format!("{HELP}\n")),
        Some(evenings) => many_evenings(wish.seed.unwrap_or(1), evenings, &wish),
        None => one_evening(&wish),
    }
}

fn main() -> ExitCode {
    let (status, text) = match run() {
        Ok(()) | Err(Stop::Unheard) => return ExitCode::SUCCESS,
        Err(Stop::Usage(text)) => (2, text),
        Err(Stop::Failed(text)) => (1, text),
    };
    eprintln!("evening: {text}");
    ExitCode::from(status)
}

#[cfg(test)]
mod tests {
    use super::*;

    /// No livelock, every label the board (the ledger sees to that), and in time.
    fn is_in_time(seed: u64, sleeping: &Evening) {
        let late = &sleeping.lateness;
        assert!(sleeping.counts.rounds < 10_000, "evening {seed} took {} rounds", sleeping.counts.rounds);
        assert!(lateness::share(&late.rounds, 990) <= 1, "evening {seed}: {}", lateness::in_words(&late.rounds));
        assert!(lateness::share(&late.rounds, 1000) <= 4, "evening {seed}: {}", lateness::in_words(&late.rounds));
        assert_eq!((late.overtaken, late.unspoken), (0, 0), "evening {seed}");
    }

    #[test]
    fn labels_speak_in_time() {
        for seed in 1..=20 {
            let (sleeping, cached) = play_both(seed, Listening::Voice);
            assert!(cached.counts.rounds < 50_000, "evening {seed} took {} rounds", cached.counts.rounds);
            is_in_time(seed, &sleeping);
        }
    }

    /// Two listeners on each tile say the same, as soon, and nobody is woken by one that only listens.
    #[test]
    fn nobody_wakes_anybody_by_listening() {
        for seed in 1..=20 {
            let (both, voice) = (play(seed, Listening::VoiceAndBraille), play(seed, Listening::Voice));
            assert_eq!(events(&both), events(&voice), "evening {seed}: the two plays differ");
            is_in_time(seed, &both);
            assert!(both.counts.wakings > 100 && both.counts.joined > 100, "evening {seed}: {:?}", both.counts);
            assert_eq!(both.counts.woken_by_listening, 0, "evening {seed}");
            assert_eq!(both.counts.shown, both.counts.labels, "evening {seed}");
        }
    }
}
