//! The page on lateness: reads what the evenings printed, and writes docs/LATENESS.md and its plot.
//! `bench/lateness` runs it.

mod bars;

use bars::{Bar, Chart};
use std::collections::BTreeMap;
use std::path::Path;
use std::process::Command;

type Histogram = BTreeMap<u64, u64>;

/// What an evening printed with every figure on a line of its own.
#[derive(Default)]
struct Figures {
    rounds: Histogram,
    calls: Histogram,
    /// by name: the most calls, and nanoseconds
    longest: BTreeMap<String, (u64, u64)>,
    /// overtaken, undone, not said
    changes: [u64; 3],
    /// changes that the braille line showed, and sleepers that were woken by one that only listened
    listening: [u64; 2],
}

fn read(file: &str) -> Figures {
    let text = std::fs::read_to_string(file).unwrap_or_else(|e| panic!("{file}: {e}"));
    let mut figures = Figures::default();
    let number = |word: &str| word.parse::<u64>().expect("a figure is a number");
    for line in text.lines() {
        match line.split(' ').collect::<Vec<_>>()[..] {
            ["late", "rounds", late, times] => drop(figures.rounds.insert(number(late), number(times))),
            ["late", "calls", late, times] => drop(figures.calls.insert(number(late), number(times))),
            ["longest", name, calls, time] => {
                figures.longest.insert(name.to_string(), (number(calls), number(time)));
            }
            ["changes", overtaken, undone, unsaid] => figures.changes = [overtaken, undone, unsaid].map(number),
            ["listening", shown, woken] => figures.listening = [shown, woken].map(number),
            _ => {}
        }
    }
    assert!(!figures.rounds.is_empty(), "{file} has no figures");
    figures
}

fn all(histogram: &Histogram) -> u64 {
    histogram.values().sum()
}

/// The number that so many of a thousand do not go beyond.
fn within(histogram: &Histogram, of_a_thousand: u64) -> u64 {
    let mut seen = 0;
    let reaches = |(&late, &times): (&u64, &u64)| {
        seen += times;
        (seen * 1000 >= all(histogram) * of_a_thousand).then_some(late)
    };
    histogram.iter().find_map(reaches).unwrap_or(0)
}

fn table(before: &Figures, after: &Figures) -> String {
    let mut rows = vec![format!("| changes that were said | {} | {} |", all(&before.rounds), all(&after.rounds))];
    for (name, of) in [("rounds", (|f| &f.rounds) as fn(&Figures) -> &Histogram), ("calls", |f| &f.calls)] {
        for (what, part) in [("half within", 500), ("9 of 10 within", 900), ("99 of 100 within", 990), ("latest", 1000)]
        {
            rows.push(format!("| {name}, {what} | {} | {} |", within(of(before), part), within(of(after), part)));
        }
    }
    for (i, what) in ["overtaken", "undone", "not said"].into_iter().enumerate() {
        rows.push(format!("| {what} | {} | {} |", before.changes[i], after.changes[i]));
    }
    rows.join("\n")
}

/// The share of a histogram in 0, 1, 2 to 3, 4 to 7 and so on, as many as the larger one needs.
fn shares(histograms: [&Histogram; 2]) -> Vec<Bar> {
    let most = histograms.iter().filter_map(|h| h.keys().max()).max().copied().unwrap_or(0);
    let (mut bars, mut from, mut to) = (Vec::new(), 0, 0);
    while from <= most {
        let share = |h: &Histogram| h.range(from..=to).map(|(_, n)| n).sum::<u64>() as f64 / all(h) as f64;
        let name = if from == to { from.to_string() } else { format!("{from} to {to}") };
        bars.push(Bar { name, before: share(histograms[0]), after: share(histograms[1]) });
        (from, to) = (to + 1, 2 * to + 1);
    }
    bars
}

fn percent(share: f64) -> String {
    match share {
        0.0 => "none".to_string(),
        1.0 => "all".to_string(),
        s if s < 0.001 => "less than 0.1 %".to_string(),
        s => format!("{:.1} %", 100.0 * s),
    }
}

fn in_words(bars: &[Bar]) -> String {
    let line = |bar: &Bar| format!("- {}: before {}, after {}.", bar.name, percent(bar.before), percent(bar.after));
    bars.iter().map(line).collect::<Vec<_>>().join("\n")
}

fn longest(figures: &Figures, what: &str) -> String {
    match figures.longest.get(what) {
        None => "1 call".to_string(),
        Some((calls, time)) => format!("{calls} calls, {:.0} microseconds", *time as f64 / 1000.0),
    }
}

/// What came of the evenings with two listeners on each tile.
fn two_listeners(figures: &Figures) -> String {
    let within = |histogram: &Histogram| [500, 990, 1000].map(|part| within(histogram, part));
    let ([shown, woken], [half, most, latest], round) =
        (figures.listening, within(&figures.calls), within(&figures.rounds)[2]);
    format!(
        "- The voice said {} changes, and the braille line showed {shown}.\n\
         - {woken} sleepers were woken by one that only listened.\n\
         - In calls: half within {half}, 99 of 100 within {most}, the latest {latest}. In rounds: the latest {round}.\n\
         - The longest turn: {}.",
        all(&figures.rounds),
        longest(figures, "turn")
    )
}

fn machine() -> String {
    let said = Command::new("lscpu").output().map(|o| String::from_utf8_lossy(&o.stdout).to_string());
    let name = said.ok().and_then(|all| {
        let line = all.lines().find(|line| line.starts_with("Model name:"))?;
        Some(line["Model name:".len()..].trim().to_string())
    });
    let cores = std::thread::available_parallelism().map_or(1, usize::from);
    let load = std::fs::read_to_string("/proc/loadavg").ok();
    let load = load.as_deref().and_then(|l| l.split(' ').next()).unwrap_or("unknown");
    let name = name.unwrap_or_else(|| "an unnamed processor".to_string());
    format!("{name} ({}), {cores} cores, load {load} at the end", std::env::consts::ARCH)
}

fn main() {
    let words: Vec<String> = std::env::args().skip(1).filter(|word| word != "--bench").collect();
    let [evenings, before, after, both] = &words[..] else {
        // a plain `cargo bench` comes here too
        return eprintln!("lateness: run bench/lateness, which plays the evenings first");
    };
    let docs = Path::new(env!("CARGO_MANIFEST_DIR")).join("../docs");
    let (before, after, both) = (read(before), read(after), read(both));
    let rounds = shares([&before.rounds, &after.rounds]);
    let calls = shares([&before.calls, &after.calls]);
    let page = include_str!("LATENESS.template.md")
        .replace("{machine}", &machine())
        .replace("{evenings}", evenings)
        .replace("{table}", &table(&before, &after))
        .replace("{rounds}", &in_words(&rounds))
        .replace("{calls}", &in_words(&calls))
        .replace("{both}", &two_listeners(&both))
        .replace("{before_turn}", &longest(&before, "turn"))
        .replace("{after_turn}", &longest(&after, "turn"))
        .replace("{before_round}", &longest(&before, "round"))
        .replace("{after_round}", &longest(&after, "round"));
    let about = format!(
        "The share of changes by how late their label was. In rounds. {} In calls. {}",
        in_words(&rounds).replace("- ", "").replace('\n', " "),
        in_words(&calls).replace("- ", "").replace('\n', " ")
    );
    let charts = [Chart { across: "rounds late", bars: rounds }, Chart { across: "calls late", bars: calls }];
    let picture = bars::svg("How late labels speak, before and after whole turns", &about, &charts);
    std::fs::write(docs.join("lateness.svg"), picture).expect("docs/lateness.svg can be written");
    std::fs::write(docs.join("LATENESS.md"), &page).expect("docs/LATENESS.md can be written");
    print!("{page}");
}
