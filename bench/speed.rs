//! The benchmark. It measures everything in one run and writes docs/SPEED.md and docs/speed.svg.

mod cases;
mod plot;
#[path = "../tests/second_machine/mod.rs"]
#[allow(dead_code)]
mod second_machine;

use cases::{calls, checked_transaction, mutex_transaction, opening, read_then_write, unchecked_transaction, Scene};
use chezumobari::{ENTRIES_PER_TASK, MOST_RECORDS, MOST_TASKS, MOST_WORDS};
use std::path::Path;
use std::process::Command;

/// What a command prints, as one line.
fn said(program: &str, words: &[&str]) -> Option<String> {
    let output = Command::new(program).args(words).output().ok()?;
    let text = String::from_utf8_lossy(&output.stdout).trim().to_string();
    (output.status.success() && !text.is_empty()).then_some(text)
}

fn machine() -> String {
    let of = |key: &str| {
        let all = said("lscpu", &[])?;
        let line = all.lines().find(|line| line.starts_with(key))?;
        Some(line[key.len()..].trim().to_string())
    };
    let processor = of("Model name:").unwrap_or_else(|| "an unnamed processor".to_string());
    let cores = std::thread::available_parallelism().map_or(1, usize::from);
    let load = std::fs::read_to_string("/proc/loadavg").ok().and_then(|l| l.split(' ').next().map(str::to_string));
    let compiler = |name: &str| said(name, &["--version"]).and_then(|t| t.lines().next().map(str::to_string));
    format!(
        "{processor} ({}), {cores} cores, load {} at the start; {}; {}; {}",
        std::env::consts::ARCH,
        load.unwrap_or_else(|| "unknown".to_string()),
        compiler("rustc").unwrap_or_default(),
        compiler("gcc").unwrap_or_else(|| "no gcc".to_string()),
        compiler("ghc").unwrap_or_else(|| "no ghc".to_string())
    )
}

/// The boards that the page describes.
struct Boards {
    small: Scene,
    club: Scene,
    evening: Scene,
    full: Scene,
    crowded: Scene,
    downwards: Scene,
}

/// The names of the boards in the order in which a turn measures them.
const TURN: [&str; 6] = ["small", "club", "evening", "full", "crowded", "crowded, descending"];

fn boards() -> Boards {
    Boards {
        small: Scene::small(),
        club: Scene::busy(256, 64, 8, 8),
        evening: Scene::evening(26),
        full: Scene::busy(MOST_WORDS, MOST_RECORDS, MOST_TASKS, ENTRIES_PER_TASK),
        crowded: Scene::busy(MOST_WORDS, 1, MOST_TASKS, ENTRIES_PER_TASK),
        downwards: Scene::busy_downwards(MOST_WORDS, 1, MOST_TASKS),
    }
}

fn row(name: &str, checked: [f64; 4], unchecked: f64) -> String {
    let [small, evening, full, crowded] = checked;
    format!(
        "| {name} | {small:.0} | {evening:.0} | {full:.0} | {crowded:.0} | {unchecked:.0} | {:.0} |\n",
        evening / unchecked
    )
}

fn per_call(boards: &Boards) -> String {
    let all = [&boards.small, &boards.evening, &boards.full, &boards.crowded];
    let mut rows = String::new();
    for i in 0..calls(0).len() {
        let call = |scene: &Scene| calls(scene.addresses[0]).swap_remove(i);
        eprintln!("bench: {}", call(all[0]).name);
        let unchecked = call(&boards.evening).unchecked(&boards.evening);
        rows += &row(call(all[0]).name, all.map(|scene| call(scene).checked(scene)), unchecked);
    }
    rows += &row("look", all.map(Scene::look), unchecked_look(&boards.evening));
    rows + &row("open", all.map(opening), unchecked_opening())
}

/// The board of the club: each call checked, and on the second machine.
fn on_the_club(scene: &Scene) -> String {
    let line = |name: &str, checked: f64, unchecked: f64| {
        format!("| {name} | {checked:.0} | {unchecked:.0} | {:.0} |\n", checked / unchecked)
    };
    let mut rows = String::new();
    for call in calls(scene.addresses[0]) {
        eprintln!("bench: {}, board of the club", call.name);
        rows += &line(call.name, call.checked(scene), call.unchecked(scene));
    }
    rows + &line("look", scene.look(), unchecked_look(scene))
}

fn unchecked_opening() -> f64 {
    cases::nanoseconds(|| {
        std::hint::black_box(second_machine::Machine::opened(std::hint::black_box(160), 160, 32, 1));
    })
}

fn unchecked_look(scene: &Scene) -> f64 {
    let machine = second_machine::tables::load(scene.sizes, &scene.tables).expect("a reached board is sound");
    cases::nanoseconds(|| {
        std::hint::black_box(machine.look(std::hint::black_box(scene.addresses[0])));
    })
}

/// The contenders take turns, and the fastest turn of each counts. The ratio is to the second machine.
fn transactions(boards: &Boards) -> String {
    let built = Path::new(env!("CARGO_MANIFEST_DIR")).join("../target/embed/bin");
    let other = |name: &str| said(built.join(name).to_str()?, &[])?.parse::<f64>().ok();
    let contenders: [(&str, &dyn Fn() -> Option<f64>); 8] = [
        ("the library, board of the evening", &|| Some(checked_transaction(&boards.evening))),
        ("the library, small board", &|| Some(checked_transaction(&boards.small))),
        ("the library, full board", &|| Some(checked_transaction(&boards.full))),
        ("the library, crowded board", &|| Some(checked_transaction(&boards.crowded))),
        ("the second machine, no checks, board of the evening", &|| Some(unchecked_transaction(&boards.evening))),
        ("a mutex around plain words", &|| Some(mutex_transaction())),
        ("gcc -fgnu-tm (libitm)", &|| other("itm")),
        ("GHC's STM", &|| other("stm")),
    ];
    const SECOND: usize = 4;
    let mut best = [f64::INFINITY; 8];
    for _ in 0..3 {
        for (fastest, (name, measure)) in best.iter_mut().zip(contenders) {
            eprintln!("bench: {name}");
            *fastest = fastest.min(measure().unwrap_or(f64::INFINITY));
        }
    }
    let mut rows = String::new();
    for (fastest, (name, _)) in best.into_iter().zip(contenders) {
        if fastest.is_finite() {
            rows += &format!("| {name} | {fastest:.0} | {:.2} |\n", fastest / best[SECOND]);
        } else {
            rows += &format!("| {name} | not installed | - |\n");
        }
    }
    rows
}

/// What one archive costs on each board: a look-up and the transaction, a line for each board.
fn turn(boards: &Boards) -> String {
    let all = [&boards.small, &boards.club, &boards.evening, &boards.full, &boards.crowded, &boards.downwards];
    all.map(|scene| format!("{} {}\n", scene.look(), checked_transaction(scene))).concat()
}

/// A word that is read and then written, by the number of the task's entries: a line for each.
fn known() -> String {
    [1, 8, ENTRIES_PER_TASK].map(|entries| format!("{entries} entries: {:.1} ns\n", read_then_write(entries))).concat()
}

/// The fastest of several turns of two programs, which are this one with two archives.
fn by_turns(programs: [&str; 2]) -> Option<[Vec<f64>; 2]> {
    let mut best = [vec![f64::INFINITY; 2 * TURN.len()], vec![f64::INFINITY; 2 * TURN.len()]];
    for _ in 0..5 {
        for (best, program) in best.iter_mut().zip(programs) {
            eprintln!("bench: a turn of {program}");
            let figures = said(program, &["--turn"])?;
            for (fastest, figure) in best.iter_mut().zip(figures.split_whitespace()) {
                *fastest = fastest.min(figure.parse().ok()?);
            }
        }
    }
    Some(best)
}

/// Another archive beside this one, where `bench/run` was given one.
fn beside() -> String {
    let (Ok(other), Ok(name)) = (std::env::var("CHEZUMOBARI_BESIDE"), std::env::var("CHEZUMOBARI_BESIDE_NAME")) else {
        return String::new();
    };
    let this = std::env::current_exe().expect("a program knows where it is");
    let [before, now] = by_turns([&other, &this.to_string_lossy()]).expect("both archives can be measured");
    let mut text = format!(
        "## Beside {name}\n\n\
        The two archives took turns in this run, and the fastest turn of each counts. \
        The ratio is this archive's time divided by the other's.\n\n\
        | Board | Look-up there | Here | Ratio | Transaction there | Here | Ratio |\n|---|---|---|---|---|---|---|\n"
    );
    for (i, board) in TURN.into_iter().enumerate() {
        let (look, whole) = (2 * i, 2 * i + 1);
        let pair = |k: usize| format!("{:.0} | {:.0} | {:.2}", before[k], now[k], now[k] / before[k]);
        text += &format!("| {board} | {} | {} |\n", pair(look), pair(whole));
    }
    text + "\n"
}

fn growth() -> Vec<plot::Line> {
    let line = |name, colour, sizes: &[usize], scene: &dyn Fn(usize) -> Scene| {
        eprintln!("bench: growth with {name}");
        let points = sizes.iter().map(|&n| (n as f64, scene(n).look())).collect();
        plot::Line { name, colour, points }
    };
    let entries = [1, 2, 4, 8, 16, 32, ENTRIES_PER_TASK];
    vec![
        line("entries, one record", "#8a1c3b", &entries, &|n| Scene::busy(4096, 1, 32, n)),
        line("entries", "#1b6ca8", &entries, &|n| Scene::busy(4096, 1024, 32, n)),
        line("tasks", "#b5542b", &[1, 2, 4, 8, 16, 32], &|n| Scene::busy(4096, 1024, n, 8)),
        line("records", "#2e7d4f", &[1, 4, 16, 64, 256, 1024], &|n| Scene::busy(4096, n, 2, 8)),
        line("words", "#6a4c93", &[128, 256, 512, 1024, 2048, 4096], &|n| Scene::busy(n, 64, 2, 8)),
    ]
}

/// Labels on tiles of their own, two on each, and all on one.
fn lists() -> String {
    let mut rows = String::new();
    for (name, tiles) in [("a tile for each", 26), ("two on each of 13 tiles", 13), ("all on one tile", 1)] {
        let scene = Scene::listeners(26, tiles);
        rows += &format!("| {name} | {:.0} | {:.0} |\n", scene.look(), scene.wake());
    }
    rows
}

fn growth_in_words(lines: &[plot::Line]) -> String {
    let mut text = String::new();
    for line in lines {
        let figures: Vec<String> = line.points.iter().map(|(n, t)| format!("{n}: {t:.0}")).collect();
        text += &format!("- {}: {}.\n", line.name, figures.join(", "));
    }
    text
}

fn main() {
    let docs = Path::new(env!("CARGO_MANIFEST_DIR")).join("../docs");
    let boards = boards();
    if std::env::args().any(|word| word == "--turn") {
        print!("{}", turn(&boards));
        return;
    }
    if std::env::args().any(|word| word == "--known") {
        print!("{}", known());
        return;
    }
    let machine = machine();
    let beside = beside();
    let transactions = transactions(&boards);
    let per_call = per_call(&boards);
    let club = on_the_club(&boards.club);
    let lists = lists();
    let usual = boards.evening.look();
    let lines = growth();
    let growth = growth_in_words(&lines);
    let picture = plot::svg(
        "What one look-up costs, by what stands in the tables",
        &format!(
            "Nanoseconds for one look-up, which is the check of the tables and little else. {}",
            growth.replace("- ", "").replace('\n', " ")
        ),
        "how many",
        "nanoseconds",
        &lines,
    );
    let page = include_str!("SPEED.template.md")
        .replace("{machine}", &machine)
        .replace("{transactions}", transactions.trim_end())
        .replace("{beside}", &beside)
        .replace("{calls}", per_call.trim_end())
        .replace("{club}", club.trim_end())
        .replace("{lists}", lists.trim_end())
        .replace("{usual}", &format!("{usual:.0}"))
        .replace("{share}", &format!("{:.1}", usual / 1_000.0))
        .replace("{growth}", growth.trim_end());
    std::fs::write(docs.join("speed.svg"), picture).expect("docs/speed.svg can be written");
    std::fs::write(docs.join("SPEED.md"), &page).expect("docs/SPEED.md can be written");
    print!("{page}");
}
