//! Tables of any content and length, and any sizes, at random. The second machine reads them in anew for each call.
//!
//! Each limit, each length and each clause of the check by itself is a case of `crates/try_limits/stdin`. What only C can
//! show, such as sizes beyond 32 bits, is tried by `tests/refusals.c`.

use crate::lists::BadLists;
use crate::random::Random;
use crate::requests::{some_request, some_task, Met, Sort};
use crate::second_machine::tables::{ask_library, load, open, store};
use crate::second_machine::{Machine, TOP_VERSION};
use chezumobari::{Answer, Looked, Sizes, Tables};

/// A number that sits on some edge of the specification.
fn edge(random: &mut Random, sizes: Sizes, now: u32) -> u32 {
    match random.below(16) {
        0 => 0,
        1 => 1,
        2 => 63 + random.below(4) as u32,
        3 => TOP_VERSION - 1 + random.below(3) as u32,
        4 => TOP_VERSION + 1 + random.below(sizes.tasks + 1) as u32,
        5 => sizes.words as u32,
        6 => u32::MAX,
        7..=8 => random.below(10) as u32,
        9..=10 => random.below(sizes.words) as u32,
        11 => now ^ (1 << random.below(32)),
        12 => now.wrapping_sub(1),
        _ => now.wrapping_add(1),
    }
}

fn damage(random: &mut Random, sizes: Sizes, tables: &mut Tables) {
    let spot = match random.below(8) {
        0 => {
            let a = random.below(tables.words.len());
            &mut tables.words[a]
        }
        1..=2 => {
            let r = random.below(tables.records.len());
            &mut tables.records[r]
        }
        3 => {
            let (t, column) = (random.below(tables.places.len()), random.below(4));
            &mut tables.places[t][column]
        }
        4 => return another_list(random, sizes, tables),
        _ => {
            let (t, column) = (random.below(tables.places.len()), random.below(5));
            let used = tables.places[t][0].clamp(3, 63) as usize;
            &mut tables.entries[64 * t + random.below(used + 1)][column]
        }
    };
    *spot = edge(random, sizes, *spot);
}

/// Some task is on one list more or fewer, or on the list of what is no task. Mostly it is that of a sleeper, and a
/// task that may be on one.
fn another_list(random: &mut Random, sizes: Sizes, tables: &mut Tables) {
    let phase = |t: usize| tables.places.get(t).map_or(0, |place| place[1]);
    let mut some = |phases: &[u32], count: usize| {
        let found = (0..4).map(|_| random.below(count)).find(|&t| phases.contains(&phase(t)));
        found.unwrap_or_else(|| random.below(count))
    };
    let (t, w) = (some(&[3, 4, 7, 8], tables.places.len()), some(&[4], (sizes.tasks + 1).min(32)));
    tables.places[t][3] ^= 1 << w;
}

/// One table gets any length.
fn another_length(random: &mut Random, tables: &mut Tables) {
    match random.below(4) {
        0 => tables.words.resize(random.below(12), 0),
        1 => tables.records.resize(random.below(8), 1),
        2 => tables.places.resize(random.below(6), [0; 4]),
        _ => tables.entries.resize(random.below(320), [0; 5]),
    }
}

/// One size becomes any number.
fn another_size(random: &mut Random, sizes: &mut Sizes) {
    let most = random.one_of(&[8, 80, 8000]);
    let spot = match random.below(3) {
        0 => &mut sizes.words,
        1 => &mut sizes.records,
        _ => &mut sizes.tasks,
    };
    *spot = random.below(most);
}

/// One call on tables of any content. The second machine reads them in anew for it.
fn one_call(random: &mut Random, sizes: Sizes, tables: &mut Tables, sort: Sort, met: &mut Met) {
    let mut expected = tables.clone();
    let loaded = load(sizes, &expected);
    if random.once_in(30) {
        let first = edge(random, sizes, 1);
        assert_eq!(tables.open(sizes, first), Answer { number: open(sizes, first, &mut expected), value: 0 });
        assert_eq!(*tables, expected);
        return;
    }
    let address = random.below(tables.words.len() + 1);
    let (number, value, version) = loaded.as_ref().map_or((1, 0, 0), |m| m.look(address));
    assert_eq!(tables.look(sizes, address), Looked { number, value, version });
    let task = some_task(random, sizes.tasks.clamp(1, 32));
    let shape = Sizes { words: tables.words.len().max(1), ..sizes };
    let blank = Machine::opened(1, 1, 1, 1);
    let request = some_request(random, loaded.as_ref().unwrap_or(&blank), task, shape, sort);
    let answer = ask_library(tables, sizes, task, request);
    let (number, value) = match loaded {
        None => (1, 0),
        Some(mut machine) => {
            let reply = machine.ask(task, request);
            store(&machine, &mut expected);
            reply
        }
    };
    assert_eq!(answer, Answer { number, value }, "{request:?} of task {task} on {sizes:?} {tables:?}");
    met.note(number);
    assert_eq!(*tables, expected, "{request:?} of task {task} on {sizes:?}");
}

/// Plays on a board for a while, and then damages it a few times. Says how often.
fn damaged_board(random: &mut Random, sizes: Sizes, met: &mut Met) -> u64 {
    let mut tables = Tables::for_sizes(sizes);
    let first = random.one_of(&[1, 2, TOP_VERSION - 1, TOP_VERSION]);
    assert_eq!(tables.open(sizes, first).number, 0);
    for _ in 0..random.below(60) {
        one_call(random, sizes, &mut tables, Sort::Any, met);
    }
    let times = 1 + random.below(3);
    for _ in 0..times {
        damage(random, sizes, &mut tables);
        for _ in 0..3 {
            one_call(random, sizes, &mut tables, Sort::Any, met);
        }
    }
    times as u64
}

/// The same where many listen, and the damage is to lists. On tables that are still sound tasks are stepped, so
/// that lists which no step has made are woken too. Says how often it was damaged.
fn damaged_lists_of(random: &mut Random, met: &mut Met, bad: &mut BadLists) -> u64 {
    let sizes = Sizes { words: 4, records: 1 + random.below(4), tasks: 3 + random.below(6) };
    let mut tables = Tables::for_sizes(sizes);
    assert_eq!(tables.open(sizes, 1).number, 0);
    for _ in 0..60 + random.below(120) {
        one_call(random, sizes, &mut tables, Sort::Listeners, met);
    }
    let times = 8;
    for _ in 0..times {
        let before = tables.clone();
        another_list(random, sizes, &mut tables);
        bad.note(sizes, &tables);
        for _ in 0..6 {
            one_call(random, sizes, &mut tables, Sort::Listeners, met);
        }
        if load(sizes, &tables).is_none() {
            tables = before;
        }
    }
    times
}

fn small_sizes(random: &mut Random) -> Sizes {
    Sizes { words: 1 + random.below(6), records: 1 + random.below(4), tasks: 1 + random.below(3) }
}

#[test]
fn damaged_tables() {
    let mut random = Random::from_seed(4);
    let mut met = Met::default();
    for _ in 0..15_000 {
        let sizes = small_sizes(&mut random);
        damaged_board(&mut random, sizes, &mut met);
    }
    // Some damage is unsound, and some leads to a sound table that no opening reaches.
    assert!(met.numbers[1] > 10_000 && met.numbers[0] > 10_000);
}

#[test]
fn damaged_lists() {
    let mut random = Random::from_seed(8);
    let (mut met, mut bad) = (Met::default(), BadLists::default());
    for _ in 0..3_000 {
        damaged_lists_of(&mut random, &mut met, &mut bad);
    }
    println!("{bad:?}");
    bad.assert_more_than(1_000);
}

/// The check takes another room by the number of records, and compares many entries only where many share a record.
#[test]
#[ignore = "takes long: cargo test --release --test against_second_machine -- --ignored --nocapture"]
fn ten_million_damaged_tables() {
    let mut random = Random::from_seed(6);
    let mut met = Met::default();
    let mut tables = 0;
    while tables < 10_000_000 {
        let sizes = match random.below(400) {
            0 => Sizes { words: 1100, records: random.one_of(&[63, 64, 65, 255, 256, 257, 1024]), tasks: 2 },
            1..=40 => Sizes { words: 7 + random.below(30), records: 1 + random.below(3), tasks: 1 + random.below(2) },
            _ => small_sizes(&mut random),
        };
        tables += damaged_board(&mut random, sizes, &mut met);
    }
    let mut bad = BadLists::default();
    for _ in 0..100_000 {
        tables += damaged_lists_of(&mut random, &mut met, &mut bad);
    }
    let calls: u64 = met.numbers.iter().sum();
    println!("{bad:?}");
    println!("{tables} damaged tables, {calls} calls, {} of them on unsound tables: 0 differences", met.numbers[1]);
}

#[test]
fn any_lengths_and_sizes() {
    let mut random = Random::from_seed(5);
    let mut met = Met::default();
    for _ in 0..20_000 {
        let mut sizes = small_sizes(&mut random);
        let mut tables = Tables::for_sizes(sizes);
        assert_eq!(tables.open(sizes, 1).number, 0);
        for _ in 0..random.below(12) {
            one_call(&mut random, sizes, &mut tables, Sort::Any, &mut met);
        }
        if random.once_in(2) {
            another_length(&mut random, &mut tables);
        } else {
            another_size(&mut random, &mut sizes);
        }
        for _ in 0..3 {
            one_call(&mut random, sizes, &mut tables, Sort::Any, &mut met);
        }
    }
    assert!(met.numbers[1] > 10_000);
}
