//! Tables reached from an opening. The second machine keeps its own state along the schedule.

use crate::lists::Before;
use crate::random::Random;
use crate::requests::{some_request, some_task, Met, Sort};
use crate::second_machine::tables::{ask_library, open, store};
use crate::second_machine::{Machine, Phase, Request, TOP_VERSION};
use chezumobari::{Answer, Looked, Sizes, Tables};

fn some_sizes(random: &mut Random) -> Sizes {
    match random.below(10) {
        0 => Sizes { words: 1, records: 1, tasks: 1 },
        1 => Sizes { words: 4096, records: 1024, tasks: 32 },
        2..=4 => Sizes { words: 100, records: 1 + random.below(100), tasks: 1 + random.below(4) },
        _ => Sizes { words: 1 + random.below(12), records: 1 + random.below(6), tasks: 1 + random.below(5) },
    }
}

/// Plays one schedule from an opening. The second machine keeps its own state and never reads the tables.
fn play(random: &mut Random, sizes: Sizes, first: u32, calls: usize, sort: Sort, met: &mut Met) {
    let mut tables = Tables::for_sizes(sizes);
    let mut expected = tables.clone();
    assert_eq!(tables.open(sizes, first).number, open(sizes, first, &mut expected));
    let mut machine = Machine::opened(sizes.words, sizes.records, sizes.tasks, first);
    // how often another task comes to its turn: often means clashes, seldom means commits
    let change = 1 + random.below(8);
    let mut task = 0;
    for _ in 0..calls {
        if random.once_in(9) {
            let address = random.below(sizes.words + 1);
            let (number, value, version) = machine.look(address);
            assert_eq!(tables.look(sizes, address), Looked { number, value, version });
            met.note(number);
        } else {
            if random.once_in(change) {
                task = some_task(random, sizes.tasks);
            }
            // a sleeper has no step to make
            let asleep = |t: usize| machine.tasks.get(t).is_some_and(|it| it.phase == Phase::Asleep);
            while sort == Sort::Listeners && asleep(task) && !random.once_in(12) {
                task = some_task(random, sizes.tasks);
            }
            let request = some_request(random, &machine, task, sizes, sort);
            let answer = ask_library(&mut tables, sizes, task, request);
            let before = Before::of(&machine);
            let (number, value) = machine.ask(task, request);
            assert_eq!(answer, Answer { number, value }, "{request:?} of task {task} on {sizes:?}");
            met.note(number);
            met.lists.note(task, &before, &machine);
        }
        store(&machine, &mut expected);
        assert_eq!(tables, expected, "the tables differ on {sizes:?}");
    }
}

#[test]
fn many_short_schedules() {
    let mut random = Random::from_seed(1);
    let mut met = Met::default();
    for _ in 0..6_000 {
        let sizes = some_sizes(&mut random);
        let first = random.one_of(&[1, 1, 1, TOP_VERSION - 1, TOP_VERSION]);
        let calls = 1 + random.below(if sizes.words == 4096 { 20 } else { 120 });
        play(&mut random, sizes, first, calls, Sort::Any, &mut met);
    }
    for number in [0, 3, 4, 5, 7, 8, 9, 20, 21, 22, 23] {
        assert!(met.numbers[number] > 20, "number {number} was met {} times", met.numbers[number]);
    }
}

#[test]
fn a_few_long_schedules() {
    let mut random = Random::from_seed(2);
    let mut met = Met::default();
    for (words, records, tasks, calls) in
        [(6, 3, 3, 100_000), (40, 40, 8, 40_000), (160, 64, 30, 20_000), (4096, 1024, 32, 4_000)]
    {
        play(&mut random, Sizes { words, records, tasks }, 1, calls, Sort::Any, &mut met);
    }
    for number in [21, 22, 23] {
        assert!(met.numbers[number] > 100, "number {number} was met {} times", met.numbers[number]);
    }
}

/// Many tasks that mostly listen to a few words: lists of many, and lists that lead on to others.
#[test]
fn many_listeners() {
    let mut random = Random::from_seed(7);
    let mut met = Met::default();
    for _ in 0..4_000 {
        let sizes = Sizes { words: 4, records: 1 + random.below(4), tasks: 4 + random.below(9) };
        play(&mut random, sizes, 1, 400, Sort::Listeners, &mut met);
    }
    for _ in 0..30 {
        play(&mut random, Sizes { words: 40, records: 8, tasks: 32 }, 1, 1_500, Sort::Listeners, &mut met);
    }
    println!("{:?}", met.lists);
    met.lists.assert_more_than(50);
}

#[test]
fn transactions_up_to_the_last_address() {
    let mut random = Random::from_seed(3);
    let mut met = Met::default();
    let sizes = Sizes { words: 200, records: 50, tasks: 3 };
    for _ in 0..40 {
        let mut tables = Tables::for_sizes(sizes);
        let mut expected = tables.clone();
        assert_eq!(tables.open(sizes, 1).number, 0);
        open(sizes, 1, &mut expected);
        let mut machine = Machine::opened(sizes.words, sizes.records, sizes.tasks, 1);
        for round in 0..900 {
            let task = random.below(3);
            let address = random.below(sizes.words);
            let open_now = machine.tasks[task].phase == Phase::Open;
            let request = match (open_now, round % 100) {
                (true, 99) => Request::Commit,
                (true, _) if random.once_in(2) => Request::Write(address, round),
                (true, _) => Request::Read(address),
                (false, _) if machine.tasks[task].phase == Phase::Idle => Request::Start,
                (false, _) => Request::Step,
            };
            let answer = ask_library(&mut tables, sizes, task, request);
            let (number, value) = machine.ask(task, request);
            assert_eq!(answer, Answer { number, value });
            met.note(number);
            store(&machine, &mut expected);
            assert_eq!(tables, expected);
        }
    }
    assert!(met.numbers[6] > 100, "number 6 was met {} times", met.numbers[6]);
}
