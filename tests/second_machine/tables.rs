//! The second machine's state, read from the four tables and written to them.

use super::{End, Goal, Machine, Mark, Phase, Record, Request, Task, Use};
use super::{ENTRY_WIDTH, MOST_RECORDS, MOST_TASKS, MOST_WORDS, PLACE_WIDTH, RUN, TOP_VERSION};
use chezumobari::{Answer, Sizes, Tables};
use std::collections::{HashMap, HashSet};

fn sizes_are_in_range(sizes: Sizes) -> bool {
    (1..=MOST_WORDS).contains(&sizes.words)
        && (1..=MOST_RECORDS).contains(&sizes.records)
        && (1..=MOST_TASKS).contains(&sizes.tasks)
}

fn lengths_fit(sizes: Sizes, tables: &Tables) -> bool {
    tables.words.len() == sizes.words
        && tables.records.len() == sizes.records
        && tables.places.len() == sizes.tasks
        && tables.entries.len() == sizes.tasks * RUN
}

/// The same request of the library, to be compared with the machine's.
pub fn ask_library(tables: &mut Tables, sizes: Sizes, task: usize, request: Request) -> Answer {
    match request {
        Request::Start => tables.start(sizes, task),
        Request::Read(address) => tables.read(sizes, task, address),
        Request::Write(address, value) => tables.write(sizes, task, address, value),
        Request::Abort => tables.abort(sizes, task),
        Request::Commit => tables.commit(sizes, task),
        Request::Wait => tables.wait(sizes, task),
        Request::Step => tables.step(sizes, task),
    }
}

/// Opening: the number, and the tables if it is 0.
pub fn open(sizes: Sizes, first: u32, tables: &mut Tables) -> u32 {
    if !sizes_are_in_range(sizes) || first == 0 || first > TOP_VERSION {
        return 2;
    }
    if !lengths_fit(sizes, tables) {
        return 1;
    }
    for row in &mut tables.entries {
        *row = [0; ENTRY_WIDTH];
    }
    store(&Machine::opened(sizes.words, sizes.records, sizes.tasks, first), tables);
    0
}

/// The machine that sound tables hold. Unsound tables hold none.
pub fn load(sizes: Sizes, tables: &Tables) -> Option<Machine> {
    if !sizes_are_in_range(sizes) || !lengths_fit(sizes, tables) {
        return None;
    }
    let tasks: Option<Vec<Task>> =
        (0..sizes.tasks).map(|t| load_task(sizes, tables.places[t], &tables.entries[RUN * t..RUN * (t + 1)])).collect();
    let mut tasks = tasks?;
    let joins: Vec<u32> = tables.places.iter().map(|place| place[3]).collect();
    load_lists(&joins, &mut tasks)?;
    let records: Option<Vec<Record>> =
        (0..sizes.records).map(|r| load_record(sizes, tables.records[r], r, &tasks)).collect();
    Some(Machine { words: tables.words.clone(), records: records?, tasks })
}

fn load_phase(code: u32, at: usize) -> Option<Phase> {
    let phase = match code {
        0 => Phase::Idle,
        1 => Phase::Open,
        2 => Phase::Taking(Goal::Commit, at),
        3 => Phase::Taking(Goal::Sleep, at),
        4 => Phase::Asleep,
        5 => Phase::Writing(at),
        6 => Phase::Releasing(End::Committed, at),
        7 => Phase::Releasing(End::Failed, at),
        8 => Phase::Releasing(End::Woken, at),
        _ => return None,
    };
    let has_no_position = matches!(phase, Phase::Idle | Phase::Open | Phase::Asleep);
    (at == 0 || !has_no_position).then_some(phase)
}

fn load_task(sizes: Sizes, place: [u32; PLACE_WIDTH], run: &[[u32; ENTRY_WIDTH]]) -> Option<Task> {
    let (count, position) = (place[0] as usize, place[2] as usize);
    let phase = load_phase(place[1], position)?;
    if count > RUN || position > count || (phase == Phase::Idle && count > 0) {
        return None;
    }
    let mut task = Task { phase, ..Task::idle() };
    let mut addresses = HashSet::new();
    let mut versions = HashMap::new();
    for &[address, found, left, version, next] in &run[..count] {
        let address = address as usize;
        let in_range = |v: u32| (1..=TOP_VERSION).contains(&v);
        let follows = next == version || next == version.wrapping_add(1);
        if address >= sizes.words || !in_range(version) || !in_range(next) || !follows || !addresses.insert(address) {
            return None;
        }
        let record = address % sizes.records;
        match versions.insert(record, (version, next)) {
            Some(before) if before != (version, next) => return None,
            Some(_) => {}
            None => task.marks.push(Mark { record, found: version, left: next }),
        }
        task.uses.push(Use { address, found, left });
    }
    Some(task)
}

/// The lists, from each task's set of the sleepers that it joined.
fn load_lists(joins: &[u32], tasks: &mut [Task]) -> Option<()> {
    for (task, &joined) in joins.iter().enumerate() {
        for sleeper in (0..32).filter(|bit| joined >> bit & 1 == 1) {
            let may_join =
                matches!(tasks[task].phase, Phase::Taking(Goal::Sleep, _) | Phase::Asleep | Phase::Releasing(..));
            let list = tasks.get_mut(sleeper).filter(|it| it.phase == Phase::Asleep && may_join)?;
            list.list.insert(task);
        }
    }
    // Tasks that nobody leads to are taken out one by one. Whoever is left then is on a way that comes back.
    let mut left: Vec<usize> = (0..tasks.len()).collect();
    while let Some(at) = left.iter().position(|task| !left.iter().any(|&other| tasks[other].list.contains(task))) {
        left.remove(at);
    }
    left.is_empty().then_some(())
}

fn load_record(sizes: Sizes, number: u32, record: usize, tasks: &[Task]) -> Option<Record> {
    if number <= TOP_VERSION {
        return (number > 0).then_some(Record::Version(number));
    }
    let owner = (number - TOP_VERSION - 1) as usize;
    let task = tasks.get(owner)?;
    let from = match task.phase {
        Phase::Idle | Phase::Open => return None,
        Phase::Releasing(_, at) => at,
        _ => 0,
    };
    let uses_it = task.uses[from..].iter().any(|u| u.address % sizes.records == record);
    uses_it.then_some(Record::Owner(owner))
}

/// Writes the machine into tables of its lengths. Entry places that no task uses keep what they held.
pub fn store(machine: &Machine, tables: &mut Tables) {
    tables.words.copy_from_slice(&machine.words);
    for (number, record) in tables.records.iter_mut().zip(&machine.records) {
        *number = match *record {
            Record::Version(version) => version,
            Record::Owner(task) => TOP_VERSION + 1 + task as u32,
        };
    }
    for (t, task) in machine.tasks.iter().enumerate() {
        let (code, position) = stored_phase(task.phase);
        let joined = machine.tasks.iter().enumerate().filter(|(_, other)| other.list.contains(&t));
        let joins = joined.fold(0, |set, (sleeper, _)| set | 1 << sleeper);
        tables.places[t] = [task.uses.len() as u32, code, position as u32, joins];
        for (i, used) in task.uses.iter().enumerate() {
            let record = used.address % machine.records.len();
            let mark = task.marks[task.marked(record).expect("a used address has a mark")];
            tables.entries[RUN * t + i] = [used.address as u32, used.found, used.left, mark.found, mark.left];
        }
    }
}

fn stored_phase(phase: Phase) -> (u32, usize) {
    match phase {
        Phase::Idle => (0, 0),
        Phase::Open => (1, 0),
        Phase::Taking(Goal::Commit, at) => (2, at),
        Phase::Taking(Goal::Sleep, at) => (3, at),
        Phase::Asleep => (4, 0),
        Phase::Writing(at) => (5, at),
        Phase::Releasing(End::Committed, at) => (6, at),
        Phase::Releasing(End::Failed, at) => (7, at),
        Phase::Releasing(End::Woken, at) => (8, at),
    }
}
