//! What is measured: boards, single calls, and the transaction of 4 reads and 2 writes.

use crate::second_machine::tables::{ask_library, load};
use crate::second_machine::{Machine, Request, Task};
use chezumobari::{Answer, Sizes, Tables, ENTRIES_PER_TASK};
use std::hint::black_box;
use std::time::Instant;

/// The task that is measured. It meets nobody.
pub const TASK: usize = 0;

/// Nanoseconds for one run of `act`: the fastest of many short rounds, so that what else the machine
/// does disturbs least.
pub fn nanoseconds(mut act: impl FnMut()) -> f64 {
    let mut times = 1_u32;
    loop {
        let begin = Instant::now();
        (0..times).for_each(|_| act());
        if begin.elapsed().as_micros() > 1_000 {
            break;
        }
        times *= 2;
    }
    let round = |act: &mut dyn FnMut()| {
        let begin = Instant::now();
        (0..times).for_each(|_| act());
        begin.elapsed().as_nanos() as f64 / f64::from(times)
    };
    (0..30).map(|_| round(&mut act)).fold(f64::INFINITY, f64::min)
}

/// A board in some state, and four addresses of it that no task uses.
pub struct Scene {
    pub sizes: Sizes,
    pub tables: Tables,
    pub addresses: [usize; 4],
}

impl Scene {
    fn open(words: usize, records: usize, tasks: usize) -> Scene {
        let sizes = Sizes { words, records, tasks };
        let mut tables = Tables::for_sizes(sizes);
        assert_eq!(tables.open(sizes, 1).number, 0);
        Scene { sizes, tables, addresses: [0, 1, 2, 3].map(|i| words - 1 - i) }
    }

    fn must(&mut self, task: usize, request: Request) {
        let number = ask_library(&mut self.tables, self.sizes, task, request).number;
        assert!(number == 0 || number == 20, "{request:?} answered {number}");
    }

    /// Nobody else is there.
    pub fn small() -> Scene {
        Scene::open(8, 8, 2)
    }

    /// As in the evening: 160 words, 32 tasks, and this many labels asleep on three words each.
    pub fn evening(labels: usize) -> Scene {
        Scene::listeners(labels, labels)
    }

    /// The same, where the labels have only so many tiles: the first on a tile owns its records, and the others join it.
    pub fn listeners(labels: usize, tiles: usize) -> Scene {
        let mut scene = Scene::open(160, 160, 32);
        for label in 0..labels {
            let task = 32 - 1 - label;
            scene.must(task, Request::Start);
            (0..3).for_each(|i| scene.must(task, Request::Read(3 * (label % tiles) + i)));
            scene.must(task, Request::Wait);
            (0..4).for_each(|_| scene.must(task, Request::Step));
        }
        scene
    }

    /// All other tasks have a transaction open with this many entries, their addresses ascending.
    pub fn busy(words: usize, records: usize, tasks: usize, entries: usize) -> Scene {
        Scene::busy_in_order(words, records, tasks, 0..entries)
    }

    /// The same with all entries that there may be, their addresses descending.
    pub fn busy_downwards(words: usize, records: usize, tasks: usize) -> Scene {
        Scene::busy_in_order(words, records, tasks, (0..ENTRIES_PER_TASK).rev())
    }

    fn busy_in_order(words: usize, records: usize, tasks: usize, order: impl Iterator<Item = usize> + Clone) -> Scene {
        let mut scene = Scene::open(words, records, tasks);
        for task in 1..tasks {
            scene.must(task, Request::Start);
            let first = task * ENTRIES_PER_TASK;
            order.clone().for_each(|i| scene.must(task, Request::Read((first + i) % (words - 4))));
        }
        scene
    }

    /// Nanoseconds for the step of a commit that comes to the sleeper on word 0 and wakes it with its list.
    pub fn wake(&self) -> f64 {
        let mut tables = self.tables.clone();
        for request in [Request::Start, Request::Write(0, 1), Request::Commit] {
            assert_eq!(ask_library(&mut tables, self.sizes, TASK, request).number, 0);
        }
        let places = tables.places.clone();
        nanoseconds(|| {
            let _ = black_box(ask_library(&mut tables, self.sizes, TASK, black_box(Request::Step)));
            tables.places.copy_from_slice(&places);
        })
    }

    /// Nanoseconds for a look-up: the check, and very little else.
    pub fn look(&self) -> f64 {
        nanoseconds(|| {
            let _ = black_box(self.tables.look(self.sizes, black_box(self.addresses[0])));
        })
    }
}

/// Nanoseconds for a Read of a new word and then a Write of it, by a task that has so many entries once it has read. It is alone on a
/// board of 128 words. After the Write the entry is dropped again.
pub fn read_then_write(entries: usize) -> f64 {
    let mut scene = Scene::open(128, 128, 2);
    scene.must(TASK, Request::Start);
    (1..entries).for_each(|address| scene.must(TASK, Request::Read(address)));
    let (sizes, mut tables, place) = (scene.sizes, scene.tables.clone(), scene.tables.places[TASK]);
    let requests = [Request::Read(0), Request::Write(0, 1)];
    requests.into_iter().for_each(|request| scene.must(TASK, request));
    nanoseconds(|| {
        for request in requests {
            let _ = black_box(ask_library(&mut tables, sizes, TASK, black_box(request)));
        }
        tables.places[TASK] = place;
    })
}

/// A request of the measured task, and the requests that lead to it.
pub struct Call {
    pub name: &'static str,
    before: Vec<Request>,
    request: Request,
}

pub fn calls(address: usize) -> Vec<Call> {
    use Request::*;
    let committing = |steps: usize| [vec![Start, Write(address, 1), Commit], vec![Step; steps]].concat();
    let call = |name, before: &[Request], request| Call { name, before: before.to_vec(), request };
    vec![
        call("start", &[], Start),
        call("read, new address", &[Start], Read(address)),
        call("read, known address", &[Start, Read(address)], Read(address)),
        call("write, new address", &[Start], Write(address, 1)),
        call("write, known address", &[Start, Read(address)], Write(address, 1)),
        call("abort", &[Start, Read(address)], Abort),
        call("commit", &[Start, Read(address)], Commit),
        call("wait", &[Start, Read(address)], Wait),
        call("step that takes a record", &committing(0), Step),
        call("step that decides", &committing(1), Step),
        call("step that writes a word", &committing(2), Step),
        call("step that releases a record", &committing(4), Step),
        call("step that ends", &committing(5), Step),
    ]
}

impl Call {
    /// On the library. After each call what it changed is put back.
    pub fn checked(&self, scene: &Scene) -> f64 {
        let (sizes, address) = (scene.sizes, scene.addresses[0]);
        let mut tables = scene.tables.clone();
        for &request in &self.before {
            assert_eq!(ask_library(&mut tables, sizes, TASK, request).number, 0);
        }
        let record = address % sizes.records;
        let (place, held, word) = (tables.places[TASK], tables.records[record], tables.words[address]);
        nanoseconds(|| {
            let _ = black_box(ask_library(&mut tables, sizes, TASK, black_box(self.request)));
            tables.places[TASK] = place;
            tables.records[record] = held;
            tables.words[address] = word;
        })
    }

    /// On the second machine, which checks nothing.
    pub fn unchecked(&self, scene: &Scene) -> f64 {
        let mut machine = load(scene.sizes, &scene.tables).expect("a reached board is sound");
        for &request in &self.before {
            assert_eq!(machine.ask(TASK, request).0, 0);
        }
        let (address, record) = (scene.addresses[0], scene.addresses[0] % scene.sizes.records);
        let (task, held, word) = (machine.tasks[TASK].clone(), machine.records[record], machine.words[address]);
        nanoseconds(|| {
            black_box(machine.ask(TASK, black_box(self.request)));
            put_back(&mut machine, &task);
            machine.records[record] = held;
            machine.words[address] = word;
        })
    }
}

/// Puts the measured task back without asking for memory.
fn put_back(machine: &mut Machine, as_it_was: &Task) {
    let task = &mut machine.tasks[TASK];
    task.phase = as_it_was.phase;
    task.uses.clear();
    task.uses.extend_from_slice(&as_it_was.uses);
    task.marks.clear();
    task.marks.extend_from_slice(&as_it_was.marks);
}

/// Opening, which writes every place.
pub fn opening(scene: &Scene) -> f64 {
    let mut tables = scene.tables.clone();
    nanoseconds(|| {
        let _ = black_box(tables.open(black_box(scene.sizes), 1));
    })
}

/// The transaction: 4 reads, 2 of the words written, committed. Start, 6 requests, commit, 15 steps.
fn transaction(addresses: [usize; 4], value: u32, mut ask: impl FnMut(Request) -> (u32, u32)) {
    ask(Request::Start);
    let mut sum = value;
    for address in addresses {
        sum = sum.wrapping_add(ask(Request::Read(address)).1);
    }
    ask(Request::Write(addresses[0], sum));
    ask(Request::Write(addresses[1], value));
    ask(Request::Commit);
    let mut number = 0;
    for _ in 0..15 {
        number = ask(Request::Step).0;
    }
    assert_eq!(number, 21);
}

pub fn checked_transaction(scene: &Scene) -> f64 {
    let (mut tables, mut value) = (scene.tables.clone(), 0);
    nanoseconds(|| {
        value += 1;
        transaction(scene.addresses, value, |request| {
            let Answer { number, value } = ask_library(&mut tables, scene.sizes, TASK, request);
            (number, value)
        });
    })
}

pub fn unchecked_transaction(scene: &Scene) -> f64 {
    let mut machine = load(scene.sizes, &scene.tables).expect("a reached board is sound");
    let mut value = 0;
    nanoseconds(|| {
        value += 1;
        transaction(scene.addresses, value, |request| machine.ask(TASK, request));
    })
}

/// The same reads and writes of plain words behind a mutex that nobody else wants.
pub fn mutex_transaction() -> f64 {
    let words = std::sync::Mutex::new(vec![0_u32; 160]);
    let mut value = 0;
    nanoseconds(|| {
        value += 1;
        let mut words = black_box(&words).lock().expect("nobody panics with the lock");
        let sum = words[120].wrapping_add(words[128]).wrapping_add(words[136]).wrapping_add(words[144]);
        words[120] = sum.wrapping_add(value);
        words[128] = value;
    })
}
