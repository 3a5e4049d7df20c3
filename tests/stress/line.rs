//! Transactions that span turns, with labels as whole turns among them, several on a word, under schedules that are
//! chosen to be bad. Each writer adds 1 to each of its words, so that a lost one would be missed.

use crate::random::Random;
use crate::Tally;
use chezumobari::{pass, Board, End, Label, Phase, Refusal, Scheduler, Shared, Sizes, Spanning};
use std::cell::{Cell, RefCell};

const DEALS: usize = 8;
/// No game takes so many turns, unless somebody never comes through.
const MOST_TURNS: u64 = 400_000;

struct Game {
    shared: Shared,
    tally: RefCell<Tally>,
    added: RefCell<Vec<u32>>,
    /// calls of a writer in one turn
    pace: usize,
}

/// Where a writer stood when it first began as the first in line.
#[derive(Default)]
struct First {
    tries: usize,
    k: usize,
    before: usize,
    was_first: bool,
}

impl Game {
    /// The sleepers on these words and the tasks that are on their way, but for one.
    fn in_the_way(&self, task: usize, addresses: &[usize]) -> usize {
        let board = self.shared.board();
        let owners = board.owners(addresses);
        let counts = |&other: &usize| match board.phase(other) {
            Some(Phase::Idle) | None => false,
            Some(Phase::Asleep) => owners.contains(&other),
            Some(_) => other != task,
        };
        (0..board.sizes().tasks).filter(counts).count()
    }

    /// A try begins.
    fn note(&self, first: &mut First, task: usize, addresses: &[usize]) {
        if !first.was_first && self.shared.first_in_line() == Some(task) {
            *first = First { was_first: true, before: first.tries, k: self.in_the_way(task, addresses), ..*first };
        }
        first.tries += 1;
    }

    async fn add_one(&self, t: &Spanning<'_>, addresses: &[usize]) -> Result<End<()>, Refusal> {
        for (i, &address) in addresses.iter().enumerate() {
            let value = t.read(address)?;
            t.write(address, value + 1)?;
            if i % self.pace == 0 {
                pass().await;
            }
        }
        Ok(End::Commit(()))
    }

    async fn writer(&self, task: usize, mut random: Random) {
        for _ in 0..DEALS {
            let words = self.shared.board().sizes().words;
            let mut addresses: Vec<usize> = (0..1 + random.below(4)).map(|_| random.below(words)).collect();
            addresses.sort_unstable();
            addresses.dedup();
            addresses.sort_by_key(|_| random.next());
            let first = RefCell::new(First::default());
            let turn = self.shared.span(task, async |t| {
                self.note(&mut first.borrow_mut(), task, &addresses);
                self.add_one(t, &addresses).await
            });
            let tries = turn.await.expect("a writer comes through").tries;
            let first = first.take();
            if first.was_first {
                self.tally.borrow_mut().through(first.k, tries - first.before);
            }
            for &address in &addresses {
                self.added.borrow_mut()[address] += 1;
            }
        }
    }
}

/// The order in which turns are given.
#[derive(Clone, Copy)]
enum Order {
    Round,
    Backwards,
    Random,
    /// every label after each turn of a writer: the sleepers are always back in time
    LabelsAlways,
    /// one writer is given a turn only when all others have had many
    OneStarved,
}

fn order(order: Order, turn: u64, count: usize, writers: usize, random: &mut Random) -> usize {
    let labels = count - writers;
    let turn = turn as usize;
    match order {
        Order::Round => turn % count,
        Order::Backwards => count - 1 - turn % count,
        Order::Random => random.below(count),
        Order::LabelsAlways if labels > 0 && turn % (labels + 1) > 0 => writers + turn % (labels + 1) - 1,
        Order::LabelsAlways => turn / (labels + 1) % writers,
        Order::OneStarved if turn % (20 * count) == 0 => 0,
        Order::OneStarved => 1 + turn % (count - 1),
    }
}

fn game(seed: u64, tally: Tally) -> Tally {
    let mut random = Random::from_seed(seed);
    let (writers, words) = (2 + random.below(6), 1 + random.below(12));
    let labels = random.below(2 * words + 1);
    let board = Board::open(Sizes { words, records: words, tasks: writers + labels }, 1).unwrap();
    let shared = if random.once_in(2) { Shared::new(board).with_steps_apart() } else { Shared::new(board) };
    let game =
        Game { shared, tally: RefCell::new(tally), added: RefCell::new(vec![0; words]), pace: 1 + random.below(3) };
    let said = Cell::new(0);
    let mut scheduler = Scheduler::new(&game.shared);
    for task in 0..writers {
        scheduler.add(task, game.writer(task, Random::from_seed(random.next())));
    }
    for which in 0..labels {
        let (game, said) = (&game, &said);
        // the first ones have a word each, and the others two, which are those of others too
        let (one, other) = (which % words, (which + which / words) % words);
        let label = Label::new(writers + which, move |open| Ok([open.read(one)?, open.read(other)?]));
        let speak = move |&values: &[u32; 2]| {
            assert_eq!(values, [one, other].map(|word| game.shared.look(word).unwrap().value));
            said.set(said.get() + 1);
        };
        scheduler.add(writers + which, async move { game.shared.label(label, speak).await.expect("a label goes on") });
    }
    let orders = [Order::Round, Order::Backwards, Order::Random, Order::LabelsAlways, Order::OneStarved];
    let chosen = random.one_of(&orders);
    for turn in 0.. {
        assert!(turn < MOST_TURNS, "game {seed} does not end");
        scheduler.give(order(chosen, turn, writers + labels, writers, &mut random));
        if turn % 64 == 0 && (0..writers).all(|writer| scheduler.has_ended(writer)) {
            break;
        }
    }
    // everybody has had the chance to say the last change
    while scheduler.turn().is_some() {}
    drop(scheduler);
    for word in 0..words {
        assert_eq!(game.shared.look(word).unwrap().value, game.added.borrow()[word], "game {seed} lost a deal");
    }
    game.tally.into_inner()
}

pub fn games(games: u64) -> Tally {
    (0..games).fold(Tally::default(), |tally, seed| game(seed, tally))
}
