//! Whole turns and the line: what a turn leaves behind, however it ends.

use chezumobari::{
    pass, Board, End, Ended, Label, Outcome, Phase, Progress, Refusal, Scheduler, Shared, Sizes, TOP_VERSION,
};
use std::cell::{Cell, RefCell};
use std::panic::{catch_unwind, AssertUnwindSafe};

fn board(words: usize, tasks: usize) -> Board {
    Board::open(Sizes { words, records: words, tasks }, 1).unwrap()
}

#[test]
fn a_turn_counts_its_tries_and_calls() {
    let mut board = board(4, 4);
    for task in 1..4 {
        let turn = board.turn(task, |open| Ok(End::Sleep(open.read(task)?))).unwrap();
        // start, read, wait, one record, asleep
        assert_eq!((turn.ended, turn.tries, turn.calls), (Ended::Asleep, 1, 5));
    }
    let longest = board.longest_turn(&[1, 2, 3]);
    let mut runs = 0;
    let turn = board.turn(0, |open| {
        runs += 1;
        for address in 1..4 {
            let value = open.read(address)?;
            open.write(address, value + 1)?;
        }
        Ok(End::Commit(()))
    });
    let turn = turn.unwrap();
    assert_eq!((turn.ended, turn.tries, runs), (Ended::Committed, 4, 4));
    assert_eq!(longest.tries, 4);
    assert!(turn.calls <= longest.calls, "{} calls, and {} at the most", turn.calls, longest.calls);
    assert!(board.is_calm());
    assert!((1..4).all(|task| board.phase(task) == Some(Phase::Idle)));
}

#[test]
fn no_early_end_leaves_a_task_open() {
    let mut board = board(4, 2);
    let before = board.clone();
    assert_eq!(board.turn(0, |open| Ok(End::Commit(open.read(4)?))), Err(Refusal::NoSuchAddress));
    assert_eq!(board.turn(0, |_| Ok(End::Sleep(()))), Err(Refusal::NothingToSleepOn));
    assert_eq!(board.turn(2, |_| Ok(End::Commit(()))), Err(Refusal::NoSuchTask));
    let gave_up = board.turn(0, |open| {
        open.write(1, 7)?;
        Ok(End::Abort("too dear"))
    });
    assert_eq!(gave_up.map(|turn| (turn.value, turn.ended)), Ok(("too dear", Ended::Aborted)));
    let fell = catch_unwind(AssertUnwindSafe(|| {
        let _ = board.turn(0, |open| -> Result<End<()>, Refusal> {
            open.write(1, 7)?;
            panic!("in the middle")
        });
    }));
    assert!(fell.is_err());
    assert!(board.is_calm());
    assert!((0..4).all(|address| board.look(address) == before.look(address)));
}

#[test]
fn versions_used_up_end_a_turn() {
    let mut board = Board::open(Sizes { words: 2, records: 2, tasks: 2 }, TOP_VERSION).unwrap();
    assert_eq!(board.turn(0, |open| Ok(End::Commit(open.write(0, 1)?))), Err(Refusal::VersionsUsedUp));
    assert!(board.is_calm());
}

#[test]
fn a_sleeper_has_no_turn() {
    let mut board = board(2, 2);
    board.turn(0, |open| Ok(End::Sleep(open.read(0)?))).unwrap();
    assert_eq!(board.turn(0, |open| Ok(End::Commit(open.read(0)?))), Err(Refusal::WrongPhase));
    assert_eq!(board.phase(0), Some(Phase::Asleep));
}

#[test]
fn a_label_speaks_what_is_news() {
    let mut board = board(2, 2);
    let mut label = Label::new(0, |open| open.read(0)).having_said(0);
    assert_eq!(label.turn(&mut board), Ok(None));
    board.turn(1, |open| Ok(End::Commit(open.write(0, 0)?))).unwrap();
    assert_eq!(label.turn(&mut board), Ok(None));
    board.turn(1, |open| Ok(End::Commit(open.write(0, 5)?))).unwrap();
    assert_eq!(label.turn(&mut board), Ok(Some(&5)));
    assert_eq!(label.said(), Some(&5));
}

#[test]
fn a_board_in_the_middle_is_calmed_down() {
    let mut board = board(4, 4);
    for (task, address) in [(0, 0), (1, 1), (2, 0)] {
        board.task(task).start().unwrap();
        board.task(task).write(address, 3).unwrap();
    }
    board.task(0).commit().unwrap();
    let _ = board.task(0).step().unwrap();
    board.task(2).commit().unwrap();
    board.turn(3, |open| Ok(End::Sleep(open.read(3)?))).unwrap();
    board.calm_down().unwrap();
    assert!(board.is_calm());
    assert_eq!(board.phase(3), Some(Phase::Asleep));
}

/// A task without the rule: one call a turn, and after a failure it begins again at once.
struct Naive {
    uses: Vec<usize>,
    writes: bool,
    at: usize,
    committed: usize,
}

impl Naive {
    fn turn(&mut self, board: &mut Board, task: usize) {
        let phase = board.phase(task);
        let mut handle = board.task(task);
        let last = self.uses.len();
        match (phase.unwrap(), self.at) {
            (Phase::Asleep, _) => {}
            (Phase::Idle, _) => {
                handle.start().unwrap();
                self.at = 0;
            }
            (Phase::Open, at) if at == last && self.writes => handle.commit().unwrap(),
            (Phase::Open, at) if at == last => handle.wait().unwrap(),
            (Phase::Open, at) => {
                self.at += 1;
                if self.writes {
                    handle.write(self.uses[at], 1).unwrap();
                } else {
                    handle.read(self.uses[at]).unwrap();
                }
            }
            _ => self.committed += usize::from(handle.step().unwrap() == Progress::Ended(Outcome::Committed)),
        }
    }
}

/// How often the tasks commit in 10,000 rounds.
fn without_the_rule(tasks: &mut [Naive]) -> usize {
    let mut board = board(3, tasks.len());
    for _ in 0..10_000 {
        for (task, naive) in tasks.iter_mut().enumerate() {
            naive.turn(&mut board, task);
        }
    }
    tasks.iter().map(|naive| naive.committed).sum()
}

fn naive(uses: &[usize], writes: bool) -> Naive {
    Naive { uses: uses.to_vec(), writes, at: 0, committed: 0 }
}

/// Why whole turns: the trade wakes the label and fails, and the label is back before the next commit.
#[test]
fn without_the_rule_one_label_stops_a_trade() {
    let tasks = &mut [naive(&[0], false), naive(&[1, 2, 0], true)];
    assert_eq!(without_the_rule(tasks), 0);
}

/// Each has its first word when one comes to its second. Both fail, and meet in the same place again.
#[test]
fn without_the_rule_two_writers_stop_each_other() {
    let tasks = &mut [naive(&[0, 1], true), naive(&[1, 0], true)];
    assert_eq!(without_the_rule(tasks), 0);
}

/// Task 0 spans turns; task 1 is a whole turn that comes in between, and wins.
#[test]
fn a_transaction_that_was_overtaken_goes_first_next_time() {
    let shared = Shared::new(board(2, 2));
    let order = RefCell::new(Vec::new());
    let mut scheduler = Scheduler::new(&shared);
    let add = |address| {
        move |open: &mut chezumobari::Open<'_>| {
            let value = open.read(address)?;
            open.write(address, value + 1)?;
            Ok(End::Commit(()))
        }
    };
    scheduler.add(0, async {
        let turn = shared
            .span(0, async |t| {
                let value = t.read(0)?;
                pass().await;
                t.write(0, value + 10)?;
                Ok(End::Commit(()))
            })
            .await;
        order.borrow_mut().push(("span", turn.unwrap().tries));
    });
    scheduler.add(1, async {
        for _ in 0..5 {
            let turn = shared.turn(1, add(0)).await;
            order.borrow_mut().push(("turn", turn.unwrap().tries));
        }
    });
    while scheduler.turn().is_some() {}
    drop(scheduler);
    assert_eq!(shared.look(0).unwrap().value, 15);
    // the first whole turn wins; then the one that failed has the way, and the others wait
    assert_eq!(order.take(), [("turn", 1), ("span", 2), ("turn", 1), ("turn", 1), ("turn", 1), ("turn", 1)]);
}

/// Steps one at a time: two that cross fail each other once, and the line brings both through.
#[test]
fn writers_that_cross_come_through() {
    let shared = Shared::new(board(2, 2)).with_steps_apart();
    let tries = Cell::new(0);
    let mut scheduler = Scheduler::new(&shared);
    for (task, addresses) in [(0, [0, 1]), (1, [1, 0])] {
        let (shared, tries) = (&shared, &tries);
        scheduler.add(task, async move {
            for _ in 0..20 {
                let turn = shared.span(task, async |t| {
                    for address in addresses {
                        let value = t.read(address)?;
                        t.write(address, value + 1)?;
                        pass().await;
                    }
                    Ok(End::Commit(()))
                });
                let tried = turn.await.unwrap().tries;
                tries.set(tries.get() + tried);
            }
        });
    }
    for _ in 0..10_000 {
        if scheduler.turn().is_none() {
            break;
        }
    }
    assert!(scheduler.has_ended(0) && scheduler.has_ended(1));
    drop(scheduler);
    assert_eq!([0, 1].map(|address| shared.look(address).unwrap().value), [40, 40]);
    assert!(tries.get() > 40, "they do cross");
}

#[test]
fn a_future_that_is_dropped_leaves_nothing_behind() {
    for turns in 0..8 {
        let shared = Shared::new(board(2, 2)).with_steps_apart();
        let mut scheduler = Scheduler::new(&shared);
        scheduler.add(0, async {
            let _ = shared
                .span(0, async |t| {
                    t.write(0, 1)?;
                    pass().await;
                    t.write(1, 1)?;
                    Ok(End::Commit(()))
                })
                .await;
        });
        for _ in 0..turns {
            scheduler.turn();
        }
        drop(scheduler);
        assert!(shared.board().is_calm(), "dropped after {turns} turns");
        let mut board = shared.into_board();
        let turn = board.turn(1, |open| Ok(End::Commit(open.write(0, 2)?))).unwrap();
        assert_eq!(turn.tries, 1);
    }
}
