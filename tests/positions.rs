//! The specification's positions K1 to K11 and its limits, through the safe wrapper. `lists.rs` has those of lists.

use chezumobari::{
    Board, Outcome, Phase, Progress, Refusal, Seen, Sizes, Tables, ENTRIES_PER_TASK, MOST_RECORDS, MOST_TASKS,
    MOST_WORDS, TOP_VERSION,
};

const SMALL: Sizes = Sizes { words: 4, records: 2, tasks: 2 };
const GOING: Result<Progress, Refusal> = Ok(Progress::Going);

fn fresh() -> Board {
    Board::open(SMALL, 1).unwrap()
}

fn seen(board: &Board, address: usize) -> (u32, u32) {
    let Seen { value, version } = board.look(address).unwrap();
    (value, version)
}

fn ended(outcome: Outcome) -> Result<Progress, Refusal> {
    Ok(Progress::Ended(outcome))
}

/// Task 0 writes 7 at 1 and asks to commit.
fn writes_seven(board: &mut Board) {
    board.task(0).start().unwrap();
    board.task(0).write(1, 7).unwrap();
    board.task(0).commit().unwrap();
}

#[test]
fn k1_fresh() {
    assert_eq!(seen(&fresh(), 3), (0, 1));
}

#[test]
fn k2_own_write_is_read() {
    let mut board = fresh();
    board.task(0).start().unwrap();
    board.task(0).write(1, 7).unwrap();
    board.task(1).start().unwrap();
    assert_eq!(board.task(0).read(1), Ok(7));
    assert_eq!(board.task(1).read(1), Ok(0));
}

#[test]
fn k3_k4_k5_a_commit_step_by_step() {
    let mut board = fresh();
    writes_seven(&mut board);
    assert_eq!(board.task(0).step(), GOING);
    assert_eq!((seen(&board, 1), seen(&board, 3)), ((0, 1), (0, 1)));
    assert_eq!(board.task(0).step(), GOING);
    assert_eq!((seen(&board, 1), seen(&board, 3)), ((7, 2), (0, 2)));
    assert_eq!(board.tables().words[1], 0);
    for _ in 3..6 {
        assert_eq!(board.task(0).step(), GOING);
    }
    assert_eq!(board.task(0).step(), ended(Outcome::Committed));
    assert_eq!(board.tables().records[1], 2);
}

#[test]
fn k6_overtaken() {
    let mut board = fresh();
    board.task(1).start().unwrap();
    board.task(1).read(1).unwrap();
    writes_seven(&mut board);
    assert_eq!(board.task(0).settle(), ended(Outcome::Committed));
    assert_eq!(board.task(1).read(3), Err(Refusal::Overtaken));
    assert_eq!(board.phase(1), Some(Phase::Idle));
}

#[test]
fn k7_a_late_commit_fails() {
    let mut board = fresh();
    board.task(1).start().unwrap();
    board.task(1).read(1).unwrap();
    writes_seven(&mut board);
    assert_eq!(board.task(0).settle(), ended(Outcome::Committed));
    board.task(1).commit().unwrap();
    assert_eq!(board.task(1).step(), GOING);
    assert_eq!(board.task(1).step(), GOING);
    assert_eq!(board.task(1).step(), ended(Outcome::Failed));
}

#[test]
fn k8_a_sleeper_is_woken() {
    let mut board = fresh();
    board.task(1).start().unwrap();
    board.task(1).read(1).unwrap();
    board.task(1).wait().unwrap();
    assert_eq!(board.task(1).step(), GOING);
    assert_eq!(board.task(1).step(), Ok(Progress::Asleep));
    board.task(0).start().unwrap();
    board.task(0).write(3, 7).unwrap();
    board.task(0).commit().unwrap();
    assert_eq!(board.task(0).step(), GOING);
    assert_eq!(board.phase(0), Some(Phase::ReleasingFailed));
    assert_eq!(board.phase(1), Some(Phase::ReleasingWoken));
    assert_eq!(board.task(1).step(), GOING);
    assert_eq!(board.task(1).step(), ended(Outcome::Woken));
    assert_eq!(board.task(0).step(), GOING);
    assert_eq!(board.task(0).step(), ended(Outcome::Failed));
    assert!((0..4).all(|address| seen(&board, address) == (0, 1)));
}

#[test]
fn k9_k10_no_entries() {
    let mut board = fresh();
    board.task(0).start().unwrap();
    assert_eq!(board.task(0).wait(), Err(Refusal::NothingToSleepOn));
    board.task(0).commit().unwrap();
    assert_eq!(board.task(0).step(), GOING);
    assert_eq!(board.task(0).step(), GOING);
    assert_eq!(board.task(0).step(), ended(Outcome::Committed));
}

#[test]
fn k11_versions_used_up() {
    let mut board = Board::open(SMALL, TOP_VERSION).unwrap();
    board.task(0).start().unwrap();
    assert_eq!(board.task(0).read(1), Ok(0));
    assert_eq!(board.task(0).write(1, 7), Err(Refusal::VersionsUsedUp));
}

#[test]
fn one_address_too_many_is_refused() {
    let mut board = Board::open(Sizes { words: 100, records: 10, tasks: 1 }, 1).unwrap();
    board.task(0).start().unwrap();
    for address in 0..ENTRIES_PER_TASK {
        assert_eq!(board.task(0).read(address), Ok(0));
    }
    assert_eq!(board.task(0).read(ENTRIES_PER_TASK), Err(Refusal::Full));
    assert_eq!(board.task(0).write(ENTRIES_PER_TASK, 1), Err(Refusal::Full));
    assert_eq!(board.task(0).write(ENTRIES_PER_TASK - 1, 5), Ok(()));
    assert_eq!(board.task(0).read(ENTRIES_PER_TASK - 1), Ok(5));
}

#[test]
fn sizes_at_their_limits() {
    let opens = |words, records, tasks, first| Board::open(Sizes { words, records, tasks }, first).map(|_| ());
    assert_eq!(opens(1, 1, 1, 1), Ok(()));
    assert_eq!(opens(MOST_WORDS, MOST_RECORDS, MOST_TASKS, TOP_VERSION), Ok(()));
    let refused = [
        (0, 1, 1, 1),
        (1, 0, 1, 1),
        (1, 1, 0, 1),
        (1, 1, 1, 0),
        (MOST_WORDS + 1, 1, 1, 1),
        (1, MOST_RECORDS + 1, 1, 1),
        (1, 1, MOST_TASKS + 1, 1),
        (1, 1, 1, TOP_VERSION + 1),
        (usize::MAX, usize::MAX, usize::MAX, 1),
    ];
    for (words, records, tasks, first) in refused {
        assert_eq!(opens(words, records, tasks, first), Err(Refusal::OutOfRange));
    }
}

#[test]
fn tables_from_elsewhere_are_checked() {
    let board = fresh();
    assert_eq!(Board::from_tables(SMALL, board.tables().clone()), board);
    let mut damaged = board.tables().clone();
    damaged.places[1] = [ENTRIES_PER_TASK as u32 + 1, 1, 0, 0];
    let mut board = Board::from_tables(SMALL, damaged.clone());
    assert_eq!(board.look(0), Err(Refusal::Unsound));
    assert_eq!(board.task(0).start(), Err(Refusal::Unsound));
    assert_eq!(*board.tables(), damaged);
    let mut empty = Board::from_tables(SMALL, Tables::default());
    assert_eq!(empty.task(0).step(), Err(Refusal::Unsound));
    assert_eq!(empty.phase(0), None);
}

#[test]
fn refusals_have_their_numbers() {
    for number in 1..=9 {
        assert_eq!(Refusal::from_number(number).map(Refusal::number), Some(number));
    }
    assert_eq!(Refusal::from_number(0), None);
    assert_eq!(Refusal::from_number(20), None);
}
