//! Several asleep on one record: the specification's positions of lists, labels on one tile, and what a turn takes
//! that meets them.

use chezumobari::{Board, End, Label, Outcome, Phase, Progress, Refusal, Sizes};

const GOING: Result<Progress, Refusal> = Ok(Progress::Going);

fn ended(outcome: Outcome) -> Result<Progress, Refusal> {
    Ok(Progress::Ended(outcome))
}

/// A task reads these words and asks to sleep on them.
fn would_sleep(board: &mut Board, task: usize, words: &[usize]) {
    board.task(task).start().unwrap();
    for &word in words {
        board.task(task).read(word).unwrap();
    }
    board.task(task).wait().unwrap();
}

/// Each word has a record of its own, and these tasks sleep on these words.
fn with_sleepers(sleepers: &[(usize, &[usize])]) -> Board {
    let mut board = Board::open(Sizes { words: 4, records: 4, tasks: 5 }, 1).unwrap();
    for &(task, words) in sleepers {
        would_sleep(&mut board, task, words);
        assert_eq!(board.task(task).settle(), Ok(Progress::Asleep));
    }
    board
}

fn commits(board: &mut Board, task: usize, address: usize) {
    board.task(task).start().unwrap();
    board.task(task).write(address, 7).unwrap();
    board.task(task).commit().unwrap();
}

#[test]
fn two_sleep_on_one_record_and_are_woken_together() {
    let mut board = with_sleepers(&[(1, &[2]), (3, &[2])]);
    assert_eq!((board.list(1), board.list(3)), (vec![3], vec![]));
    assert_eq!(board.owners(&[2]), [1]);
    commits(&mut board, 0, 2);
    assert_eq!(board.task(0).step(), GOING);
    assert_eq!([1, 3].map(|task| board.phase(task)), [Some(Phase::ReleasingWoken); 2]);
    assert_eq!(board.list(1), []);
    for task in [3, 1] {
        assert_eq!(board.task(task).step(), GOING);
        assert_eq!(board.task(task).step(), ended(Outcome::Woken));
    }
}

/// Task 2 joined task 1 at word 0, and owns word 3. Task 4 joined task 2 there.
#[test]
fn a_chain_goes_through_one_that_owns_another_record() {
    let mut board = with_sleepers(&[(1, &[0]), (2, &[0, 3]), (4, &[3])]);
    assert_eq!([1, 2, 4].map(|task| board.list(task)), [vec![2], vec![4], vec![]]);
    assert_eq!((board.woken_by(&[0]), board.woken_by(&[3]), board.woken_by(&[1])), (vec![1, 2, 4], vec![2, 4], vec![]));
    let mut from_the_middle = board.clone();
    commits(&mut board, 0, 0);
    assert_eq!(board.task(0).step(), GOING);
    assert_eq!([1, 2, 4].map(|task| board.phase(task)), [Some(Phase::ReleasingWoken); 3]);
    // one that comes to the middle of the chain wakes it from there on, and the first sleeps on
    let board = &mut from_the_middle;
    commits(board, 0, 3);
    assert_eq!(board.task(0).step(), GOING);
    assert_eq!([2, 4].map(|task| board.phase(task)), [Some(Phase::ReleasingWoken); 2]);
    // it is still on the list of the first, until it is idle
    assert_eq!((board.phase(1), board.list(1), board.list(2)), (Some(Phase::Asleep), vec![2], vec![]));
    assert_eq!(board.task(2).settle(), ended(Outcome::Woken));
    assert_eq!(board.list(1), []);
}

/// Task 2 has joined task 1 and would go on, when the one that it joined is woken.
#[test]
fn one_that_is_still_taking_fails_with_the_one_that_it_joined() {
    let mut board = with_sleepers(&[(1, &[0])]);
    would_sleep(&mut board, 2, &[0, 3]);
    assert_eq!(board.task(2).step(), GOING);
    assert_eq!((board.phase(2), board.list(1)), (Some(Phase::TakingToSleep), vec![2]));
    commits(&mut board, 0, 0);
    assert_eq!(board.task(0).step(), GOING);
    assert_eq!([1, 2].map(|task| board.phase(task)), [Some(Phase::ReleasingWoken), Some(Phase::ReleasingFailed)]);
    assert_eq!(board.list(1), []);
    assert_eq!(board.task(2).settle(), ended(Outcome::Failed));
}

/// Task 2 joins task 1, and fails by itself at its next word. What wakes task 1 then finds it releasing.
#[test]
fn one_that_fails_stays_on_the_list_until_it_is_idle() {
    let mut board = with_sleepers(&[(1, &[0])]);
    would_sleep(&mut board, 2, &[0, 3]);
    commits(&mut board, 0, 3);
    assert_eq!(board.task(0).step(), GOING);
    assert_eq!((board.task(2).step(), board.task(2).step()), (GOING, GOING));
    assert_eq!((board.phase(2), board.list(1)), (Some(Phase::ReleasingFailed), vec![2]));
    assert_eq!(board.phase(1), Some(Phase::Asleep));
    let mut woken = board.clone();
    commits(&mut woken, 3, 0);
    assert_eq!(woken.task(3).step(), GOING);
    assert_eq!([1, 2].map(|task| woken.phase(task)), [Some(Phase::ReleasingWoken), Some(Phase::ReleasingFailed)]);
    assert_eq!(woken.list(1), []);
    assert_eq!(board.task(2).settle(), ended(Outcome::Failed));
    assert_eq!(board.list(1), []);
}

/// Task 2 has read word 0 before it changed, and task 1 sleeps on it as it is now.
#[test]
fn one_with_another_version_fails_alone() {
    let mut board = with_sleepers(&[]);
    would_sleep(&mut board, 2, &[0]);
    commits(&mut board, 0, 0);
    assert_eq!(board.task(0).settle(), ended(Outcome::Committed));
    would_sleep(&mut board, 1, &[0]);
    assert_eq!(board.task(1).settle(), Ok(Progress::Asleep));
    assert_eq!(board.task(2).step(), GOING);
    assert_eq!((board.phase(1), board.phase(2)), (Some(Phase::Asleep), Some(Phase::ReleasingFailed)));
    assert_eq!(board.list(1), []);
}

/// Only a sleeper is joined. Two that take for sleep at the same time fail each other.
#[test]
fn nobody_joins_one_that_is_still_taking() {
    let mut board = with_sleepers(&[]);
    would_sleep(&mut board, 1, &[0, 1]);
    would_sleep(&mut board, 2, &[0]);
    assert_eq!((board.task(1).step(), board.task(2).step()), (GOING, GOING));
    assert_eq!([1, 2].map(|task| board.phase(task)), [Some(Phase::ReleasingFailed); 2]);
}

/// A tile of two words, with three labels on it. Each reads the words in an order of its own.
#[test]
fn labels_on_one_tile_do_not_wake_each_other() {
    let mut board = with_sleepers(&[]);
    let orders = [[0, 1], [1, 0], [0, 1]];
    let read =
        |words: [usize; 2]| move |open: &mut chezumobari::Open<'_>| Ok(open.read(words[0])? + open.read(words[1])?);
    let mut labels: Vec<_> = orders.iter().enumerate().map(|(task, &words)| Label::new(task, read(words))).collect();
    for round in 0..9 {
        let (trade, news) = (round % 3 == 2, (round % 3 == 0).then_some(round / 3));
        for label in &mut labels {
            assert_eq!(label.turn(&mut board), Ok(news.as_ref()));
        }
        assert!((0..3).all(|task| board.phase(task) == Some(Phase::Asleep)));
        if trade {
            // one owns both words of the tile, so that there is one in the way
            let turn = board.turn(4, |open| Ok(End::Commit(open.write(1, round / 3 + 1)?))).unwrap();
            assert_eq!(turn.tries, 2);
        }
    }
}

/// The most calls are reached: the trade comes to the last of its words when it meets the first sleeper, and all
/// that slept with this one are stepped to their ends.
#[test]
fn a_turn_counts_the_steps_of_those_who_joined() {
    let mut board = with_sleepers(&[(1, &[3]), (2, &[3, 1]), (3, &[1, 3]), (4, &[3])]);
    assert_eq!((board.list(1), board.list(2)), (vec![2, 3, 4], vec![3]));
    assert_eq!(board.owners(&[0, 2, 3]), [1]);
    let longest = board.longest_turn(&[0, 2, 3]);
    let turn = board.turn(0, |open| {
        for word in [0, 2, 3] {
            let value = open.read(word)?;
            open.write(word, value + 1)?;
        }
        Ok(End::Commit(()))
    });
    let turn = turn.unwrap();
    assert_eq!((turn.tries, turn.calls), (longest.tries, longest.calls));
    // 15 to fail and 20 to commit, and one more than its words for each of the four
    assert_eq!((turn.tries, turn.calls), (2, 15 + 20 + 2 + 3 + 3 + 2));
}
