//! Saved boards: what is loaded is what was saved, also in version 1 of the format, and damage is refused.

use chezumobari::{Board, End, Label, NotLoaded, Phase, Sizes, Tables, ENTRIES_PER_TASK, PLACE_WIDTH};

/// The board of `tests/saved.c`: a label asleep on two words, a transaction that is open, and one that
/// has decided and written nothing yet.
fn in_the_middle() -> Board {
    let mut board = Board::open(Sizes { words: 6, records: 5, tasks: 3 }, 7).unwrap();
    board.turn(0, |open| Ok(End::Sleep(open.read(0)? + open.read(1)?))).unwrap();
    board.task(1).start().unwrap();
    board.task(1).write(2, 3_000_000_000).unwrap();
    board.task(2).start().unwrap();
    board.task(2).write(3, 65_535).unwrap();
    board.task(2).commit().unwrap();
    let _ = board.task(2).step().unwrap();
    let _ = board.task(2).step().unwrap();
    board
}

#[test]
fn a_loaded_board_is_the_saved_one() {
    let board = in_the_middle();
    let bytes = board.save().unwrap();
    assert_eq!(Board::load(&bytes), Ok(board));
}

/// Puts the checksum over all that stands before it.
fn sum_up(bytes: &mut [u8]) {
    let body = bytes.len() - 8;
    let sum = bytes[..body]
        .iter()
        .fold(0xcbf2_9ce4_8422_2325_u64, |sum, &byte| (sum ^ u64::from(byte)).wrapping_mul(0x0100_0000_01b3));
    bytes[body..].copy_from_slice(&sum.to_le_bytes());
}

/// Where the tasks' rows begin.
fn places(board: &Board) -> usize {
    24 + 4 * (board.sizes().words + board.sizes().records)
}

/// The board as version 1 of the format had it: each task's row without its last number.
fn saved_in_version_1(board: &Board) -> Vec<u8> {
    let bytes = board.save().unwrap();
    let (head, rest) = bytes.split_at(places(board));
    let (rows, entries) = rest.split_at(4 * PLACE_WIDTH * board.sizes().tasks);
    let shorter: Vec<u8> = rows.chunks(4 * PLACE_WIDTH).flat_map(|row| &row[..12]).copied().collect();
    let mut bytes = [head, &shorter, entries].concat();
    bytes[8] = 1;
    sum_up(&mut bytes);
    bytes
}

/// `tests/saved.expected` says the same of the bytes that C writes. Those of version 1 have the length and the
/// checksum that were there when it was the version.
#[test]
fn c_and_rust_write_the_same_bytes() {
    let board = in_the_middle();
    for (bytes, version) in [(board.save().unwrap(), ""), (saved_in_version_1(&board), " in version 1")] {
        let (body, sum) = bytes.split_at(bytes.len() - 8);
        let sum = u64::from_le_bytes(sum.try_into().unwrap());
        let said = format!("{} bytes{version}, checksum {sum:016x}", bytes.len());
        let expected = include_str!("saved.expected");
        assert!(expected.lines().any(|line| line == said), "{said}");
        assert!(body.starts_with(b"chezumob"));
    }
}

#[test]
fn a_board_of_version_1_is_loaded() {
    let board = in_the_middle();
    let bytes = saved_in_version_1(&board);
    for at in 12..bytes.len() {
        let mut damaged = bytes.clone();
        damaged[at] ^= 1;
        assert_eq!(Board::load(&damaged), Err(NotLoaded::Damaged));
    }
    let mut of_the_other_length = bytes.clone();
    of_the_other_length[8] = 2;
    sum_up(&mut of_the_other_length);
    assert_eq!(Board::load(&of_the_other_length), Err(NotLoaded::Damaged));
    assert_eq!(Board::load(&bytes), Ok(board));
}

#[test]
fn lists_are_saved() {
    let mut board = Board::open(Sizes { words: 2, records: 2, tasks: 4 }, 1).unwrap();
    for (label, words) in [(2, &[0][..]), (0, &[1, 0]), (3, &[1])] {
        let slept =
            board.turn(label, |open| Ok(End::Sleep(words.iter().try_for_each(|&word| open.read(word).map(drop))?)));
        assert_eq!(slept.unwrap().tries, 1);
    }
    let mut loaded = Board::load(&board.save().unwrap()).unwrap();
    assert_eq!(loaded, board);
    assert_eq!([0, 2, 3].map(|label| loaded.list(label)), [vec![3], vec![0], vec![]]);
    let turn = loaded.turn(1, |open| Ok(End::Commit(open.write(0, 5)?))).unwrap();
    assert_eq!(turn.tries, 2);
    assert!([0, 2, 3].iter().all(|&label| loaded.phase(label) == Some(Phase::Idle)));
}

#[test]
fn a_saved_sleeper_sleeps_on() {
    let mut board = Board::load(&in_the_middle().save().unwrap()).unwrap();
    board.calm_down().unwrap();
    assert_eq!([0, 1, 2].map(|task| board.phase(task)), [Some(Phase::Asleep), Some(Phase::Idle), Some(Phase::Idle)]);
    assert_eq!([2, 3].map(|address| board.look(address).unwrap().value), [0, 65_535]);
    let mut label = Label::new(0, |open| Ok(open.read(0)? + open.read(1)?)).having_said(0);
    assert_eq!(label.turn(&mut board), Ok(None));
    let turn = board.turn(1, |open| Ok(End::Commit(open.write(1, 5)?))).unwrap();
    assert_eq!(turn.tries, 2);
    assert_eq!(label.turn(&mut board), Ok(Some(&5)));
}

#[test]
fn damage_is_refused() {
    let bytes = in_the_middle().save().unwrap();
    for at in 0..bytes.len() {
        for change in [1, 128, 255] {
            let mut damaged = bytes.clone();
            damaged[at] ^= change;
            let why = Board::load(&damaged).unwrap_err();
            match at {
                0..8 => assert_eq!(why, NotLoaded::NotABoard),
                8..12 => assert!(matches!(why, NotLoaded::OtherVersion(_))),
                _ => assert_eq!(why, NotLoaded::Damaged),
            }
        }
        assert!(Board::load(&bytes[..at]).is_err());
    }
    let longer = [&bytes[..], &[0]].concat();
    assert_eq!(Board::load(&longer), Err(NotLoaded::Damaged));
    assert_eq!(Board::load(&[]), Err(NotLoaded::NotABoard));
}

/// Bytes with a checksum that fits are loaded only if the tables in them are sound.
#[test]
fn what_is_unsound_is_neither_saved_nor_loaded() {
    let board = in_the_middle();
    let too_many = ENTRIES_PER_TASK as u32 + 1;
    let mut tables = board.tables().clone();
    tables.places[1] = [too_many, 1, 0, 0];
    assert!(Board::from_tables(board.sizes(), tables).save().is_err());
    assert!(Board::from_tables(board.sizes(), Tables::default()).save().is_err());

    let mut forged = board.save().unwrap();
    let count = places(&board) + 4 * PLACE_WIDTH; // the second task's
    forged[count..][..4].copy_from_slice(&too_many.to_le_bytes());
    sum_up(&mut forged);
    assert_eq!(Board::load(&forged), Err(NotLoaded::Unsound));
}
