//! A label task that sleeps on its tile. A trade wakes it, and it speaks the new text.

use chezumobari::{Board, End, Label, Open, Refusal, Sizes};

const OWNER: usize = 0;
const HOUSES: usize = 1;
const MORTGAGED: usize = 2;
const LABEL: usize = 0;
const TRADE: usize = 1;
const PLAYER: [&str; 3] = ["nobody", "Amina", "Baraka"];

/// The text of the tile. The label reads it and sleeps on it, and it is spoken then: it is the board,
/// and stays the board until the label is woken.
fn tile_in_words(open: &mut Open) -> Result<String, Refusal> {
    let (owner, houses) = (open.read(OWNER)?, open.read(HOUSES)?);
    let mortgaged = if open.read(MORTGAGED)? == 1 { " Mortgaged." } else { "" };
    Ok(format!("Harbour Street. Owner: {}. Houses: {houses}.{mortgaged}", PLAYER[owner as usize]))
}

/// The tile changes hands and its mortgage changes, both at once. Answers how often it was tried.
fn trade(board: &mut Board, owner: u32, mortgaged: u32) -> Result<usize, Refusal> {
    let turn = board.turn(TRADE, |open| {
        open.write(OWNER, owner)?;
        open.write(MORTGAGED, mortgaged)?;
        Ok(End::Commit(()))
    })?;
    Ok(turn.tries)
}

/// Looks at the words that the program was started with. It takes none but --help.
fn look_at_words() {
    match std::env::args().nth(1).as_deref() {
        None => {}
        Some("--help") => {
            println!("label: a label sleeps on its tile, a trade wakes it, and it speaks the new text. It takes no argument.");
            std::process::exit(0)
        }
        Some(word) => {
            eprintln!("label: it takes no argument, and {word} was given");
            std::process::exit(2)
        }
    }
}

fn main() -> Result<(), Refusal> {
    look_at_words();
    let mut board = Board::open(Sizes { words: 3, records: 3, tasks: 2 }, 1)?;
    let mut label = Label::new(LABEL, tile_in_words);
    // Before the evening: Amina has the tile, mortgaged.
    trade(&mut board, 1, 1)?;
    for round in 0..10 {
        if round == 5 {
            // Baraka gets the tile and pays the mortgage off. The label is in the way, once.
            assert_eq!(trade(&mut board, 2, 0)?, 2);
        }
        if let Some(text) = label.turn(&mut board)? {
            println!("{text}");
        }
    }
    Ok(())
}
