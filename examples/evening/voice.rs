//! The voice and the braille line: labels, each on one tile or on the tiles of a group.

use crate::ledger::Ledger;
use crate::wording::TileState;
use crate::world::World;
use chezumobari::Label;

/// What becomes of a change that a label has read: it is spoken, or shown.
pub type Hears = fn(&Ledger, usize, TileState);

/// A label: it says which of its tiles have news, and sleeps on the words that it read.
pub async fn label(world: &World, task: usize, tiles: Vec<usize>, hears: Hears) {
    let read = |open: &mut chezumobari::Open<'_>| {
        world.noted(open, &|t| tiles.iter().map(|&tile| t.tile(tile)).collect::<Result<Vec<_>, _>>())
    };
    let mut said: Vec<TileState> = tiles.iter().map(|&tile| world.ledger.tile(tile)).collect();
    let label = Label::new(task, read).having_said(said.clone());
    let say = |now: &Vec<TileState>| {
        for ((&tile, &state), before) in tiles.iter().zip(now).zip(&mut said) {
            if std::mem::replace(before, state) != state {
                hears(&world.ledger, tile, state);
            }
        }
    };
    world.shared.label(label, say).await.expect("the tiles are on the board");
}
