//! The old way: labels cached per tile.
//!
//! The cache hears of each word as it is stored and keeps it with its tile. On its turn the voice
//! speaks a tile whose words have changed. It is never late, and still it speaks tiles half way
//! through a trade.

use crate::layout::{houses, mortgaged, owner, TILES, TILE_WORDS};
use crate::ledger::Line;
use crate::wording::{self, TileState};
use crate::world::World;
use chezumobari::pass;
use std::collections::VecDeque;

pub struct Cache {
    words: Vec<u32>,
    changed: VecDeque<usize>,
    /// labels that were not the board when they were spoken
    pub wrong: Vec<(usize, TileState)>,
    pub spoken: u64,
}

impl Cache {
    pub fn new() -> Cache {
        Cache { words: vec![0; TILE_WORDS], changed: VecDeque::new(), wrong: Vec::new(), spoken: 0 }
    }

    /// A word has been stored.
    pub fn hear(&mut self, words: &[u32]) {
        for tile in 0..TILES.len() {
            for address in [owner(tile), houses(tile), mortgaged(tile)] {
                if self.words[address] != words[address] {
                    self.words[address] = words[address];
                    if !self.changed.contains(&tile) {
                        self.changed.push_back(tile);
                    }
                }
            }
        }
    }

    fn next(&mut self) -> Option<(usize, TileState)> {
        let tile = self.changed.pop_front()?;
        let [owner, houses, mortgaged] =
            [owner(tile), houses(tile), mortgaged(tile)].map(|address| self.words[address]);
        self.spoken += 1;
        Some((tile, TileState { owner, houses, mortgaged }))
    }
}

/// The voice over the cache: one label a turn.
pub async fn cached_voice(world: &World) {
    let cache = world.cache.as_ref().expect("this evening has a cache");
    loop {
        let next = cache.borrow_mut().next();
        if let Some((tile, state)) = next {
            if state != world.ledger.tile(tile) {
                cache.borrow_mut().wrong.push((tile, state));
            }
            world.ledger.lines.borrow_mut().push(Line::Label(wording::label(tile, state)));
        }
        pass().await;
    }
}
