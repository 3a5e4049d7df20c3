//! What is said, in words that read well aloud.

use crate::layout::{NAMES, TILES};

/// The three words of a tile as a label knows them.
#[derive(Clone, Copy, Debug, PartialEq, Eq, Hash)]
pub struct TileState {
    pub owner: u32,
    pub houses: u32,
    pub mortgaged: u32,
}

pub fn houses_in_words(houses: u32) -> String {
    match houses {
        0 => "no houses".to_string(),
        1 => "one house".to_string(),
        5 => "a hotel".to_string(),
        n => format!("{n} houses"),
    }
}

pub fn label(tile: usize, state: TileState) -> String {
    let owner = match state.owner {
        0 => "is for sale".to_string(),
        n => format!("belongs to {}", NAMES[n as usize - 1]),
    };
    let houses = match state.houses {
        0 => String::new(),
        n => format!(", with {}", houses_in_words(n)),
    };
    let debt = if state.mortgaged == 1 { ", mortgaged" } else { "" };
    format!("{} {owner}{houses}{debt}.", TILES[tile].name)
}
