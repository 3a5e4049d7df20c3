//! Where everything stands: the 40 tiles, the words of the board and the tasks.

use chezumobari::Sizes;

pub const PLAYERS: usize = 4;
pub const NAMES: [&str; PLAYERS] = ["Amina", "Baraka", "Chausiku", "Dalila"];
/// Plays over the network: answers come late.
pub const FAR_PLAYER: usize = 3;

pub const FIRST_CASH: u32 = 1_500;
pub const BANK_CASH: u32 = 1_000_000;
pub const SALARY: u32 = 200;
pub const JAIL: usize = 10;

#[derive(Clone, Copy, Debug, PartialEq, Eq)]
pub enum Kind {
    Street { group: u32, price: u32 },
    Ferry,
    Tax(u32),
    News,
    GoToJail,
    Quiet,
}

pub struct Tile {
    pub name: &'static str,
    pub kind: Kind,
}

const fn street(name: &'static str, group: u32, price: u32) -> Tile {
    Tile { name, kind: Kind::Street { group, price } }
}

const fn other(name: &'static str, kind: Kind) -> Tile {
    Tile { name, kind }
}

pub const TILES: [Tile; 40] = [
    other("Start", Kind::Quiet),
    street("Mill Lane", 0, 60),
    other("the news stand", Kind::News),
    street("Well Lane", 0, 60),
    other("the tax office", Kind::Tax(100)),
    other("North Ferry", Kind::Ferry),
    street("Orchard Road", 1, 100),
    other("the news stand", Kind::News),
    street("Garden Road", 1, 100),
    street("Chapel Road", 1, 120),
    other("the jail, as a visitor", Kind::Quiet),
    street("Market Street", 2, 140),
    other("the fountain", Kind::Quiet),
    street("Harbour Street", 2, 140),
    street("Baker Street", 2, 160),
    other("East Ferry", Kind::Ferry),
    street("Lantern Row", 3, 180),
    other("the news stand", Kind::News),
    street("Weaver Row", 3, 180),
    street("Potter Row", 3, 200),
    other("the park", Kind::Quiet),
    street("Castle Square", 4, 220),
    other("the news stand", Kind::News),
    street("Bridge Square", 4, 220),
    street("Tower Square", 4, 240),
    other("South Ferry", Kind::Ferry),
    street("Linden Avenue", 5, 260),
    street("Maple Avenue", 5, 260),
    other("the spring", Kind::Quiet),
    street("Cedar Avenue", 5, 280),
    other("the gate of the jail", Kind::GoToJail),
    street("Observatory Hill", 6, 300),
    street("Theatre Hill", 6, 300),
    other("the news stand", Kind::News),
    street("Library Hill", 6, 320),
    other("West Ferry", Kind::Ferry),
    other("the news stand", Kind::News),
    street("Palm Terrace", 7, 350),
    other("the luxury tax", Kind::Tax(200)),
    street("Crown Terrace", 7, 400),
];

/// The price of a tile that can be owned.
pub fn price(tile: usize) -> Option<u32> {
    match TILES[tile].kind {
        Kind::Street { price, .. } => Some(price),
        Kind::Ferry => Some(200),
        _ => None,
    }
}

/// What a house costs: nothing can be built on a ferry.
pub fn house_price(tile: usize) -> Option<u32> {
    match TILES[tile].kind {
        Kind::Street { group, .. } => Some(50 * (group / 2 + 1)),
        _ => None,
    }
}

/// The tiles that can be owned, in order. There are 26.
pub fn estate() -> impl Iterator<Item = usize> {
    (0..TILES.len()).filter(|&tile| price(tile).is_some())
}

/// The tiles of one group: streets of one number, or the ferries.
pub fn group_of(tile: usize) -> Vec<usize> {
    let same = |other: &usize| match (TILES[tile].kind, TILES[*other].kind) {
        (Kind::Street { group, .. }, Kind::Street { group: g, .. }) => group == g,
        (Kind::Ferry, Kind::Ferry) => true,
        _ => false,
    };
    (0..TILES.len()).filter(same).collect()
}

/// The groups of tiles that can be owned. There are 9.
pub fn groups() -> impl Iterator<Item = Vec<usize>> {
    estate().map(|tile| (tile, group_of(tile))).filter(|(tile, group)| group[0] == *tile).map(|(_, group)| group)
}

// The words of a tile: owner (0 nobody, else a player plus 1), houses, and 1 if it is mortgaged.
pub fn owner(tile: usize) -> usize {
    3 * tile
}
pub fn houses(tile: usize) -> usize {
    3 * tile + 1
}
pub fn mortgaged(tile: usize) -> usize {
    3 * tile + 2
}
pub const TILE_WORDS: usize = 3 * TILES.len();

// The words of a player. The rules ring the bell with a question, and the player answers.
pub fn cash(player: usize) -> usize {
    TILE_WORDS + 8 * player
}
pub fn position(player: usize) -> usize {
    cash(player) + 1
}
pub fn out(player: usize) -> usize {
    cash(player) + 2
}
pub fn jailed(player: usize) -> usize {
    cash(player) + 3
}
pub fn bell(player: usize) -> usize {
    cash(player) + 4
}
pub fn asked_tile(player: usize) -> usize {
    cash(player) + 5
}
pub fn answer(player: usize) -> usize {
    cash(player) + 6
}

// The words of the game. An offer is three players in a ring, and the tile that each gives to the next.
pub const BANK: usize = TILE_WORDS + 8 * PLAYERS;
pub const TURN: usize = BANK + 1;
pub const OFFER: usize = TURN + 1;
pub const WORDS: usize = OFFER + 6;

// Questions of the bell, and answers to them.
pub const BUY: u32 = 1;
pub const MANAGE: u32 = 2;
pub const CONSIDER: u32 = 3;
pub const DONE: u32 = 1;
pub const YES: u32 = 2;
pub const NO: u32 = 3;

// The tasks: rules, four hands, the network, and a label for each tile that can be owned, or two for each group.
pub const RULES: usize = 0;
pub const FIRST_HAND: usize = 1;
pub const NETWORK: usize = FIRST_HAND + PLAYERS;
pub const FIRST_LABEL: usize = NETWORK + 1;
pub const TASKS: usize = FIRST_LABEL + 26;

/// Each word has a record of its own, so that a trade wakes only those who sleep on the words that it uses.
pub const SIZES: Sizes = Sizes { words: WORDS, records: WORDS, tasks: TASKS };
