//! The players' hands: two robots, the player at this phone, and one over the network.
//! Each sleeps on its bell and answers what the rules ask.

use crate::layout::*;
use crate::rules::chance;
use crate::world::World;
use chezumobari::rest;

pub async fn hand(world: &World, player: usize) {
    let task = FIRST_HAND + player;
    loop {
        let [question, tile] = world.until(task, [bell(player), asked_tile(player)], |[bell, _]| bell != 0).await;
        if player == FAR_PLAYER {
            rest(40).await;
        }
        let turn = world.look(TURN);
        let reply = match question {
            BUY => buy(world, player, tile as usize).await,
            MANAGE => manage(world, player, turn).await,
            _ => consider(world, player, turn),
        };
        world
            .atomically(task, |t| {
                t.write(bell(player), 0)?;
                t.write(answer(player), reply)?;
                Ok(())
            })
            .await;
    }
}

/// Buys the tile if enough is left afterwards.
async fn buy(world: &World, player: usize, tile: usize) -> u32 {
    let price = price(tile).unwrap_or(0);
    world
        .atomically(FIRST_HAND + player, |t| {
            if t.read(owner(tile))? != 0 || t.read(cash(player))? < price + 50 {
                return Ok(NO);
            }
            t.pay(cash(player), BANK, price)?;
            t.write(owner(tile), player as u32 + 1)?;
            t.tell(format!("{} buys {} for {price}.", NAMES[player], TILES[tile].name));
            Ok(YES)
        })
        .await
}

/// What a player owns, by looking: owner and mortgage of every tile.
fn survey(world: &World) -> Vec<(usize, u32, u32)> {
    let mut seen = Vec::new();
    for tile in estate() {
        seen.push((tile, world.look(owner(tile)), world.look(mortgaged(tile))));
    }
    seen
}

/// Builds or pays a mortgage off, and now and then has a trade to offer.
async fn manage(world: &World, player: usize, turn: u32) -> u32 {
    let me = player as u32 + 1;
    let seen = survey(world);
    let mine = |tile: usize| seen.iter().any(|&(t, owner, debt)| t == tile && owner == me && debt == 0);
    let site = estate().filter(|&tile| house_price(tile).is_some() && group_of(tile).into_iter().all(mine)).last();
    if let Some(tile) = site {
        build(world, player, group_of(tile)).await;
    }
    if let Some(&(tile, ..)) = seen.iter().find(|&&(_, owner, debt)| owner == me && debt == 1) {
        redeem(world, player, tile).await;
    }
    if !chance(world, turn, 4).once_in(4) {
        return DONE;
    }
    match ring(world, player, turn, &seen) {
        Some(offer) => propose(world, player, offer).await,
        None => DONE,
    }
}

/// Builds a house where the group has fewest.
async fn build(world: &World, player: usize, group: Vec<usize>) {
    let mut least = (6, 0);
    for tile in group {
        least = least.min((world.look(houses(tile)), tile));
    }
    let (count, tile) = least;
    let cost = house_price(tile).unwrap_or(0);
    if count >= 5 {
        return;
    }
    world
        .atomically(FIRST_HAND + player, |t| {
            if t.read(cash(player))? >= cost + 150 {
                t.pay(cash(player), BANK, cost)?;
                t.write(houses(tile), count + 1)?;
                t.tell(format!("{} builds on {} for {cost}.", NAMES[player], TILES[tile].name));
            }
            Ok(())
        })
        .await;
}

async fn redeem(world: &World, player: usize, tile: usize) {
    let debt = price(tile).unwrap_or(0) / 2;
    world
        .atomically(FIRST_HAND + player, |t| {
            if t.read(cash(player))? >= debt + 300 {
                t.pay(cash(player), BANK, debt)?;
                t.write(mortgaged(tile), 0)?;
                t.tell(format!("{} pays off the mortgage on {}.", NAMES[player], TILES[tile].name));
            }
            Ok(())
        })
        .await;
}

/// Three players in a ring and the tile that each gives to the next: one of whose group the taker has
/// others, if there is one. Nobody breaks up a whole group.
fn ring(world: &World, player: usize, turn: u32, seen: &[(usize, u32, u32)]) -> Option<[usize; 6]> {
    let mut random = chance(world, turn, 5);
    let mut others: Vec<usize> =
        (0..PLAYERS).filter(|&p| p != player && seen.iter().any(|&(_, o, _)| o == p as u32 + 1)).collect();
    if others.len() < 2 {
        return None;
    }
    let second = others.remove(random.below(others.len()));
    let third = others.remove(random.below(others.len()));
    let owner_of = |tile: usize| seen.iter().find(|&&(t, ..)| t == tile).map_or(0, |&(_, o, _)| o);
    let mut gift = |giver: usize, taker: usize| {
        let all_of = |tile: usize, whom: usize| group_of(tile).into_iter().all(|t| owner_of(t) == whom as u32 + 1);
        let some_of = |tile: usize, whom: usize| group_of(tile).into_iter().any(|t| owner_of(t) == whom as u32 + 1);
        let owned = |&tile: &usize| owner_of(tile) == giver as u32 + 1 && !all_of(tile, giver);
        let has: Vec<usize> = estate().filter(owned).collect();
        let fit: Vec<usize> = has.iter().copied().filter(|&tile| some_of(tile, taker)).collect();
        let choice = if fit.is_empty() { has } else { fit };
        (!choice.is_empty()).then(|| random.one_of(&choice))
    };
    Some([player, second, third, gift(player, second)?, gift(second, third)?, gift(third, player)?])
}

async fn propose(world: &World, player: usize, offer: [usize; 6]) -> u32 {
    world
        .atomically(FIRST_HAND + player, |t| {
            for (i, &word) in offer.iter().enumerate() {
                t.write(OFFER + i, word as u32)?;
            }
            Ok(YES)
        })
        .await
}

/// Agrees to a trade unless the tile to be given is worth far more than the one to be had.
fn consider(world: &World, player: usize, turn: u32) -> u32 {
    let (mut gives, mut gets) = (0, 0);
    for i in 0..3 {
        let giver = world.look(OFFER + i) as usize;
        let taker = world.look(OFFER + (i + 1) % 3) as usize;
        let value = price(world.look(OFFER + 3 + i) as usize).unwrap_or(0);
        if giver == player {
            gives = value;
        }
        if taker == player {
            gets = value;
        }
    }
    let patience = 100 + 20 * chance(world, turn, 6 + player as u64).below(10) as u32;
    if gives > gets + patience {
        NO
    } else {
        YES
    }
}
