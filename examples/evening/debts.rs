//! Debts: rents and taxes, how money is raised for them, and bankruptcies.

use crate::layout::*;
use crate::wording::houses_in_words;
use crate::world::{Transaction, World};
use chezumobari::Refusal;

/// A debt that a player has run into.
#[derive(Clone, Copy)]
pub enum Bill {
    Rent(usize),
    Tax(u32),
    Fine(u32),
}

/// What a bill comes to, and who gets it. Rents rise with the evening.
fn due(t: &mut Transaction<'_, '_>, player: usize, bill: Bill, turn: u32) -> Result<(u32, Option<usize>), Refusal> {
    let tile = match bill {
        Bill::Tax(amount) | Bill::Fine(amount) => return Ok((amount, None)),
        Bill::Rent(tile) => tile,
    };
    let state = t.tile(tile)?;
    let holder = state.owner.checked_sub(1).map(|p| p as usize);
    if state.mortgaged == 1 || holder == Some(player) || holder.is_none() {
        return Ok((0, None));
    }
    let mut held = 0;
    let group = group_of(tile);
    for &other in &group {
        held += u32::from(t.read(owner(other))? == state.owner);
    }
    let rent = match house_price(tile) {
        None => 25 << (held - 1),
        Some(_) if state.houses > 0 => price(tile).unwrap_or(0) * [1, 5, 12, 25, 35, 45][state.houses as usize] / 10,
        Some(_) if held as usize == group.len() => price(tile).unwrap_or(0) / 5,
        Some(_) => price(tile).unwrap_or(0) / 10,
    };
    Ok((rent * (20 + turn) / 20, holder))
}

/// A player pays a bill, raising money if need be. False if the player is bankrupt.
pub async fn settle(world: &World, player: usize, bill: Bill, turn: u32) -> bool {
    let name = NAMES[player];
    loop {
        let (paid, creditor) = world
            .atomically(RULES, |t| {
                let (amount, creditor) = due(t, player, bill, turn)?;
                if amount == 0 {
                    return Ok((true, None));
                }
                if t.read(cash(player))? < amount {
                    return Ok((false, creditor));
                }
                t.pay(cash(player), creditor.map_or(BANK, cash), amount)?;
                t.tell(match (bill, creditor) {
                    (Bill::Rent(_), Some(other)) => {
                        format!("{name} pays {} {amount} in rent.", NAMES[other])
                    }
                    (Bill::Fine(_), _) => format!("Bad news: {name} pays {amount}."),
                    _ => format!("{name} pays {amount} in tax."),
                });
                Ok((true, creditor))
            })
            .await;
        if paid {
            return true;
        }
        if !raise_money(world, player).await {
            bankrupt(world, player, creditor).await;
            return false;
        }
    }
}

/// Clears the cheapest tile of a player of its houses and mortgages it. False if none is left.
async fn raise_money(world: &World, player: usize) -> bool {
    let mut choice = None;
    for tile in estate() {
        if world.look(owner(tile)) == player as u32 + 1 && world.look(mortgaged(tile)) == 0 {
            choice = choice.or(Some(tile));
        }
    }
    let Some(tile) = choice else { return false };
    world
        .atomically(RULES, |t| {
            let count = t.read(houses(tile))?;
            let amount = count * house_price(tile).unwrap_or(0) / 2 + price(tile).unwrap_or(0) / 2;
            t.write(houses(tile), 0)?;
            t.write(mortgaged(tile), 1)?;
            t.pay(BANK, cash(player), amount)?;
            let sells =
                if count > 0 { format!("sells {} on", houses_in_words(count)) } else { "mortgages".to_string() };
            let also = if count > 0 { " and mortgages it," } else { "" };
            t.tell(format!("{} {sells} {}{also} for {amount}.", NAMES[player], TILES[tile].name));
            Ok(())
        })
        .await;
    true
}

/// A bankrupt player leaves. Money and tiles go to the creditor, free of debt, a few tiles at a time.
async fn bankrupt(world: &World, player: usize, creditor: Option<usize>) {
    let to_whom = creditor.map_or("the bank", |other| NAMES[other]);
    world
        .atomically(RULES, |t| {
            let left = t.read(cash(player))?;
            t.pay(cash(player), creditor.map_or(BANK, cash), left)?;
            t.write(out(player), 1)?;
            t.tell(format!("{} is bankrupt. What is left goes to {to_whom}.", NAMES[player]));
            Ok(())
        })
        .await;
    let mut tiles = Vec::new();
    for tile in estate() {
        if world.look(owner(tile)) == player as u32 + 1 {
            tiles.push(tile);
        }
    }
    for some in tiles.chunks(3) {
        world
            .atomically(RULES, |t| {
                for &tile in some {
                    t.write(owner(tile), creditor.map_or(0, |other| other as u32 + 1))?;
                    t.write(houses(tile), 0)?;
                    t.write(mortgaged(tile), 0)?;
                }
                Ok(())
            })
            .await;
    }
}
