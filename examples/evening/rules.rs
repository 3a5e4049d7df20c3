//! The rules: turns, news and trades, from the first roll to a winner.

use crate::debts::{settle, Bill};
use crate::layout::*;
use crate::random::Random;
use crate::world::{Transaction, World};
use chezumobari::Refusal;

/// Random numbers for one matter of one turn. They do not depend on how often a transaction was tried.
pub fn chance(world: &World, turn: u32, matter: u64) -> Random {
    let mut random = Random::from_seed(world.seed ^ (u64::from(turn) << 8) ^ (matter << 56));
    random.next();
    random
}

/// Plays the game.
pub async fn rules(world: &World) {
    open_the_bank(world).await;
    let mut turn = 0;
    loop {
        for player in 0..PLAYERS {
            if world.look(out(player)) == 1 {
                continue;
            }
            if alone(world, player) {
                finish(world, player, turn).await;
                return;
            }
            turn += 1;
            play_turn(world, player, turn).await;
        }
    }
}

async fn open_the_bank(world: &World) {
    world
        .atomically(RULES, |t| {
            t.write(BANK, BANK_CASH)?;
            for player in 0..PLAYERS {
                t.write(cash(player), FIRST_CASH)?;
            }
            t.tell(format!("Four players sit down: {}. Each has {FIRST_CASH}.", NAMES.join(", ")));
            Ok(())
        })
        .await;
}

fn alone(world: &World, player: usize) -> bool {
    for other in 0..PLAYERS {
        if other != player && world.look(out(other)) == 0 {
            return false;
        }
    }
    true
}

async fn finish(world: &World, player: usize, turns: u32) {
    world
        .atomically(RULES, |t| {
            let money = t.read(cash(player))?;
            t.tell(format!("{} wins after {turns} turns, with {money}.", NAMES[player]));
            Ok(())
        })
        .await;
}

async fn play_turn(world: &World, player: usize, turn: u32) {
    let Some(tile) = roll(world, player, turn).await else {
        return;
    };
    let bill = match TILES[tile].kind {
        Kind::Street { .. } | Kind::Ferry => Some(Bill::Rent(tile)),
        Kind::Tax(amount) => Some(Bill::Tax(amount)),
        Kind::News => news(world, player, turn).await,
        Kind::GoToJail | Kind::Quiet => None,
    };
    if price(tile).is_some() && world.look(owner(tile)) == 0 {
        ask(world, [player], BUY, tile).await;
    } else if let Some(bill) = bill {
        if !settle(world, player, bill, turn).await {
            return;
        }
    }
    if ask(world, [player], MANAGE, 0).await == [YES] {
        offer(world).await;
    }
}

/// Rolls and moves. Answers the tile, or nothing for a turn in jail.
async fn roll(world: &World, player: usize, turn: u32) -> Option<usize> {
    let mut random = chance(world, turn, 1);
    let (one, two) = (1 + random.below(6), 1 + random.below(6));
    let name = NAMES[player];
    world
        .atomically(RULES, |t| {
            t.write(TURN, turn)?;
            if t.read(jailed(player))? == 1 {
                t.write(jailed(player), 0)?;
                t.tell(format!("Turn {turn}. {name} waits in jail."));
                return Ok(None);
            }
            let from = t.read(position(player))? as usize;
            let to = (from + one + two) % TILES.len();
            t.tell(format!("Turn {turn}. {name} rolls {one} and {two} and comes to {}.", TILES[to].name));
            if to < from {
                t.pay(BANK, cash(player), SALARY)?;
                t.tell(format!("{name} passes Start and gets {SALARY}."));
            }
            if TILES[to].kind == Kind::GoToJail {
                t.write(position(player), JAIL as u32)?;
                t.write(jailed(player), 1)?;
                t.tell(format!("{name} goes to jail."));
                return Ok(None);
            }
            t.write(position(player), to as u32)?;
            Ok(Some(to))
        })
        .await
}

/// Good news is paid out at once. Bad news is a fine.
async fn news(world: &World, player: usize, turn: u32) -> Option<Bill> {
    let amount = 10 * (1 + chance(world, turn, 2).below(15) as u32);
    if chance(world, turn, 3).once_in(2) {
        return Some(Bill::Fine(amount));
    }
    world
        .atomically(RULES, |t| {
            t.pay(BANK, cash(player), amount)?;
            t.tell(format!("Good news: {} gets {amount}.", NAMES[player]));
            Ok(())
        })
        .await;
    None
}

/// Rings the bell of some players with a question, and sleeps until all have answered.
async fn ask<const N: usize>(world: &World, players: [usize; N], question: u32, tile: usize) -> [u32; N] {
    world
        .atomically(RULES, |t| {
            for player in players {
                t.write(bell(player), question)?;
                t.write(asked_tile(player), tile as u32)?;
                t.write(answer(player), 0)?;
            }
            Ok(())
        })
        .await;
    world.until(RULES, players.map(answer), |answers| answers.iter().all(|&a| a != 0)).await
}

/// An offer stands on the board. The two others are asked, and if both agree it is done, all at once.
async fn offer(world: &World) {
    let mut ring = [0; 6];
    for (i, word) in ring.iter_mut().enumerate() {
        *word = world.look(OFFER + i) as usize;
    }
    let [first, second, third, ..] = ring;
    if ask(world, [second, third], CONSIDER, 0).await != [YES, YES] {
        world
            .atomically(RULES, |t| {
                t.tell(format!("{} offers a trade, and it is declined.", NAMES[first]));
                Ok(())
            })
            .await;
        return;
    }
    world
        .atomically(RULES, |t| {
            let mut text = String::from("A trade among three:");
            for i in 0..3 {
                let (giver, taker, tile) = (ring[i], ring[(i + 1) % 3], ring[3 + i]);
                hand_over(t, giver, taker, tile)?;
                let mark = if i < 2 { ";" } else { "." };
                text += &format!(" {} gives {} to {}{mark}", NAMES[giver], TILES[tile].name, NAMES[taker]);
            }
            t.tell(text);
            Ok(())
        })
        .await;
}

/// One tile changes hands. Its houses are sold for the giver, and the taker pays its mortgage off.
fn hand_over(t: &mut Transaction<'_, '_>, giver: usize, taker: usize, tile: usize) -> Result<(), Refusal> {
    let state = t.tile(tile)?;
    t.write(owner(tile), taker as u32 + 1)?;
    if state.houses > 0 {
        t.write(houses(tile), 0)?;
        t.pay(BANK, cash(giver), state.houses * house_price(tile).unwrap_or(0) / 2)?;
    }
    let debt = price(tile).unwrap_or(0) / 2;
    if state.mortgaged == 1 && t.read(cash(taker))? >= debt {
        t.write(mortgaged(tile), 0)?;
        t.pay(cash(taker), BANK, debt)?;
    }
    Ok(())
}
