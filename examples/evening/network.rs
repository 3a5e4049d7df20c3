//! The network: sends everybody's money to the far player now and then. It must add up.

use crate::layout::{cash, BANK, BANK_CASH, FIRST_CASH, NETWORK, PLAYERS};
use crate::world::World;
use chezumobari::rest;

pub async fn network(world: &World) {
    loop {
        rest(400).await;
        let sum = world
            .atomically(NETWORK, |t| {
                let mut sum = t.read(BANK)?;
                for player in 0..PLAYERS {
                    sum += t.read(cash(player))?;
                }
                Ok(sum)
            })
            .await;
        // nothing has been handed out yet, or all of it is somewhere
        assert!(sum == 0 || sum == BANK_CASH + FIRST_CASH * PLAYERS as u32, "the money does not add up: {sum}");
        world.ledger.count(|c| c.snapshots += 1);
    }
}
