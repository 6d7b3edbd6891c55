//! Calls on a sheet: limit in force, curves, a round, the opening.

use super::fills::{fills, Queue};
use super::limits::in_force;
use super::price::{auction, Staircase};
use super::State;
use crate::answer::{Opening, Round};
use crate::refusal::{Refusal, ARGUMENT};
use crate::sheet::{Grid, Pieces, Price, Sheet, Side};

/// Limit in force of Stepper k in the first round.
pub fn limit_of_stepper(sheet: &Sheet, grid: Grid, k: u64) -> Result<Price, Refusal> {
    let number = usize::try_from(k).map_err(|_| ARGUMENT)?;
    let order = sheet.orders.get(number).ok_or(ARGUMENT)?;
    if !order.is_stepper() {
        return Err(ARGUMENT);
    }
    let orders = in_force(&State::first(sheet, grid), order.side);
    let stepper = orders.iter().find(|live| live.number == number);
    Ok(stepper.expect("it has its whole quantity").limit.price())
}

/// Demand, supply and volume at p in the first round.
pub fn curves(sheet: &Sheet, grid: Grid, p: u64) -> Result<[u64; 3], Refusal> {
    let price = grid.price(p).ok_or(ARGUMENT)?;
    let state = State::first(sheet, grid);
    let pieces = |side| Staircase::new(side, &in_force(&state, side)).at(price);
    let (demand, supply) = (pieces(Side::Buy), pieces(Side::Sell));
    Ok([demand, supply, demand.min(supply)])
}

/// Only situation 0 can fill orders: at the auction price, or the bound nearest to it where it
/// is outside the band. This is the purchase price if anything trades, else there is none.
/// The state is left as the round found it.
pub fn round(state: &State) -> Round {
    let sheet = state.sheet;
    let buys = in_force(state, Side::Buy);
    let sells = in_force(state, Side::Sell);
    let (situation, auction_price) = auction(state, &buys, &sells);
    let potential = auction_price.clamp(sheet.lower, sheet.upper);
    let (total, fills) = if situation == 0 {
        let buys = Queue::new(state, Side::Buy, &buys, potential);
        let sells = Queue::new(state, Side::Sell, &sells, potential);
        fills(state, &buys, &sells)
    } else {
        (0, vec![0; state.remaining.len()])
    };
    Round {
        situation,
        auction_price,
        purchase_price: (total > 0).then_some(potential),
        total: Pieces(total),
        fills: fills.into_iter().map(Pieces).collect(),
    }
}

pub fn first_round(sheet: &Sheet, grid: Grid) -> Round {
    round(&State::first(sheet, grid))
}

/// Takes a round's fills off what remains; if it traded, its purchase price is the last one
/// from now on.
fn carry(state: &mut State, round: &Round) {
    for (remaining, fill) in state.remaining.iter_mut().zip(&round.fills) {
        *remaining -= fill.0;
    }
    state.last_purchase = round.purchase_price.unwrap_or(state.last_purchase);
}

/// The ending if the round is the last (01 'Opening'): 0 in situations 1–4; in situation 0, 2
/// (waiting begins) with the auction price outside the band, 1 (blocked) with it inside and
/// nothing traded. None if the opening goes on.
fn ending(sheet: &Sheet, round: &Round) -> Option<u32> {
    match round.situation {
        0 if !sheet.in_band(round.auction_price) => Some(2),
        0 if round.total == Pieces(0) => Some(1),
        0 => None,
        _ => Some(0),
    }
}

/// The opening. Each round but the last fills some order completely, so there are at most
/// n + 1.
pub fn opening(sheet: &Sheet, grid: Grid) -> Opening {
    let mut state = State::first(sheet, grid);
    let mut rounds = Vec::new();
    loop {
        let next = round(&state);
        carry(&mut state, &next);
        let ending = ending(sheet, &next);
        rounds.push(next);
        assert!(rounds.len() <= sheet.orders.len() + 1, "too many rounds");
        if let Some(ending) = ending {
            return Opening { rounds, ending };
        }
    }
}
