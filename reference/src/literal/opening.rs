//! A round and the opening; each round gets a new book, from the sheet and all rounds before it.

use super::fills::{potential_purchase_price, Trial};
use super::price::auction;
use super::Book;
use crate::answer::{Opening, Round};
use crate::sheet::{Grid, Pieces, Price, Sheet};

/// What trades, trades at the potential purchase price, and no order may trade past its limit
/// (01 'Fills').
pub fn round(book: &Book) -> Round {
    let (situation, auction_price) = auction(book);
    let potential = potential_purchase_price(book, situation, auction_price);
    let trial = Trial { book, potential };
    let (total, fills) = trial.largest();
    let purchase_price = potential.filter(|_| total >= Pieces(1));
    let traded = (0..fills.len()).filter(|k| fills[*k] > Pieces(0));
    for (k, price) in traded.zip(purchase_price.into_iter().cycle()) {
        assert!(!trial.trades_past_limit(k, price), "past its limit");
    }
    Round {
        situation,
        auction_price,
        purchase_price,
        total,
        fills,
    }
}

/// What the rounds before have left of an order.
fn remaining(sheet: &Sheet, before: &[Round], k: usize) -> Pieces {
    let filled: Pieces = before.iter().map(|round| round.fills[k]).sum();
    Pieces(sheet.orders[k].quantity.0 - filled.0)
}

/// The latest purchase price of the rounds before; the sheet's if none of them traded.
fn last_purchase(sheet: &Sheet, before: &[Round]) -> Price {
    let mut latest_first = before.iter().rev();
    let latest = latest_first.find_map(|round| round.purchase_price);
    latest.unwrap_or(sheet.last_purchase)
}

/// Whether another round follows: something traded, and the auction price is in the band
/// (01 'Opening').
fn goes_on(sheet: &Sheet, round: &Round) -> bool {
    round.situation == 0 && sheet.in_band(round.auction_price) && round.total >= Pieces(1)
}

/// 0: the last round had no volume at any price. 2: waiting begins, its auction price being
/// outside the band. 1: blocked, its price was inside but nothing could be filled.
fn ending(sheet: &Sheet, last: &Round) -> u32 {
    if last.situation >= 1 {
        return 0;
    }
    if !sheet.in_band(last.auction_price) {
        return 2;
    }
    1
}

/// Rounds up to the first after which the opening does not go on.
pub fn opening(sheet: &Sheet, grid: Grid) -> Opening {
    let mut rounds: Vec<Round> = Vec::new();
    loop {
        let numbers = 0..sheet.orders.len();
        let left = numbers.map(|k| remaining(sheet, &rounds, k)).collect();
        let book = Book::new(sheet, grid, left, last_purchase(sheet, &rounds));
        let next = round(&book);
        let on = goes_on(sheet, &next);
        rounds.push(next);
        assert!(rounds.len() <= sheet.orders.len() + 1, "too many rounds");
        if !on {
            break;
        }
    }
    let ending = ending(sheet, rounds.last().unwrap());
    Opening { rounds, ending }
}
