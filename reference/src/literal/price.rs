//! Auction price, by looking at every price of the grid.

use super::limits::counts_at;
use super::Book;
use crate::sheet::{Pieces, Price, Side};

/// Demand, supply and volume at a price.
#[derive(Clone, Copy, Debug, PartialEq, Eq)]
pub struct Carried {
    pub price: Price,
    pub demand: Pieces,
    pub supply: Pieces,
    pub volume: Pieces,
}

/// Demand for buys, supply for sells: what remains of the orders whose limit in force allows
/// the price, be they all-or-none or not.
fn pieces_at(book: &Book, side: Side, price: Price) -> Pieces {
    let orders = book.sheet.orders.iter().enumerate();
    orders
        .filter(|(k, order)| order.side == side && counts_at(side, book.in_force[*k], price))
        .map(|(k, _)| book.remaining[k])
        .sum()
}

pub fn carried_at(book: &Book, price: Price) -> Carried {
    let demand = pieces_at(book, Side::Buy, price);
    let supply = pieces_at(book, Side::Sell, price);
    Carried {
        price,
        demand,
        supply,
        volume: demand.min(supply),
    }
}

/// The maximisers, that is the prices whose volume is the greatest of the whole grid: those
/// in the band, or all of them if none is in the band.
fn potential_prices(book: &Book, all: &[Carried], greatest: Pieces) -> Vec<Carried> {
    let maximisers = all.iter().filter(|at| at.volume == greatest).copied();
    let (inside, outside): (Vec<Carried>, Vec<Carried>) =
        maximisers.partition(|at| book.sheet.in_band(at.price));
    if inside.is_empty() {
        return outside;
    }
    inside
}

/// The price from low to high nearest the last purchase price.
fn nearest(low: Price, high: Price, last_purchase: Price) -> Price {
    let between = (low.0..=high.0).map(Price);
    let distance = |price: &Price| price.0.abs_diff(last_purchase.0);
    between.min_by_key(distance).expect("low is not above high")
}

/// Situation 0. The potential prices are a..b, without a gap. Of them l is the highest with
/// more demand than supply, or else a, and r the lowest with more supply than demand, or else
/// b. From l to r the one nearest the last purchase price is taken.
fn price_with_volume(book: &Book, potential: &[Carried]) -> Price {
    let prices = || potential.iter().map(|at| at.price);
    let (a, b) = (prices().min().unwrap(), prices().max().unwrap());
    assert_eq!(potential.len() as u32, b.0 - a.0 + 1, "a gap");
    let more_demand = potential.iter().filter(|at| at.demand > at.supply);
    let more_supply = potential.iter().filter(|at| at.supply > at.demand);
    let l = more_demand.map(|at| at.price).max().unwrap_or(a);
    let r = more_supply.map(|at| at.price).min().unwrap_or(b);
    nearest(l, r, book.last_purchase)
}

/// Situations 1–4, with no volume at any price (01 'Auction price'). Only the prices of the
/// band are looked at, for the highest with demand and the lowest with supply.
/// - 1, supply alone: the lowest, or I if that is lower.
/// - 2, demand alone: the highest, or I if that is higher.
/// - 3, demand and supply: of the prices between, ends included, the one nearest the last
///   purchase price.
/// - 4, none of either: the last purchase price, in the band or not.
fn price_without_volume(book: &Book, all: &[Carried]) -> (u32, Price) {
    let band = || all.iter().filter(|at| book.sheet.in_band(at.price));
    let with_demand = band().filter(|at| at.demand > Pieces(0));
    let with_supply = band().filter(|at| at.supply > Pieces(0));
    let highest = with_demand.map(|at| at.price).max();
    let lowest = with_supply.map(|at| at.price).min();
    let indicative = book.sheet.indicative;
    match (highest, lowest) {
        (None, Some(lowest)) => (1, lowest.min(indicative)),
        (Some(highest), None) => (2, highest.max(indicative)),
        (Some(highest), Some(lowest)) => (3, nearest(highest, lowest, book.last_purchase)),
        (None, None) => (4, book.last_purchase),
    }
}

/// The situation and the auction price of a round.
pub fn auction(book: &Book) -> (u32, Price) {
    let prices = book.grid.prices();
    let all: Vec<Carried> = prices.map(|price| carried_at(book, price)).collect();
    let greatest = all.iter().map(|at| at.volume).max().unwrap();
    if greatest > Pieces(0) {
        let potential = potential_prices(book, &all, greatest);
        return (0, price_with_volume(book, &potential));
    }
    price_without_volume(book, &all)
}
