//! Auction price, from the prices at which demand or supply changes.

use super::{Keenness, Live, State};
use crate::sheet::{Price, Sheet, Side};

/// A side's pieces as a staircase: limits from the keenest on, with the sum of pieces up
/// to each.
pub struct Staircase {
    side: Side,
    limits: Vec<Keenness>,
    /// One longer than the limits: the sum over the first 0, 1, 2, ... orders.
    sums: Vec<u64>,
}

impl Staircase {
    /// The orders come by limit in force, keenest first.
    pub fn new(side: Side, orders: &[Live]) -> Staircase {
        let mut sums = vec![0];
        for order in orders {
            sums.push(sums[sums.len() - 1] + order.remaining);
        }
        Staircase {
            side,
            limits: orders.iter().map(|order| order.limit).collect(),
            sums,
        }
    }

    /// Demand for buys, supply for sells: the sum of the orders whose limit in force is at
    /// least as keen as the price.
    pub fn at(&self, price: Price) -> u64 {
        let asked = Keenness::of(self.side, price);
        let counted = self.limits.partition_point(|limit| *limit >= asked);
        self.sums[counted]
    }

    /// The keenest price within D..H at which the side has pieces.
    fn keenest_in_band(&self, sheet: &Sheet) -> Option<Price> {
        let keenest = self.limits.first()?.price();
        let reaches = match self.side {
            Side::Buy => keenest >= sheet.lower,
            Side::Sell => keenest <= sheet.upper,
        };
        reaches.then(|| keenest.clamp(sheet.lower, sheet.upper))
    }
}

/// A price with its demand and supply.
#[derive(Clone, Copy)]
struct Candidate {
    price: Price,
    demand: u64,
    supply: u64,
}

impl Candidate {
    fn volume(&self) -> u64 {
        self.demand.min(self.supply)
    }
}

/// Between two neighbouring changes demand and supply stay as they are, so each stretch
/// of prices is known by its ends: limits and their neighbours, the band's bounds and the
/// grid's ends.
fn candidates(state: &State, demand: &Staircase, supply: &Staircase) -> Vec<Candidate> {
    let sheet = state.sheet;
    let mut prices = vec![1, state.grid.last, sheet.lower.0, sheet.upper.0];
    for limit in demand.limits.iter().chain(&supply.limits) {
        let price = limit.price().0;
        prices.extend([price - 1, price, price + 1]);
    }
    prices.retain(|price| 1 <= *price && *price <= state.grid.last);
    prices.sort_unstable();
    prices.dedup();
    let with_pieces = |price: u32| Candidate {
        price: Price(price),
        demand: demand.at(Price(price)),
        supply: supply.at(Price(price)),
    };
    prices.into_iter().map(with_pieces).collect()
}

/// Situation 0. Of the maximisers given, those outside the band are dropped if any is inside; a
/// is the lowest left and b the highest. Of these l is the last with more demand than supply,
/// or else a, and r the first with more supply than demand, or else b. The last purchase price
/// is moved into l..r (01 'Auction price').
fn price_with_volume(state: &State, mut potential: Vec<Candidate>) -> Price {
    let inside = |at: &Candidate| state.sheet.in_band(at.price);
    if potential.iter().any(inside) {
        potential.retain(inside);
    }
    let (a, b) = (potential[0].price, potential[potential.len() - 1].price);
    let more_demand = potential.iter().rfind(|at| at.demand > at.supply);
    let more_supply = potential.iter().find(|at| at.supply > at.demand);
    let l = more_demand.map_or(a, |at| at.price);
    let r = more_supply.map_or(b, |at| at.price);
    state.last_purchase.clamp(l, r)
}

/// No volume at any price: situations 1–4, told apart by whether D..H has demand and supply.
fn price_without_volume(state: &State, demand: &Staircase, supply: &Staircase) -> (u32, Price) {
    let sheet = state.sheet;
    let highest = demand.keenest_in_band(sheet);
    let lowest = supply.keenest_in_band(sheet);
    match (highest, lowest) {
        (None, Some(lowest)) => (1, lowest.min(sheet.indicative)),
        (Some(highest), None) => (2, highest.max(sheet.indicative)),
        (Some(highest), Some(lowest)) => (3, state.last_purchase.clamp(highest, lowest)),
        (None, None) => (4, state.last_purchase),
    }
}

/// The situation and the auction price of a round.
pub fn auction(state: &State, buys: &[Live], sells: &[Live]) -> (u32, Price) {
    let demand = Staircase::new(Side::Buy, buys);
    let supply = Staircase::new(Side::Sell, sells);
    let mut candidates = candidates(state, &demand, &supply);
    let greatest = candidates.iter().map(Candidate::volume).max().unwrap_or(0);
    if greatest == 0 {
        return price_without_volume(state, &demand, &supply);
    }
    candidates.retain(|at| at.volume() == greatest);
    (0, price_with_volume(state, candidates))
}
