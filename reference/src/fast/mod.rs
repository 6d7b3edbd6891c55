//! The fast way: prices and totals are taken only where something changes.
//!
//! Both sides are worked out by one rule. *Keenness* is the price for a buy and the
//! price with its sign turned for a sell, so that on either side a keener limit trades
//! first and an order counts at a price if its limit is at least as keen.

pub mod fills;
pub mod limits;
pub mod opening;
pub mod price;
pub mod stored;

use crate::sheet::{Grid, Price, QuotationStep, Sheet, Side};

/// The price for a buy, minus the price for a sell.
#[derive(Clone, Copy, Debug, PartialEq, Eq, PartialOrd, Ord)]
pub struct Keenness(i64);

impl Keenness {
    pub fn of(side: Side, price: Price) -> Keenness {
        let number = i64::from(price.0);
        match side {
            Side::Buy => Keenness(number),
            Side::Sell => Keenness(-number),
        }
    }

    /// The price again; a keenness beyond the grid has none.
    pub fn price(self) -> Price {
        Price(self.0.unsigned_abs() as u32)
    }

    /// The quotation step keener, which may lead beyond the grid.
    pub fn keener_by(self, step: QuotationStep) -> Keenness {
        Keenness(self.0 + i64::from(step.0))
    }
}

/// The bound at which limits become equal: H for buys, D for sells.
pub fn near_bound(sheet: &Sheet, side: Side) -> Keenness {
    match side {
        Side::Buy => Keenness::of(side, sheet.upper),
        Side::Sell => Keenness::of(side, sheet.lower),
    }
}

/// The bound from which a Stepper starts: D for buys, H for sells.
pub fn far_bound(sheet: &Sheet, side: Side) -> Keenness {
    match side {
        Side::Buy => Keenness::of(side, sheet.lower),
        Side::Sell => Keenness::of(side, sheet.upper),
    }
}

/// An order with something remaining, in a round.
#[derive(Clone, Copy, Debug)]
pub struct Live {
    pub number: usize,
    pub remaining: u64,
    pub limit: Keenness,
    pub all_or_none: bool,
}

/// What is carried from round to round.
pub struct State<'a> {
    pub sheet: &'a Sheet,
    pub grid: Grid,
    pub remaining: Vec<u64>,
    pub last_purchase: Price,
}

impl<'a> State<'a> {
    pub fn first(sheet: &'a Sheet, grid: Grid) -> State<'a> {
        State {
            sheet,
            grid,
            remaining: sheet.orders.iter().map(|order| order.quantity.0).collect(),
            last_purchase: sheet.last_purchase,
        }
    }
}
