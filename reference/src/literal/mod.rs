//! The literal way: every price of the grid and every list of fills is tried.

pub mod fills;
pub mod limits;
pub mod opening;
pub mod price;
pub mod stored;

use crate::sheet::{Grid, Pieces, Price, Sheet};

/// A round's orders: what remains of them and their limits in force.
pub struct Book<'a> {
    pub sheet: &'a Sheet,
    pub grid: Grid,
    pub remaining: Vec<Pieces>,
    pub last_purchase: Price,
    pub in_force: Vec<Price>,
}

impl<'a> Book<'a> {
    pub fn new(
        sheet: &'a Sheet,
        grid: Grid,
        remaining: Vec<Pieces>,
        last_purchase: Price,
    ) -> Book<'a> {
        let in_force = (0..sheet.orders.len())
            .map(|k| limits::limit_in_force(sheet, grid, &remaining, k))
            .collect();
        Book {
            sheet,
            grid,
            remaining,
            last_purchase,
            in_force,
        }
    }

    /// The book of the first round: nothing is filled yet.
    pub fn first(sheet: &'a Sheet, grid: Grid) -> Book<'a> {
        let quantities = sheet.orders.iter().map(|order| order.quantity).collect();
        Book::new(sheet, grid, quantities, sheet.last_purchase)
    }
}
