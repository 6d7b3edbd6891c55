//! Limits in force, by trying every price of the grid.

use crate::sheet::{Grid, Order, Pieces, Price, Sheet, Side, Terms};

/// An order without limit counts as entered at a bound, a buy at H and a sell at D.
pub fn entered_limit(sheet: &Sheet, order: &Order) -> Price {
    match (order.terms, order.side) {
        (Terms::WithoutLimit { .. }, Side::Buy) => sheet.upper,
        (Terms::WithoutLimit { .. }, Side::Sell) => sheet.lower,
        (Terms::Limited { limit, .. }, _) => limit,
        (Terms::Stepper { limit, .. }, _) => limit,
    }
}

/// Buys count with a limit at or above the price, sells with one at or below it.
pub fn counts_at(side: Side, limit: Price, price: Price) -> bool {
    match side {
        Side::Buy => limit >= price,
        Side::Sell => limit <= price,
    }
}

/// What remains of the other orders on the Stepper's side that count at the price by their
/// entered limits; other Steppers too count by these and not by where they stand.
fn rival_pieces(sheet: &Sheet, remaining: &[Pieces], stepper: usize, price: Price) -> Pieces {
    let side = sheet.orders[stepper].side;
    let counts = |other: usize| {
        let order = &sheet.orders[other];
        let limit = entered_limit(sheet, order);
        other != stepper && order.side == side && counts_at(side, limit, price)
    };
    let others = (0..sheet.orders.len()).filter(|other| counts(*other));
    others.map(|other| remaining[other]).sum()
}

/// The best price, highest for a buy and lowest for a sell, at which the rivals have more
/// pieces than the Stepper ignores; none if there is no such price.
pub fn best_rival(
    sheet: &Sheet,
    grid: Grid,
    remaining: &[Pieces],
    stepper: usize,
    ignored: Pieces,
) -> Option<Price> {
    let prices = grid
        .prices()
        .filter(|price| rival_pieces(sheet, remaining, stepper, *price) > ignored);
    match sheet.orders[stepper].side {
        Side::Buy => prices.max(),
        Side::Sell => prices.min(),
    }
}

/// A Stepper stands by its best rival price; any other order stands at its entered limit.
pub fn limit_in_force(sheet: &Sheet, grid: Grid, remaining: &[Pieces], k: usize) -> Price {
    let order = &sheet.orders[k];
    let entered = entered_limit(sheet, order);
    let Terms::Stepper { ignored, .. } = order.terms else {
        return entered;
    };
    let rival = best_rival(sheet, grid, remaining, k, ignored);
    stepped(sheet, order.side, entered, rival)
}

/// A Stepper buy stands the quotation step above its best rival price, at D if that would be lower
/// or if it has no rival price, and in no case above its entered limit. A Stepper sell does the
/// same downwards, with H for D (01 'Limits in force', 02 (4)). The step may lead off the grid at
/// either end, for a sell below zero; the entered limit, which is on the grid, then decides.
fn stepped(sheet: &Sheet, side: Side, entered: Price, rival: Option<Price>) -> Price {
    let number = |price: Price| i64::from(price.0);
    let (lower, upper) = (number(sheet.lower), number(sheet.upper));
    let (entered, rival) = (number(entered), rival.map(number));
    let step = i64::from(sheet.step_in_force().0);
    let stands = match (side, rival) {
        (Side::Buy, Some(rival)) => entered.min(lower.max(rival + step)),
        (Side::Buy, None) => entered.min(lower),
        (Side::Sell, Some(rival)) => entered.max(upper.min(rival - step)),
        (Side::Sell, None) => entered.max(upper),
    };
    Price(u32::try_from(stands).expect("a price of the grid"))
}
