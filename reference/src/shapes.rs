//! Random sheets of many shapes, on a grid of any size.

use crate::chains::{chain_sheet, climbed_sheet, disturbed_chain};
use crate::fast::opening::first_round;
use crate::random::Random;
use crate::sheet::{Grid, Order, Pieces, Price, Sheet, Side, Terms, MOST_PIECES};
use crate::steps::{random_step, some_step};

/// What a random sheet keeps within.
#[derive(Clone, Copy)]
pub struct Sizes {
    pub grid: Grid,
    /// The most orders; a chain has its Stepper even if this is 0.
    pub orders: u64,
    /// The most pieces of an order; a chain's pairs have 2 even if this is 1.
    pub pieces: u64,
}

/// Where the limits of one side lie: low to high.
type Window = (u64, u64);

/// How the orders of one sheet are drawn.
pub struct Mix {
    pub buys: Window,
    pub sells: Window,
    /// In eighths: buys among all orders; then all-or-none, Steppers, without limit.
    pub buy_share: u64,
    pub all_or_none_share: u64,
    pub stepper_share: u64,
    pub without_limit_share: u64,
    /// The least and the most pieces; equal ones often make all-or-none orders fit.
    pub least: u64,
    pub pieces: u64,
    pub ignored: u64,
}

/// How many lots there are to draw a shape by, and those whose sheets are searched for by many openings.
pub const LOTS: u64 = 20;
pub const SLOW_LOTS: [u64; 2] = [3, 4];

/// A sheet of a shape drawn by lot.
pub fn random_sheet(random: &mut Random, sizes: Sizes) -> Sheet {
    let lot = random.below(LOTS);
    sheet_by_lot(random, sizes, lot)
}

pub fn sheet_by_lot(random: &mut Random, sizes: Sizes, lot: u64) -> Sheet {
    let sheet = match lot {
        0 | 1 => chain_sheet(random, sizes),
        2 => disturbed_chain(random, sizes),
        3 | 4 => climbed_sheet(random, sizes),
        5..=10 => trading_sheet(random, sizes),
        11..=14 => stepped_sheet(random, sizes),
        _ => mixed_sheet(random, sizes),
    };
    if random.one_in(2) {
        return mirrored(&sheet, sizes.grid);
    }
    sheet
}

/// D, I and H: narrow or wide, some as wide as two of the largest quotation steps, at times at an
/// end of the grid.
fn random_band(random: &mut Random, grid: Grid) -> (u64, u64, u64) {
    let last = u64::from(grid.last);
    let widest = last - 1;
    let most = random.pick(&[2, 4, 20, 2_000, last / 4, last / 2, widest]);
    let width = random.between(2, most.clamp(2, widest));
    let lower = match random.below(6) {
        0 => 1,
        1 => last - width,
        _ => random.between(1, last - width),
    };
    let upper = lower + width;
    (lower, random.between(lower + 1, upper - 1), upper)
}

/// A heading with no orders yet, and with no step word, which goes by the orders. The last purchase
/// price lies anywhere, most often in or near the band.
fn random_heading(random: &mut Random, grid: Grid) -> Sheet {
    let last = u64::from(grid.last);
    let (lower, indicative, upper) = random_band(random, grid);
    let last_purchase = match random.below(6) {
        0 => random.between(1, last),
        1 => random.pick(&[1, lower, upper, last]),
        2 => random.between(lower.max(4) - 3, (upper + 3).min(last)),
        _ => random.between(lower, upper),
    };
    Sheet {
        lower: price(lower),
        upper: price(upper),
        last_purchase: price(last_purchase),
        indicative: price(indicative),
        step: None,
        orders: Vec::new(),
    }
}

pub fn price(number: u64) -> Price {
    Price(number as u32)
}

/// Prices around the band, or outside it, or at few places.
fn random_window(random: &mut Random, grid: Grid, sheet: &Sheet) -> Window {
    let last = u64::from(grid.last);
    let (lower, upper) = (u64::from(sheet.lower.0), u64::from(sheet.upper.0));
    let fit = |low: u64, high: u64| (low.clamp(1, last), high.clamp(1, last));
    match random.below(10) {
        0 => (1, last),
        1 => fit(upper + 1, upper + 6),
        2 => fit(lower.max(8) - 7, lower.max(2) - 1),
        3 => fit(upper.max(3) - 2, upper + 2),
        4 => fit(lower.max(3) - 2, lower + 2),
        5 => {
            let at = random.between(lower, upper);
            fit(at, at + random.below(4))
        }
        6 => fit(lower.max(4) - 3, upper + 3),
        _ => (lower, upper),
    }
}

/// Buys and sells from one window, or from its halves, overlapping or apart, or from two windows.
fn random_windows(random: &mut Random, grid: Grid, sheet: &Sheet) -> (Window, Window) {
    let (low, high) = random_window(random, grid, sheet);
    let middle = random.between(low, high);
    match random.below(10) {
        0..=3 => ((middle, high), (low, middle)),
        4 => {
            let above = (middle + 1).min(u64::from(grid.last));
            ((low, middle), (above, high.max(above)))
        }
        5 => ((low, high), random_window(random, grid, sheet)),
        _ => ((low, high), (low, high)),
    }
}

pub fn random_mix(random: &mut Random, sizes: Sizes, sheet: &Sheet) -> Mix {
    let (buys, sells) = random_windows(random, sizes.grid, sheet);
    let most = random.pick(&[1, 3, 10, 1_000, sizes.pieces, sizes.pieces]);
    let pieces = most.min(sizes.pieces);
    let most_ignored = random.pick(&[0, pieces, 3 * pieces, 10 * pieces]);
    Mix {
        buys,
        sells,
        buy_share: random.pick(&[0, 1, 2, 3, 3, 4, 4, 4, 4, 4, 4, 4, 5, 5, 6, 7, 8]),
        all_or_none_share: random.pick(&[0, 1, 2, 4, 6, 8]),
        stepper_share: random.pick(&[0, 1, 2, 3, 5, 8]),
        without_limit_share: random.pick(&[0, 0, 1, 2, 4]),
        least: random.pick(&[1, 1, 1, pieces]),
        pieces,
        ignored: most_ignored.min(u64::from(MOST_PIECES)),
    }
}

pub fn mixed_sheet(random: &mut Random, sizes: Sizes) -> Sheet {
    let mut sheet = random_heading(random, sizes.grid);
    let mix = random_mix(random, sizes, &sheet);
    for _ in 0..sizes.orders {
        let order = random_order(random, &mix);
        sheet.orders.push(order);
    }
    sheet.step = random_step(random, &sheet, sizes.grid);
    sheet
}

/// A mixed sheet in whose first round something trades, if a few draws come upon one.
fn trading_sheet(random: &mut Random, sizes: Sizes) -> Sheet {
    let mut sheet = mixed_sheet(random, sizes);
    for _ in 0..4 {
        if first_round(&sheet, sizes.grid).total > Pieces(0) {
            break;
        }
        sheet = mixed_sheet(random, sizes);
    }
    sheet
}

/// A sheet with a step word whose first round would not be the same by the usual step, if a few
/// draws come upon one.
fn stepped_sheet(random: &mut Random, sizes: Sizes) -> Sheet {
    let first = |sheet: &Sheet| first_round(sheet, sizes.grid);
    let mut sheet = roomy_sheet(random, sizes);
    for _ in 0..6 {
        if first(&sheet) != first(&sheet.with_step(None)) {
            break;
        }
        sheet = roomy_sheet(random, sizes);
    }
    sheet
}

/// Orders of both sides with many Steppers, of which most may go further than the others of their side
/// do.
fn roomy_sheet(random: &mut Random, sizes: Sizes) -> Sheet {
    let mut sheet = random_heading(random, sizes.grid);
    let mut mix = random_mix(random, sizes, &sheet);
    mix.stepper_share = random.pick(&[2, 3, 5]);
    mix.buy_share = random.pick(&[3, 4, 5]);
    // The rivals are the foremost orders, or those in the middle, about which the price is decided.
    let whole = mix.pieces * sizes.orders;
    let ignored = random.pick(&[0, mix.pieces, 2 * mix.pieces, whole / 8, whole / 4]);
    mix.ignored = ignored.min(u64::from(MOST_PIECES));
    for _ in 0..sizes.orders {
        let mut order = random_order(random, &mix);
        if let Terms::Stepper { limit, .. } = &mut order.terms {
            let (own, last) = (u64::from(limit.0), u64::from(sizes.grid.last));
            let room = random.pick(&[0, 3, 20, 1_000]);
            *limit = price(match order.side {
                Side::Buy => random.between(own, (mix.buys.1 + room).min(last)),
                Side::Sell => random.between(mix.sells.0.max(room + 1) - room, own),
            });
        }
        sheet.orders.push(order);
    }
    sheet.step = Some(some_step(random, &sheet, sizes.grid));
    sheet
}

pub fn random_order(random: &mut Random, mix: &Mix) -> Order {
    let (side, (low, high)) = if random.below(8) < mix.buy_share {
        (Side::Buy, mix.buys)
    } else {
        (Side::Sell, mix.sells)
    };
    let limit = price(random.between(low, high));
    let all_or_none = random.below(8) < mix.all_or_none_share;
    let terms = if random.below(8) < mix.stepper_share {
        let ignored = Pieces(random.between(0, mix.ignored));
        Terms::Stepper { limit, ignored }
    } else if random.below(8) < mix.without_limit_share {
        Terms::WithoutLimit { all_or_none }
    } else {
        Terms::Limited { limit, all_or_none }
    };
    Order {
        side,
        terms,
        quantity: Pieces(random.between(mix.least, mix.pieces)),
    }
}

/// The sheet seen from the other side: buys become sells and prices run downwards. Distances stay,
/// and with them the quotation step.
pub fn mirrored(sheet: &Sheet, grid: Grid) -> Sheet {
    let turn = |price: Price| Price(grid.last + 1 - price.0);
    let turn_terms = |terms: Terms| match terms {
        Terms::WithoutLimit { all_or_none } => Terms::WithoutLimit { all_or_none },
        Terms::Limited { limit, all_or_none } => Terms::Limited {
            limit: turn(limit),
            all_or_none,
        },
        Terms::Stepper { limit, ignored } => Terms::Stepper {
            limit: turn(limit),
            ignored,
        },
    };
    let turn_order = |order: &Order| Order {
        side: match order.side {
            Side::Buy => Side::Sell,
            Side::Sell => Side::Buy,
        },
        terms: turn_terms(order.terms),
        quantity: order.quantity,
    };
    Sheet {
        lower: turn(sheet.upper),
        upper: turn(sheet.lower),
        last_purchase: turn(sheet.last_purchase),
        indicative: turn(sheet.indicative),
        step: sheet.step,
        orders: sheet.orders.iter().map(turn_order).collect(),
    }
}
