//! Random sheets whose openings run many rounds.

use crate::fast::opening::opening;
use crate::random::Random;
use crate::shapes::{mixed_sheet, price, random_mix, random_order, Mix, Sizes};
use crate::sheet::{
    Grid, Order, Pieces, QuotationStep, Sheet, Side, Terms, LAST_PRICE, MOST_PIECES,
};
use crate::steps::{chain_step, random_step};

/// A chain of all-or-none pairs, one of which trades in each round. The first buy and the
/// first sell are equal; between the first and the second buy stands a Stepper too small
/// to make up for a sell, so that no further total is common to both sides. When the first
/// buy is gone, the ignored quantity lets the Stepper down below the next buy, and the next
/// pair trades.
pub fn chain_sheet(random: &mut Random, sizes: Sizes) -> Sheet {
    let last = u64::from(sizes.grid.last);
    let wanted = (sizes.orders.max(1) - 1).div_euclid(2);
    let (step, gap) = chain_gap(random, last, wanted);
    let room = (last - 3) / (gap + 1);
    let pairs = wanted.min(room);
    let least = random.between(2, sizes.pieces.clamp(2, 500_000));
    let most = (2 * least - 1).min(sizes.pieces.max(2));
    let sizes_of_pairs: Vec<u64> = (0..pairs).map(|_| random.between(least, most)).collect();
    let meeting = random.between(pairs + 1, last - gap * pairs);
    let mut buys = Vec::new();
    let mut sells = Vec::new();
    for (place, pieces) in sizes_of_pairs.iter().enumerate() {
        let place = place as u64;
        let buy_limit = meeting + gap * (pairs - place);
        let sell_limit = meeting - pairs + place;
        buys.push(all_or_none(Side::Buy, buy_limit, *pieces));
        sells.push(all_or_none(Side::Sell, sell_limit, *pieces));
    }
    let highest = meeting + gap * pairs;
    let stepper = Order {
        side: Side::Buy,
        terms: Terms::Stepper {
            limit: price(random.between(highest, last)),
            ignored: Pieces(most),
        },
        quantity: Pieces(random.between(1, least - 1)),
    };
    let place = random.between(0, buys.len() as u64) as usize;
    buys.insert(place, stepper);
    let mut sheet = chain_heading(random, last, meeting, highest);
    sheet.step = step;
    sheet.orders = merged(random, buys, sells);
    sheet
}

/// The quotation step of a chain, and how far its buys stand apart: by more than the step, so that
/// the Stepper comes to stand between two of them. It is one with which as many pairs as wanted
/// have room, if there is such a step.
fn chain_gap(random: &mut Random, last: u64, pairs: u64) -> (Option<QuotationStep>, u64) {
    let widest = (last - 3) / pairs.max(1);
    let step = chain_step(random, widest.max(4) - 3);
    let distance = u64::from(step.unwrap_or(QuotationStep::USUAL).0);
    (step, distance + random.pick(&[1, 1, 2]))
}

/// A chain whose Stepper trades in all rounds but the last, each time a few pieces: every sell has
/// some more than the buy it is paired with, and only the Stepper can make up for them. It has
/// more than all of these together, so that no further total becomes common, and fewer than any
/// buy. No other shape lets an order be charged so often.
pub fn steady_chain(random: &mut Random, orders: u64) -> Sheet {
    let pairs = (orders.max(1) - 1) / 2;
    let most_extra = random.pick(&[1, 20, 2_000]);
    let extras: Vec<u64> = (0..pairs).map(|_| random.between(1, most_extra)).collect();
    let stepper = extras.iter().sum::<u64>() + random.between(1, 1_000);
    let least = random.between(stepper + 1, 400_000);
    let most = random.between(least, 2 * least - 1);
    let last = u64::from(LAST_PRICE);
    let (step, gap) = chain_gap(random, last, pairs);
    let highest_low = last - (gap + 1) * pairs - 3;
    let low = random.between(1, highest_low);
    let meeting = random.pick(&[low, highest_low]) + pairs;
    let mut sheet = chain_heading(random, last, meeting, meeting + gap * pairs);
    sheet.step = step;
    let (mut buys, mut sells) = (Vec::new(), Vec::new());
    for (extra, place) in extras.into_iter().zip(0..) {
        let pieces = random.between(least, most);
        let buy_limit = meeting + gap * (pairs - place);
        buys.push(all_or_none(Side::Buy, buy_limit, pieces));
        let sell_limit = meeting - pairs + place;
        sells.push(all_or_none(Side::Sell, sell_limit, pieces + extra));
    }
    buys.push(Order {
        side: Side::Buy,
        terms: Terms::Stepper {
            limit: sheet.upper,
            ignored: Pieces(most),
        },
        quantity: Pieces(stepper),
    });
    sheet.orders = merged(random, buys, sells);
    sheet
}

fn all_or_none(side: Side, limit: u64, pieces: u64) -> Order {
    Order {
        side,
        terms: Terms::Limited {
            limit: price(limit),
            all_or_none: true,
        },
        quantity: Pieces(pieces),
    }
}

/// A band that holds the chain's buys.
fn chain_heading(random: &mut Random, last: u64, meeting: u64, highest: u64) -> Sheet {
    let lower = random.between(1, meeting.min(last - 2));
    let upper = random.between(highest.max(lower + 2), last);
    Sheet {
        lower: price(lower),
        upper: price(upper),
        last_purchase: price(random.between(lower, upper)),
        indicative: price(random.between(lower + 1, upper - 1)),
        step: None,
        orders: Vec::new(),
    }
}

/// Both sides' orders in one filing order, each side's own order kept.
fn merged(random: &mut Random, buys: Vec<Order>, sells: Vec<Order>) -> Vec<Order> {
    let mut merged = Vec::new();
    let (mut buys, mut sells) = (buys.into_iter().peekable(), sells.into_iter().peekable());
    while buys.peek().is_some() || sells.peek().is_some() {
        let next = match random.one_in(2) {
            true => buys.next(),
            false => sells.next(),
        };
        merged.extend(next);
    }
    merged
}

/// A chain with random orders in one or two places, or with another step, or both.
pub fn disturbed_chain(random: &mut Random, sizes: Sizes) -> Sheet {
    let mut sheet = chain_sheet(random, sizes);
    let mix = random_mix(random, sizes, &sheet);
    disturb(random, &mix, sizes.grid, &mut sheet);
    sheet
}

/// A sheet changed step by step, each change kept that does not make the opening shorter.
/// Among few orders this comes upon chains of other kinds than the one above.
pub fn climbed_sheet(random: &mut Random, sizes: Sizes) -> Sheet {
    let mut sheet = mixed_sheet(random, sizes);
    let steps = if sizes.orders <= 12 { 300 } else { 15 };
    let mix = close_mix(random, sizes, &sheet);
    let mut most = opening(&sheet, sizes.grid).rounds.len();
    for _ in 0..steps {
        let mut changed = sheet.clone();
        disturb(random, &mix, sizes.grid, &mut changed);
        let rounds = opening(&changed, sizes.grid).rounds.len();
        if rounds >= most {
            (sheet, most) = (changed, rounds);
        }
    }
    sheet
}

/// Orders of every disposition on both sides, all limits within a stretch of 15 prices or fewer
/// of the band.
fn close_mix(random: &mut Random, sizes: Sizes, sheet: &Sheet) -> Mix {
    let (lower, upper) = (u64::from(sheet.lower.0), u64::from(sheet.upper.0));
    let low = random.between(lower, upper);
    let window = (low, (low + 14).min(upper));
    Mix {
        buys: window,
        sells: window,
        buy_share: 4,
        all_or_none_share: 5,
        stepper_share: 3,
        without_limit_share: 0,
        least: 1,
        pieces: sizes.pieces,
        ignored: (2 * sizes.pieces).min(u64::from(MOST_PIECES)),
    }
}

/// Puts random orders in the place of one or two of a sheet's own, and at times another step word,
/// or none, in the place of what it has; then the orders may stay.
fn disturb(random: &mut Random, mix: &Mix, grid: Grid, sheet: &mut Sheet) {
    let other_step = random.one_in(6);
    let least = if other_step { 0 } else { 1 };
    for _ in 0..random.between(least, 2) {
        if sheet.orders.is_empty() {
            break;
        }
        let place = random.below(sheet.orders.len() as u64) as usize;
        sheet.orders[place] = random_order(random, mix);
    }
    if other_step {
        sheet.step = random_step(random, sheet, grid);
    }
}
