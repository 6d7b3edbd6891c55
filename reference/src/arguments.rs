//! Random arguments of the calls: sheets of real sizes, days, and the numbers beside them, some of them not allowed.

use crate::answer::space_of_opening;
use crate::chains::steady_chain;
use crate::days::{damage_day, day_of_small_band, random_day};
use crate::fees::{Tariff, MOST_FEE, RATE_PARTS};
use crate::random::Random;
use crate::shapes::{mirrored, random_sheet, sheet_by_lot, Sizes, LOTS, SLOW_LOTS};
use crate::sheet::{Grid, Pieces, Sheet, LAST_PRICE, MOST_ORDERS, MOST_PIECES};
use crate::waiting::{LAST_SECOND, WAIT};

/// A band is small with its upper bound up to here, a little above 10, where a tenth comes to 1.
const SMALL_UPPER: u64 = 12;

/// Up to 120 orders and a million pieces.
fn large_sizes(random: &mut Random) -> Sizes {
    let most = MOST_ORDERS as u64;
    let orders = match random.below(4) {
        0 => random.between(0, 6),
        1 => random.between(most - 3, most),
        _ => random.between(0, most),
    };
    Sizes {
        grid: Grid::DOCUMENT,
        orders,
        pieces: random.pick(&[5, 100, 10_000, u64::from(MOST_PIECES)]),
    }
}

pub fn large_sheet(random: &mut Random) -> Sheet {
    let sizes = large_sizes(random);
    random_sheet(random, sizes)
}

/// The same with most of the slow lots drawn again, for comparisons of millions of sheets.
pub fn quick_sheet(random: &mut Random) -> Sheet {
    let sizes = large_sizes(random);
    let mut lot = random.below(LOTS);
    while SLOW_LOTS.contains(&lot) && !random.one_in(16) {
        lot = random.below(LOTS);
    }
    sheet_by_lot(random, sizes, lot)
}

/// A sheet for the fees: of any shape, and at times a chain whose Stepper pays in nearly every round.
pub fn charged_sheet(random: &mut Random) -> Sheet {
    match random.one_in(16) {
        true => charged_chain(random),
        false => large_sheet(random),
    }
}

/// Either side may have the Stepper, and most often there are enough rounds for it to be charged
/// more than 32 bits hold.
pub fn charged_chain(random: &mut Random) -> Sheet {
    let most = MOST_ORDERS as u64;
    let any = random.between(0, most);
    let orders = random.pick(&[any, most - 1, most]);
    let sheet = steady_chain(random, orders);
    match random.one_in(2) {
        true => mirrored(&sheet, Grid::DOCUMENT),
        false => sheet,
    }
}

/// A Stepper if the sheet has one; else, or if bad, any number near the orders' or large.
pub fn order_for(random: &mut Random, sheet: &Sheet, bad: bool) -> u64 {
    let n = sheet.orders.len();
    let steppers: Vec<u64> = (0..n)
        .filter(|k| sheet.orders[*k].is_stepper())
        .map(|k| k as u64)
        .collect();
    if bad || steppers.is_empty() {
        let n = n as u64;
        return random.pick(&[0, n / 2, n.max(1) - 1, n, n + 1, 1 << 32, u64::MAX]);
    }
    random.pick(&steppers)
}

/// A price where demand or supply may change, or any; if bad, one off the grid.
pub fn price_for(random: &mut Random, sheet: &Sheet, bad: bool) -> u64 {
    let last = u64::from(LAST_PRICE);
    if bad {
        return random.pick(&[0, last + 1, (1 << 32) + 1, u64::MAX]);
    }
    let mut prices = vec![1, last, sheet.lower.0.into(), sheet.upper.0.into()];
    prices.push(random.between(1, last));
    let step = u64::from(sheet.step_in_force().0);
    for order in &sheet.orders {
        let limit = u64::from(order.words()[0] & 0x00ff_ffff);
        prices.extend([limit, limit + 1, limit.max(1) - 1]);
        let (above, below) = (limit + step, limit.max(step) - step);
        prices.extend([above, above + 1, below, below.max(1) - 1]);
    }
    random.pick(&prices).clamp(1, last)
}

/// The space needed or more; if bad, too few words, most often by one.
pub fn space_for(random: &mut Random, needed: u64, bad: bool) -> u64 {
    if bad {
        return random.pick(&[needed - 1, needed - 1, needed - 1, needed / 2, 0]);
    }
    random.pick(&[needed, needed, needed + 1, needed + 1_000])
}

/// What the call for the fees is asked beside a sheet: the tariff, and the sizes of the spaces for
/// the words and for the fees.
pub struct Charged {
    pub tariff: Tariff,
    pub space: u64,
    pub list: u64,
}

/// If a space is bad, one of the two is too small, or both.
pub fn charged(random: &mut Random, sheet: &Sheet, bad_tariff: bool, bad_space: bool) -> Charged {
    let orders = sheet.orders.len();
    let tariff = tariff_for(random, sheet, bad_tariff);
    let (short, short_list) = match bad_space {
        true => random.pick(&[(true, false), (false, true), (true, true)]),
        false => (false, false),
    };
    Charged {
        tariff,
        space: space_for(random, space_of_opening(orders), short),
        list: list_for(random, sheet, short_list),
    }
}

/// The list of fees needed or more; if bad, too short, which none is where there are no orders.
fn list_for(random: &mut Random, sheet: &Sheet, bad: bool) -> u64 {
    let orders = sheet.orders.len() as u64;
    space_for(random, orders, bad && orders > 0)
}

/// A tariff that is allowed; if bad, one figure of it is not.
fn tariff_for(random: &mut Random, sheet: &Sheet, bad: bool) -> Tariff {
    let rate = rate(random);
    let (least, greatest) = fee_bounds(random, sheet, rate);
    let tariff = Tariff {
        rate,
        least,
        greatest,
    };
    match bad {
        true => spoilt(random, tariff),
        false => tariff,
    }
}

/// From nothing to the whole worth. Each worth is tens, so that an odd number of five hundreds
/// leaves half a heller of every odd number of tens.
fn rate(random: &mut Random) -> u64 {
    match random.below(8) {
        0 | 1 => random.pick(&[0, 1, RATE_PARTS / 2, RATE_PARTS - 1, RATE_PARTS]),
        2 => random.between(2, 9),
        3 | 4 => random.between(10, 100),
        5 | 6 => 500 * (2 * random.below(10) + 1),
        _ => random.between(0, RATE_PARTS),
    }
}

/// Least and greatest fee: as wide as may be, or met on one side, on both, or by every fill.
fn fee_bounds(random: &mut Random, sheet: &Sheet, rate: u64) -> (u64, u64) {
    let (one, other) = (near_fee(random, sheet, rate), near_fee(random, sheet, rate));
    let any = random.between(0, MOST_FEE);
    match random.below(12) {
        0..=3 => (0, MOST_FEE),
        4 => (one, MOST_FEE),
        5 => (0, one),
        6 | 7 => (one.min(other), one.max(other)),
        8 => (one, one),
        9 => (0, 0),
        10 => (MOST_FEE, MOST_FEE),
        _ => (one.min(any), one.max(any)),
    }
}

/// What some order of the sheet may have to pay if it is filled completely, by a price of the band;
/// or a heller more or less.
fn near_fee(random: &mut Random, sheet: &Sheet, rate: u64) -> u64 {
    let prices = [sheet.lower, sheet.upper, sheet.last_purchase];
    let quantities: Vec<Pieces> = sheet.orders.iter().map(|order| order.quantity).collect();
    let quantity = match quantities.is_empty() {
        true => Pieces(1),
        false => random.pick(&quantities),
    };
    let price = random.pick(&prices).clamp(sheet.lower, sheet.upper);
    let unbounded = Tariff {
        rate,
        least: 0,
        greatest: MOST_FEE,
    };
    let fee = unbounded.fee(quantity, price);
    random
        .pick(&[fee, fee, fee + 1, fee.max(1) - 1])
        .min(MOST_FEE)
}

/// One figure beyond its range, or a least fee just above the greatest.
fn spoilt(random: &mut Random, tariff: Tariff) -> Tariff {
    let lot = random.below(4);
    let most = if lot == 0 { RATE_PARTS } else { MOST_FEE };
    let beyond = random.pick(&[most + 1, most + 1, 1 << 32, u64::MAX]);
    let Tariff {
        mut rate,
        mut least,
        mut greatest,
    } = tariff;
    match lot {
        0 => rate = beyond,
        1 => least = beyond,
        2 => greatest = beyond,
        _ => {
            greatest = greatest.min(MOST_FEE - 1);
            least = greatest + 1;
        }
    }
    Tariff {
        rate,
        least,
        greatest,
    }
}

/// What the call for the indicative price is asked.
pub struct Indicative {
    pub band: (u64, u64),
    pub traded: u64,
    pub closing: u64,
    pub auction: u64,
}

pub fn indicative(random: &mut Random) -> Indicative {
    let band = band_bounds(random);
    let traded = random.pick(&[0, 0, 0, 1, 5_000_000, 1 << 32, u64::MAX]);
    let (closing, auction) = (band_price(random), band_price(random));
    Indicative {
        band,
        traded,
        closing,
        auction,
    }
}

/// The code and the indicative price of a next band.
pub fn next(random: &mut Random) -> (u64, u64) {
    let code = random.pick(&[0, 1, 0, 1, 0, 1, 0, 1, 2, u64::MAX]);
    (code, band_price(random))
}

/// The band and the side of a widening, one in five of a small band. That and the side have their
/// own draws, so that the other calls drawn along with it do not depend on how many these are.
pub fn widening(random: &mut Random) -> ((u64, u64), u64) {
    let any = band_bounds(random);
    let mut own = Random::new(random.next());
    let band = match own.one_in(5) {
        true => small_band(&mut own),
        false => any,
    };
    let side = own.pick(&[0, 1, 0, 1, 0, 1, 0, 1, 2, 1_u64 << 32]);
    (band, side)
}

/// Both bounds small and D below H, each such band as likely as any other.
fn small_band(random: &mut Random) -> (u64, u64) {
    let one = random.between(1, SMALL_UPPER);
    let other = random.between(1, SMALL_UPPER - 1);
    // The first one is left out of the second draw.
    let other = if other < one { other } else { other + 1 };
    (one.min(other), one.max(other))
}

/// Most often D below H.
fn band_bounds(random: &mut Random) -> (u64, u64) {
    let (one, other) = (band_price(random), band_price(random));
    match random.below(16) {
        0 => (one, other),
        1 => (one, one),
        _ => (one.min(other), one.max(other)),
    }
}

/// Prices at which the band's rules turn, small ones, any, and some off the grid.
fn band_price(random: &mut Random) -> u64 {
    let last = u64::from(LAST_PRICE);
    match random.below(30) {
        0 => random.pick(&[0, last + 1, 1 << 28, (1 << 32) + 7, u64::MAX]),
        1..=4 => random.between(1, 12),
        5 | 6 => random.between(833_330, 833_340),
        7 | 8 => random.between(799_996, 800_004),
        9 | 10 => random.between(909_086, 909_096),
        11 => random.between(last - 10, last),
        12 | 13 => random.between(80, 120),
        _ => random.between(1, last),
    }
}

/// What the waiting clock is asked.
pub struct Waited {
    pub band: (u64, u64),
    pub words: Vec<u32>,
}

/// About one list in six has faults.
pub fn waiting(random: &mut Random) -> Waited {
    let band = waiting_band(random);
    let small = band.1 <= SMALL_UPPER;
    let mut words = match small && random.one_in(4) {
        true => day_of_small_band(random),
        false => random_day(random),
    };
    if random.one_in(6) {
        damage_day(random, &mut words);
    }
    Waited { band, words }
}

/// A starting band: of any sort, and at times none; with an H that some widenings bring to the
/// end of the grid; of prices so small that they move by 1; or around a middling price.
fn waiting_band(random: &mut Random) -> (u64, u64) {
    match random.below(8) {
        0 | 1 => band_bounds(random),
        2..=4 => {
            let upper = upper_that_runs_out(random);
            let any = random.between(1, upper - 1);
            (random.pick(&[any, any, any.min(9), upper - 1]), upper)
        }
        5 => small_band(random),
        _ => {
            let lower = random.between(20, 400_000);
            (lower, lower + random.between(1, lower / 2))
        }
    }
}

/// The highest H that can be widened so many times, or the next above it, which cannot. A day has
/// time for more widenings than any H can take; beyond those it is the lowest H.
fn upper_that_runs_out(random: &mut Random) -> u64 {
    let last = u64::from(LAST_PRICE);
    let most = u64::from(LAST_SECOND / WAIT);
    let (few, any) = (random.between(0, 12), random.between(0, most));
    let times = random.pick(&[0, 1, 1, 2, 2, 3, few, any]);
    let highest = (0..times).fold(last, |upper, _| upper_before(upper));
    random.pick(&[highest, highest, highest + 1]).min(last)
}

/// The highest H that a widening brings no further than this one, be it by the tenth or by 1. It is
/// never below 2, as a band needs a D below its H.
pub fn upper_before(upper: u64) -> u64 {
    let by_tenth = (10 * upper + 9) / 11;
    by_tenth.min(upper - 1).max(2)
}
