//! Indicative price and band.

use crate::refusal::{Refusal, ARGUMENT, BAND};
use crate::sheet::{Grid, Price};

fn argument(grid: Grid, number: u64) -> Result<Price, Refusal> {
    grid.price(number).ok_or(ARGUMENT)
}

/// D and H as arguments: both on the grid, D below H.
pub fn band(grid: Grid, lower: u64, upper: u64) -> Result<(Price, Price), Refusal> {
    let (lower, upper) = (argument(grid, lower)?, argument(grid, upper)?);
    if lower >= upper {
        return Err(ARGUMENT);
    }
    Ok((lower, upper))
}

/// If pieces were traded, the closing purchase price as it is, else the last auction price
/// moved into D..H. The one of the two that is not taken may be any number, like the count
/// of pieces.
pub fn indicative_price(
    (lower, upper): (u64, u64),
    traded: u64,
    closing: u64,
    auction: u64,
) -> Result<Price, Refusal> {
    let (lower, upper) = band(Grid::DOCUMENT, lower, upper)?;
    if traded > 0 {
        return argument(Grid::DOCUMENT, closing);
    }
    let auction = argument(Grid::DOCUMENT, auction)?;
    Ok(auction.clamp(lower, upper))
}

/// Code 0 is for shares, 1 for certificates.
fn percent(code: u64) -> Result<u64, Refusal> {
    match code {
        0 => Ok(20),
        1 => Ok(25),
        _ => Err(ARGUMENT),
    }
}

/// The new bounds lie q percent off I, both rounded towards I; one that comes to lie on I is
/// put one step off it. There is no next band for I = 1.
pub fn next_band(code: u64, indicative: u64) -> Result<(Price, Price), Refusal> {
    let q = percent(code)?;
    let i = u64::from(argument(Grid::DOCUMENT, indicative)?.0);
    if i == 1 {
        return Err(BAND);
    }
    let (mut lower, mut upper) = ((i * (100 - q)).div_ceil(100), i * (100 + q) / 100);
    if upper == i {
        upper += 1;
    }
    if lower == i {
        lower -= 1;
    }
    Ok((new_bound(lower)?, new_bound(upper)?))
}

/// After waiting one bound moves out: H for side 0, D for side 1.
pub fn widening(lower: u64, upper: u64, side: u64) -> Result<(Price, Price), Refusal> {
    let (lower, upper) = band(Grid::DOCUMENT, lower, upper)?;
    match side {
        0 => Ok((lower, new_bound(widened_upper(upper.0.into()))?)),
        1 => Ok((new_bound(widened_lower(lower.0.into()))?, upper)),
        _ => Err(ARGUMENT),
    }
}

/// Up by a tenth, rounded down, and by at least 1 (02 (6)): the tenth of a bound below 10 comes
/// to nothing.
fn widened_upper(upper: u64) -> u64 {
    let by_tenth = 11 * upper / 10;
    by_tenth.max(upper + 1)
}

/// Down by a tenth, rounded up, and by at least 1 unless it is already 1 (02 (6)).
fn widened_lower(lower: u64) -> u64 {
    if lower == 1 {
        return 1;
    }
    let by_tenth = (9 * lower).div_ceil(10);
    by_tenth.min(lower - 1)
}

/// A new bound off the grid, which only an upper one can be, is the band's refusal.
fn new_bound(number: u64) -> Result<Price, Refusal> {
    Grid::DOCUMENT.price(number).ok_or(BAND)
}
