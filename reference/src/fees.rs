//! Fees: what an opening costs each order by a tariff.

use crate::answer::{Opening, Round};
use crate::refusal::{Refusal, TARIFF};
use crate::sheet::{Pieces, Price};

/// A rate counts parts of the worth, and this many are all of it.
pub const RATE_PARTS: u64 = 10_000;
/// What neither the least nor the greatest fee may exceed, in hellers: a million crowns.
pub const MOST_FEE: u64 = 100_000_000;
/// A price counts steps, money is counted in hellers.
const HELLERS_A_STEP: u64 = 10;

/// A tariff's figures as they are given, allowed or not.
#[derive(Clone, Copy, Debug, PartialEq, Eq)]
pub struct Tariff {
    /// In parts of the worth.
    pub rate: u64,
    /// The bounds, in hellers, between which the fee of every single fill is kept.
    pub least: u64,
    pub greatest: u64,
}

/// What a fill comes to in money, in hellers.
pub fn worth(fill: Pieces, price: Price) -> u64 {
    fill.0 * u64::from(price.0) * HELLERS_A_STEP
}

impl Tariff {
    /// Three ranges, and bounds that leave room for a fee; they may be equal, and then every fill
    /// costs the same.
    pub fn check(self) -> Result<(), Refusal> {
        let in_range =
            self.rate <= RATE_PARTS && self.least <= MOST_FEE && self.greatest <= MOST_FEE;
        match in_range && self.least <= self.greatest {
            true => Ok(()),
            false => Err(TARIFF),
        }
    }

    /// Whole hellers of a worth by the rate, and the parts of one more that are left over. At most
    /// 10^13 hellers are rated, so that the product stays within 64 bits.
    fn rated(self, worth: u64) -> (u64, u64) {
        let product = worth * self.rate;
        (product / RATE_PARTS, product % RATE_PARTS)
    }

    /// Whether the rate leaves half a heller of a worth, neither more nor less.
    pub fn leaves_half(self, worth: u64) -> bool {
        2 * self.rated(worth).1 == RATE_PARTS
    }

    /// What the rate alone asks for a worth: from half a heller on, one more is due.
    pub fn share(self, worth: u64) -> u64 {
        let (whole, left_over) = self.rated(worth);
        whole + u64::from(2 * left_over >= RATE_PARTS)
    }

    /// The fee of a fill. The bounds are for those who trade: where nothing was filled nothing is
    /// owed, not even the least fee.
    pub fn fee(self, fill: Pieces, price: Price) -> u64 {
        match fill {
            Pieces(0) => 0,
            _ => self
                .share(worth(fill, price))
                .clamp(self.least, self.greatest),
        }
    }

    /// What an order owes for one round, by the price at which it traded: the auction price may
    /// lie beyond the band, the purchase price does not. Without one nobody has traded.
    fn fee_in(self, round: &Round, order: usize) -> u64 {
        let fill = round.fills[order];
        match round.purchase_price {
            Some(price) => self.fee(fill, price),
            None => {
                assert!(fill == Pieces(0), "pieces were filled at no price");
                0
            }
        }
    }

    /// What an order owes for the whole opening. Each round is charged by itself, rounded and kept
    /// within the bounds before they are added up.
    pub fn fee_of_order(self, opening: &Opening, order: usize) -> u64 {
        let rounds = opening.rounds.iter();
        rounds.map(|round| self.fee_in(round, order)).sum()
    }

    /// The fees by order number. The tariff is one that was checked.
    pub fn fees(self, opening: &Opening) -> Vec<u64> {
        let orders = opening.rounds.first().map_or(0, |round| round.fills.len());
        let numbers = 0..orders;
        numbers.map(|k| self.fee_of_order(opening, k)).collect()
    }
}
