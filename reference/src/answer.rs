//! The result words of a round and of an opening, and how they are printed.

use crate::refusal::{Refusal, SPACE};
use crate::sheet::{value, word, Pieces, Price};

/// What a round gives. A purchase price of 0 in the words is none here.
#[derive(Clone, Debug, PartialEq, Eq)]
pub struct Round {
    pub situation: u32,
    pub auction_price: Price,
    pub purchase_price: Option<Price>,
    pub total: Pieces,
    pub fills: Vec<Pieces>,
}

/// What an opening gives.
#[derive(Clone, Debug, PartialEq, Eq)]
pub struct Opening {
    pub rounds: Vec<Round>,
    pub ending: u32,
}

impl Round {
    /// A word for each figure of the round, of kinds 10 to 13, and one of kind 14 for each
    /// order's fill (01 'Opening').
    pub fn words(&self) -> Vec<u32> {
        let purchase = self.purchase_price.map_or(0, |price| price.0);
        let mut words = vec![
            word(10, self.situation),
            word(11, self.auction_price.0),
            word(12, purchase),
            word(13, self.total.0 as u32),
        ];
        words.extend(self.fills.iter().map(|fill| word(14, fill.0 as u32)));
        words
    }

    /// The same figures and fills as they are printed for a round of a stored result, in decimal.
    pub fn line(&self) -> String {
        let values = self.words().into_iter().map(value);
        let printed: Vec<String> = values.map(|value| value.to_string()).collect();
        printed.join(" ")
    }
}

impl Opening {
    /// The rounds one after the other, then a word with the ending and how many they are.
    pub fn words(&self) -> Vec<u32> {
        let rounds = self.rounds.len() as u32;
        let mut words: Vec<u32> = self.rounds.iter().flat_map(Round::words).collect();
        words.push(word(15, self.ending * 65_536 + rounds));
        words
    }
}

pub fn space_of_round(orders: usize) -> u64 {
    4 + orders as u64
}

/// Room for the most rounds that there can be, n + 1, and the last word; an opening of fewer
/// rounds needs it too.
pub const fn space_of_opening(orders: usize) -> u64 {
    let n = orders as u64;
    (n + 1) * (n + 4) + 1
}

pub fn check_space(lent: u64, needed: u64) -> Result<(), Refusal> {
    if lent < needed {
        return Err(SPACE);
    }
    Ok(())
}

/// The opening with its fees is lent two spaces, one for words as always and a list with a place
/// for each order. Either can be too small, and the refusal does not say which.
pub fn check_fee_spaces(space: u64, list: u64, orders: usize) -> Result<(), Refusal> {
    check_space(space, space_of_opening(orders))?;
    check_space(list, orders as u64)
}

/// Words as 8 lower-case hexadecimal digits each.
pub fn hexadecimal(words: &[u32], between: &str) -> String {
    let digits: Vec<String> = words.iter().map(|word| format!("{word:08x}")).collect();
    digits.join(between)
}
