//! A stored result, read where it lies.

use super::opening::opening;
use crate::answer::{space_of_round, Round};
use crate::refusal::{Refusal, ARGUMENT};
use crate::sheet::{read, value, Grid, Pieces, Price};
use crate::stored::Answer;

/// A result that opened. Nothing is taken out of the stored list but what is asked for.
#[derive(Clone, Debug, PartialEq, Eq)]
pub struct View<'a> {
    stored: &'a [u32],
    /// n, by which the words of a round are told from those of the next.
    orders: usize,
}

impl<'a> View<'a> {
    pub fn orders(&self) -> usize {
        self.orders
    }

    pub fn rounds(&self) -> usize {
        self.stretches().count()
    }

    /// How the opening ended, from the last word.
    pub fn ending(&self) -> u32 {
        value(self.stored[self.stored.len() - 1]) >> 16
    }

    /// The stored list without its last word, a stretch for each round.
    fn stretches(&self) -> impl Iterator<Item = &'a [u32]> {
        let stretch = space_of_round(self.orders) as usize;
        self.stored[..self.stored.len() - 1].chunks_exact(stretch)
    }

    /// The words of a round, lent on from the stored list and not copied.
    fn stretch(&self, round: u64) -> Result<&'a [u32], Refusal> {
        let round = usize::try_from(round).map_err(|_| ARGUMENT)?;
        self.stretches().nth(round).ok_or(ARGUMENT)
    }

    /// Those of them that have the fills.
    pub fn fill_words(&self, round: u64) -> Result<&'a [u32], Refusal> {
        Ok(&self.stretch(round)?[4..])
    }

    pub fn round(&self, round: u64) -> Result<Round, Refusal> {
        let words = self.stretch(round)?;
        let purchase = value(words[2]);
        let fills = self.fill_words(round)?.iter();
        Ok(Round {
            situation: value(words[0]),
            auction_price: Price(value(words[1])),
            purchase_price: (purchase > 0).then_some(Price(purchase)),
            total: Pieces(value(words[3]).into()),
            fills: fills.map(|word| Pieces(value(*word).into())).collect(),
        })
    }
}

/// How far the lists go together; none if that is the whole of both.
fn first_difference(stored: &[u32], written: &[u32]) -> Option<usize> {
    let pairs = stored.iter().zip(written);
    let together = pairs.take_while(|(one, other)| one == other).count();
    (together < stored.len().max(written.len())).then_some(together)
}

/// The sheet's faults come first, then the comparison.
pub fn opens<'a>(sheet: &[u32], grid: Grid, stored: &'a [u32]) -> Answer<View<'a>> {
    let sheet = match read(sheet, grid) {
        Ok(sheet) => sheet,
        Err(refusal) => return Answer::Refused(refusal),
    };
    let orders = sheet.orders.len();
    match first_difference(stored, &opening(&sheet, grid).words()) {
        Some(place) => Answer::Different(place),
        None => Answer::Open(View { stored, orders }),
    }
}

/// Whether there is such a round is asked only of a result that opened.
pub fn round(sheet: &[u32], grid: Grid, stored: &[u32], round: u64) -> Answer<Round> {
    match opens(sheet, grid, stored) {
        Answer::Refused(refusal) => Answer::Refused(refusal),
        Answer::Different(place) => Answer::Different(place),
        Answer::Open(view) => match view.round(round) {
            Ok(round) => Answer::Open(round),
            Err(refusal) => Answer::Refused(refusal),
        },
    }
}
