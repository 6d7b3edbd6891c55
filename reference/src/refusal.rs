//! The refusals by number (01 'Where a refusal arises'; 02 (1) for 13 and 14, 02 (2) for 15 and for what 3 means now, 02 (3)
//! for 16, 02 (4) for 17; 02 (5) has another use for 9).

/// `place` says where the fault lies, counted from 0: at which order in refusals 5–8, at which word of its list in all that
/// the waiting clock refuses word by word (11, 13, 14). It is 0 in all others.
#[derive(Clone, Copy, Debug, PartialEq, Eq)]
pub struct Refusal {
    pub number: u32,
    pub place: usize,
}

/// Too short for a heading.
pub const TOO_SHORT: Refusal = Refusal::new(1);
/// A wrong kind among the five words that every heading has.
pub const HEADING_KIND: Refusal = Refusal::new(2);
/// A heading price off the grid, be it D, H, the last purchase price or I.
pub const HEADING_PRICE: Refusal = Refusal::new(3);
/// More than 120 orders, or not as many words as the count of orders asks for, be it with a step word or without.
pub const LENGTH: Refusal = Refusal::new(4);
/// A number of no order or of one that is no Stepper, of no round of a stored result, a price off
/// the grid, a D at or above H, a code or side other than 0 and 1.
pub const ARGUMENT: Refusal = Refusal::new(9);
/// A space lent is too small, be it for the words of a result or for its fees.
pub const SPACE: Refusal = Refusal::new(10);
/// I = 1 for the next band, or an upper bound that would leave the grid.
pub const BAND: Refusal = Refusal::new(11);
/// Input that does not divide into words, or is longer than the longest sheet.
pub const INPUT: Refusal = Refusal::new(12);
/// A heading in which D < I < H fails.
pub const HEADING_BAND: Refusal = Refusal::new(15);
/// A tariff with a figure out of its range, or with its least fee above the greatest.
pub const TARIFF: Refusal = Refusal::new(16);
/// A sixth word of a wrong kind or value in a sheet as long as one with a step word.
pub const HEADING_STEP: Refusal = Refusal::new(17);

/// An order word of a wrong kind.
pub const ORDER_KIND: u32 = 5;
/// A disposition above 2, a limit off the grid, a Stepper without limit.
pub const ORDER_LIMIT: u32 = 6;
/// No pieces, or more than 1,000,000.
pub const ORDER_QUANTITY: u32 = 7;
/// More than 1,000,000 pieces ignored, or any by an order that is no Stepper.
pub const ORDER_IGNORED: u32 = 8;
/// A word that is neither a second of the day nor a bare round.
pub const CLOCK_WORD: u32 = 13;
/// A clock that runs backwards.
pub const CLOCK_BACK: u32 = 14;

impl Refusal {
    const fn new(number: u32) -> Refusal {
        Refusal { number, place: 0 }
    }

    /// The refusal as it is printed (01 'Listing').
    pub fn line(self) -> String {
        format!("refused {} {}", self.number, self.place)
    }
}
