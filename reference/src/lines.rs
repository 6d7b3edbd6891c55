//! Random lines of the calls' protocol.

use crate::answer::{hexadecimal, space_of_opening, space_of_round};
use crate::arguments::{
    charged, charged_sheet, indicative, large_sheet, next, order_for, price_for, space_for,
    waiting, widening, Charged,
};
use crate::damage::damage;
use crate::fees::Tariff;
use crate::random::Random;
pub use crate::results::{stored_case, StoredCase};
use crate::shapes::{random_sheet, Sizes};
use crate::sheet::{Grid, Order};

#[derive(Clone, Copy)]
pub enum Kind {
    Check,
    Stepper,
    Curves,
    Round,
    Opening,
    Fees,
    Band,
    Small,
    Waiting,
    View,
}

impl Kind {
    pub fn named(name: &str) -> Option<Kind> {
        match name {
            "check" => Some(Kind::Check),
            "stepper" => Some(Kind::Stepper),
            "curves" => Some(Kind::Curves),
            "round" => Some(Kind::Round),
            "opening" => Some(Kind::Opening),
            "fees" => Some(Kind::Fees),
            "band" => Some(Kind::Band),
            "small" => Some(Kind::Small),
            "waiting" => Some(Kind::Waiting),
            "view" => Some(Kind::View),
            _ => None,
        }
    }
}

/// One line of a kind.
pub fn line(random: &mut Random, kind: Kind) -> String {
    match kind {
        Kind::Fees => fees_line(random),
        Kind::Band => band_line(random),
        Kind::Small => small_line(random),
        Kind::Waiting => waiting_line(random),
        Kind::View => view_line(random),
        _ => sheet_line(random, kind),
    }
}

/// Few orders and pieces, on any part of the real grid.
fn small_line(random: &mut Random) -> String {
    let sizes = Sizes {
        grid: Grid::DOCUMENT,
        orders: random.pick(&[0, 1, 2, 3, 4, 4, 5, 5, 6, 6, 7, 7]),
        pieces: random.pick(&[1, 2, 3, 4, 5, 7, 9, 12]),
    };
    let sheet = random_sheet(random, sizes);
    let space = space_of_opening(sheet.orders.len());
    joined("opening", Some(space), &sheet.words())
}

/// A call on a sheet. About a fifth are damaged, in the sheet or the argument or both.
fn sheet_line(random: &mut Random, kind: Kind) -> String {
    let mut sheet = large_sheet(random);
    if matches!(kind, Kind::Stepper) && !sheet.orders.iter().any(Order::is_stepper) {
        sheet = large_sheet(random);
    }
    let lot = random.below(16);
    let no_argument = matches!(kind, Kind::Check);
    let bad_sheet = lot < 2 || no_argument && lot == 2;
    let bad_argument = lot == 1 || lot == 2;
    let mut words = sheet.words();
    if bad_sheet {
        damage(random, &mut words);
    }
    let n = sheet.orders.len();
    match kind {
        Kind::Stepper => {
            let k = order_for(random, &sheet, bad_argument);
            joined("stepper", Some(k), &words)
        }
        Kind::Curves => {
            let p = price_for(random, &sheet, bad_argument);
            joined("curves", Some(p), &words)
        }
        Kind::Round => {
            let space = space_for(random, space_of_round(n), bad_argument);
            joined("round", Some(space), &words)
        }
        Kind::Opening => {
            let space = space_for(random, space_of_opening(n), bad_argument);
            joined("opening", Some(space), &words)
        }
        _ => joined("check", None, &words),
    }
}

/// The opening with its fees. In about an eighth of the lines the sheet, the tariff or a space is not
/// as it should be, or two of these are not, and the refusal must be that of the first.
fn fees_line(random: &mut Random) -> String {
    let sheet = charged_sheet(random);
    let lot = random.below(48);
    let (bad_sheet, bad_tariff) = (lot <= 2, (2..=4).contains(&lot));
    let bad_space = (4..=5).contains(&lot) || lot == 0;
    let mut words = sheet.words();
    if bad_sheet {
        damage(random, &mut words);
    }
    let asked = charged(random, &sheet, bad_tariff, bad_space);
    joined_fees(&asked, &words)
}

/// The call for fees as a line.
pub fn joined_fees(asked: &Charged, words: &[u32]) -> String {
    let Tariff {
        rate,
        least,
        greatest,
    } = asked.tariff;
    let call = format!("fees {rate} {least} {greatest} {}", asked.space);
    joined(&call, Some(asked.list), words)
}

/// The call, its number and the words, with single spaces.
pub fn joined(call: &str, number: Option<u64>, words: &[u32]) -> String {
    let mut line = call.to_string();
    if let Some(number) = number {
        line += &format!(" {number}");
    }
    if !words.is_empty() {
        line += " ";
        line += &hexadecimal(words, " ");
    }
    line
}

/// One of the three calls that take numbers alone.
fn band_line(random: &mut Random) -> String {
    match random.below(3) {
        0 => {
            let asked = indicative(random);
            let (lower, upper) = asked.band;
            let (closing, auction) = (asked.closing, asked.auction);
            format!(
                "indicative {lower} {upper} {} {closing} {auction}",
                asked.traded
            )
        }
        1 => {
            let (code, indicative) = next(random);
            format!("next {code} {indicative}")
        }
        _ => {
            let ((lower, upper), side) = widening(random);
            format!("widen {lower} {upper} {side}")
        }
    }
}

/// The waiting clock over a random day.
fn waiting_line(random: &mut Random) -> String {
    let asked = waiting(random);
    let (lower, upper) = asked.band;
    joined(&format!("waiting {lower}"), Some(upper), &asked.words)
}

/// A stored result beside its sheet. Now and then the sheet is said to have more words than there are
/// altogether.
fn view_line(random: &mut Random) -> String {
    let case = stored_case(random);
    let all = (case.sheet.len() + case.stored.len()) as u64;
    let right = case.sheet.len() as u64;
    let count = match random.below(60) {
        // The third would be right if it were cut down to 32 bits.
        0 => random.pick(&[all + 1, all + 1, (1 << 32) + right, all + 1_000, u64::MAX]),
        _ => right,
    };
    joined_view(&case, count)
}

/// The call for a round of a stored result as a line, with so many words said to be the sheet.
pub fn joined_view(case: &StoredCase, count: u64) -> String {
    let words = [&case.sheet[..], &case.stored].concat();
    joined(&format!("view {}", case.round), Some(count), &words)
}
