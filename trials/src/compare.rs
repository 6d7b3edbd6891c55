//! One case: every call of the library beside the reference implementation's fast way.

use crate::boxashewu::raw;
use crate::case::{narrow, Case};
use crate::expected;
use crate::lent::{Entry, Lent, Spaces};
use crate::tally::{Call, Tally};
use reference::answer::{
    check_fee_spaces, check_space, hexadecimal, space_of_opening, space_of_round, Opening, Round,
};
use reference::arguments::{Charged, Waited};
use reference::fast::opening::{first_round, opening};
use reference::lines::{joined, joined_fees, joined_view};
use reference::refusal::Refusal;
use reference::results::StoredCase;
use reference::sheet::{read, Grid, Sheet};
use std::fmt::{Debug, LowerHex};

const GRID: Grid = Grid::DOCUMENT;

/// A call that the two answer differently: as a line of the program `calls`, and what differs.
pub struct Difference {
    pub line: String,
    pub what: String,
}

type Compared = Result<(), Difference>;

/// The words of a result, or the refusal of a call that writes.
type Written = Result<Vec<u32>, Refusal>;

/// The words of a result and the fees, or the refusal of the call that writes both.
type Billed = Result<(Vec<u32>, Vec<u64>), Refusal>;

/// A case, one of its sheets, and the list of words that the library is given. It is a copy, so that a word that was changed is
/// seen.
struct Asked<'a> {
    case: &'a Case,
    words: &'a [u32],
    given: Vec<u32>,
}

impl<'a> Asked<'a> {
    fn new(case: &'a Case, words: &'a [u32]) -> Asked<'a> {
        let given = words.to_vec();
        Asked { case, words, given }
    }

    /// A call on the sheet, as a line.
    fn line(&self, call: &str, number: Option<u64>) -> String {
        joined(call, number, self.words)
    }

    /// The answers of the two are the same, and the sheet is as it was.
    fn same<T: Debug + PartialEq>(
        &self,
        line: impl Fn() -> String,
        library: T,
        reference: T,
    ) -> Compared {
        let what = if library != reference {
            format!("the library\n  {library:?}\nthe reference implementation\n  {reference:?}")
        } else if self.given != self.words {
            let left = hexadecimal(&self.given, " ");
            format!("the library left the sheet as\n  {left}")
        } else {
            return Ok(());
        };
        Err(Difference { line: line(), what })
    }

    /// A call that writes: its record, and every word of the space and beside it.
    fn written(
        &self,
        call: &Writing,
        space: u64,
        answer: &Written,
        lent: &mut Lent<u32>,
    ) -> Compared {
        let (given, salt) = (&self.given, self.case.price);
        let library = lent.lend(space as usize, salt, |at, room| unsafe {
            (call.library)(given.as_ptr(), given.len(), at, room)
        });
        let line = || self.line(call.line, Some(space));
        self.same(line, library, expected::space(answer))?;
        let result = answer.as_ref().map_or(&[][..], Vec::as_slice);
        as_due(line, "word", lent, result)
    }

    /// The opening with its fees: its record, and every entry of both spaces and beside them.
    fn billed(&self, asked: &Charged, answer: &Billed, lent: &mut Spaces) -> Compared {
        let library = self.opening_fees(asked, lent);
        let line = || joined_fees(asked, self.words);
        self.same(line, library, expected::charged(answer))?;
        let (words, fees) = match answer {
            Ok((words, fees)) => (words.as_slice(), fees.as_slice()),
            Err(_) => (&[][..], &[][..]),
        };
        as_due(line, "word", &lent.words, words)?;
        as_due(line, "fee", &lent.fees, fees)
    }

    /// The library's record of it.
    fn opening_fees(&self, asked: &Charged, lent: &mut Spaces) -> raw::SpaceReply {
        let (given, salt) = (&self.given, self.case.price);
        let (room, list) = (asked.space as usize, asked.list as usize);
        let tariff = &asked.tariff;
        let (rate, least) = (narrow(tariff.rate), narrow(tariff.least));
        let greatest = narrow(tariff.greatest);
        let Spaces { words, fees } = lent;
        words.lend(room, salt, |at, room| {
            fees.lend(list, salt, |to, places| unsafe {
                let (sheet, count) = (given.as_ptr(), given.len());
                raw::auction_opening_fees(sheet, count, rate, least, greatest, at, room, to, places)
            })
        })
    }
}

/// A space holds what it should: what was to be written, and otherwise what it held.
fn as_due<T: Entry + LowerHex>(
    line: impl Fn() -> String,
    entry: &str,
    lent: &Lent<T>,
    result: &[T],
) -> Compared {
    match lent.wrong(result) {
        None => Ok(()),
        Some((place, holds, due)) => {
            let what =
                format!("{entry} {place} of the space holds {holds:08x} and should hold {due:08x}");
            Err(Difference { line: line(), what })
        }
    }
}

/// A call that writes: its name in a line, and the function of the library.
struct Writing {
    line: &'static str,
    library: unsafe extern "C" fn(*const u32, usize, *mut u32, usize) -> raw::SpaceReply,
}

const FIRST_ROUND: Writing = Writing {
    line: "round",
    library: raw::auction_first_round,
};

const OPENING: Writing = Writing {
    line: "opening",
    library: raw::auction_opening,
};

/// What the reference implementation makes of a sheet.
struct Reworked {
    sheet: Result<Sheet, Refusal>,
    first: Option<Round>,
    opening: Option<Opening>,
}

impl Reworked {
    fn of(words: &[u32]) -> Reworked {
        let sheet = read(words, GRID);
        let first = sheet.as_ref().ok().map(|sheet| first_round(sheet, GRID));
        let opening = sheet.as_ref().ok().map(|sheet| opening(sheet, GRID));
        Reworked {
            sheet,
            first,
            opening,
        }
    }

    fn read(&self) -> Result<&Sheet, Refusal> {
        self.sheet.as_ref().map_err(|refusal| *refusal)
    }

    /// The words of the first round, where the sheet is accepted and the space is enough.
    fn first_in(&self, space: u64) -> Written {
        check_space(space, space_of_round(self.read()?.orders.len()))?;
        Ok(self.first.as_ref().expect("the sheet is accepted").words())
    }

    /// The words of the opening, likewise.
    fn opening_in(&self, space: u64) -> Written {
        check_space(space, space_of_opening(self.read()?.orders.len()))?;
        Ok(self.opened().words())
    }

    /// The words of the opening and the fees, where the tariff is allowed too.
    fn billed_in(&self, asked: &Charged) -> Billed {
        let sheet = self.read()?;
        asked.tariff.check()?;
        check_fee_spaces(asked.space, asked.list, sheet.orders.len())?;
        let opening = self.opened();
        Ok((opening.words(), asked.tariff.fees(opening)))
    }

    fn opened(&self) -> &Opening {
        self.opening.as_ref().expect("the sheet is accepted")
    }
}

/// Compares all calls on a case and counts what was met.
pub fn compare(case: &Case, lent: &mut Spaces, tally: &mut Tally) -> Compared {
    let asked = Asked::new(case, &case.words);
    let reworked = Reworked::of(&case.words);
    compare_asking(&asked, &reworked, tally)?;
    compare_writing(&asked, &reworked, &mut lent.words, tally)?;
    compare_fees(&asked, &case.charged, &reworked, lent, tally)?;
    if let Some((words, charged)) = &case.chain {
        let asked = Asked::new(case, words);
        compare_fees(&asked, charged, &Reworked::of(words), lent, tally)?;
    }
    compare_bands(&asked, tally)?;
    compare_waiting(&case.waiting, tally)?;
    if let Some(asked) = &case.stored {
        compare_stored(asked, tally)?;
    }
    tally.sheets += 1;
    Ok(())
}

/// The calls on a sheet that write nothing.
fn compare_asking(asked: &Asked, reworked: &Reworked, tally: &mut Tally) -> Compared {
    let (at, count) = (asked.given.as_ptr(), asked.given.len());
    let (order, price) = (asked.case.order, asked.case.price);
    let due = expected::sheet(reworked.read());
    let checked = unsafe { raw::auction_check(at, count) };
    asked.same(|| asked.line("check", None), checked, due)?;
    tally.met(Call::Check, due.refusal);
    let due = expected::stepper_limit(reworked.read(), order);
    let limit = unsafe { raw::auction_stepper_limit(at, count, order as usize) };
    asked.same(|| asked.line("stepper", Some(order)), limit, due)?;
    tally.met(Call::StepperLimit, due.refusal);
    let due = expected::curves_at(reworked.read(), price);
    let curves = unsafe { raw::auction_curves_at(at, count, narrow(price)) };
    asked.same(|| asked.line("curves", Some(price)), curves, due)?;
    tally.met(Call::CurvesAt, due.refusal);
    Ok(())
}

/// The first round and the opening.
fn compare_writing(
    asked: &Asked,
    reworked: &Reworked,
    lent: &mut Lent<u32>,
    tally: &mut Tally,
) -> Compared {
    let space = asked.case.round_space;
    let first = reworked.first_in(space);
    asked.written(&FIRST_ROUND, space, &first, lent)?;
    tally.met(Call::FirstRound, expected::space(&first).refusal);
    let space = asked.case.opening_space;
    let opened = reworked.opening_in(space);
    asked.written(&OPENING, space, &opened, lent)?;
    tally.met(Call::Opening, expected::space(&opened).refusal);
    if let (Ok(sheet), Some(opening), Ok(_)) = (&reworked.sheet, &reworked.opening, &opened) {
        tally.opened(sheet, opening);
    }
    Ok(())
}

/// The opening with its fees.
fn compare_fees(
    asked: &Asked,
    charged: &Charged,
    reworked: &Reworked,
    lent: &mut Spaces,
    tally: &mut Tally,
) -> Compared {
    let billed = reworked.billed_in(charged);
    asked.billed(charged, &billed, lent)?;
    tally.met(Call::OpeningFees, expected::charged(&billed).refusal);
    if let Ok((_, fees)) = &billed {
        tally.charged(charged.tariff, reworked.opened(), fees);
    }
    Ok(())
}

/// The calls without a sheet.
fn compare_bands(asked: &Asked, tally: &mut Tally) -> Compared {
    let of = &asked.case.indicative;
    let (lower, upper) = of.band;
    let (traded, closing, auction) = (of.traded, of.closing, of.auction);
    let (low, high) = (narrow(lower), narrow(upper));
    let due = expected::indicative(of);
    let line = || format!("indicative {lower} {upper} {traded} {closing} {auction}");
    let price = unsafe {
        raw::auction_indicative_price(low, high, traded, narrow(closing), narrow(auction))
    };
    asked.same(line, price, due)?;
    tally.met(Call::IndicativePrice, due.refusal);
    let (code, indicative) = asked.case.next;
    let due = expected::next(asked.case.next);
    let band = unsafe { raw::auction_next_band(narrow(code), narrow(indicative)) };
    asked.same(|| format!("next {code} {indicative}"), band, due)?;
    tally.met(Call::NextBand, due.refusal);
    let ((lower, upper), side) = asked.case.widening;
    let due = expected::widened(asked.case.widening);
    let band = unsafe { raw::auction_widened_band(narrow(lower), narrow(upper), narrow(side)) };
    asked.same(|| format!("widen {lower} {upper} {side}"), band, due)?;
    tally.met(Call::WidenedBand, due.refusal);
    if due.refusal == 0 {
        tally.widened(if side == 0 { upper } else { lower });
    }
    Ok(())
}

/// The waiting clock, on a copy of its list.
fn compare_waiting(asked: &Waited, tally: &mut Tally) -> Compared {
    let (lower, upper) = asked.band;
    let given = asked.words.clone();
    let due = expected::waiting(asked);
    let waiting = unsafe {
        raw::auction_waiting_clock(narrow(lower), narrow(upper), given.as_ptr(), given.len())
    };
    if waiting != due || given != asked.words {
        let line = joined(&format!("waiting {lower}"), Some(upper), &asked.words);
        let left = hexadecimal(&given, " ");
        let what = format!("the library\n  {waiting:?}\nthe reference implementation\n  {due:?}\nthe list afterwards\n  {left}");
        return Err(Difference { line, what });
    }
    tally.met(Call::WaitingClock, due.refusal);
    if due.refusal == 0 {
        tally.waited(given.len(), due.phase, due.due);
        tally.widened_by_waiting([lower, upper], [due.lower, due.upper]);
    }
    Ok(())
}

/// A stored result: whether it opens, and a round of it, on copies of sheet and result.
fn compare_stored(asked: &StoredCase, tally: &mut Tally) -> Compared {
    let (sheet, stored) = (asked.sheet.clone(), asked.stored.clone());
    let (at, count, to, length) = (sheet.as_ptr(), sheet.len(), stored.as_ptr(), stored.len());
    let opened = unsafe { raw::auction_stored_opens(at, count, to, length) };
    let round = unsafe { raw::auction_stored_round(at, count, to, length, asked.round as usize) };
    let fills: Vec<u64> = (stored.iter().skip(round.fills).take(round.count))
        .map(|word| u64::from(word % (1 << 28)))
        .collect();
    let due = (expected::stored_opens(asked), expected::stored_round(asked));
    if (opened, (round, fills.clone())) != due || sheet != asked.sheet || stored != asked.stored {
        let line = joined_view(asked, asked.sheet.len() as u64);
        let what = format!("the library\n  {opened:?}\n  {round:?}\n  {fills:?}\nthe reference implementation\n  {due:?}\nor it changed a list");
        return Err(Difference { line, what });
    }
    tally.met(Call::StoredOpens, opened.refusal);
    tally.met(Call::StoredRound, round.refusal);
    tally.compared(opened.different, asked, round.count);
    Ok(())
}
