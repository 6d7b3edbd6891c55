//! The two ways compared on random sheets.

use crate::answer::{hexadecimal, Opening, Round};
use crate::random::Random;
use crate::results::{round_past, spoilt};
use crate::shapes::{random_sheet, Sizes};
use crate::sheet::{read, Grid, Pieces, QuotationStep, Sheet, Side, Terms};
use crate::stored::Answer;
use crate::{fast, literal};

/// What the sheets of a comparison came to.
#[derive(Default)]
struct Tally {
    sheets: u64,
    /// Openings of 1, 2, 3, and 4 or more rounds.
    rounds: [u64; 4],
    most_rounds: usize,
    situations: [u64; 5],
    endings: [u64; 3],
    all_or_none_left: u64,
    outside_band: u64,
    with_steppers: u64,
    with_step_word: u64,
    /// Openings that would not be the same by the usual step.
    changed_by_step: u64,
    /// Steppers of first rounds, buys and sells, whose step leads off the grid.
    off_grid: [u64; 2],
    /// Answers about stored results: rounds, numbers of no round, differences within both lists and
    /// where the shorter one ends.
    stored: [u64; 4],
}

impl Tally {
    fn add(&mut self, sheet: &Sheet, grid: Grid, opening: &Opening) {
        let rounds = opening.rounds.len();
        self.sheets += 1;
        self.add_step(sheet, grid, opening);
        self.rounds[rounds.min(4) - 1] += 1;
        self.most_rounds = self.most_rounds.max(rounds);
        self.endings[opening.ending as usize] += 1;
        let mut filled = vec![0; sheet.orders.len()];
        for round in &opening.rounds {
            self.add_round(sheet, round, &filled);
            for (sum, fill) in filled.iter_mut().zip(&round.fills) {
                *sum += fill.0;
            }
        }
    }

    /// `filled` is what the rounds before have filled of each order.
    fn add_round(&mut self, sheet: &Sheet, round: &Round, filled: &[u64]) {
        let live = || {
            let orders = sheet.orders.iter().enumerate();
            orders.filter(|(k, order)| order.quantity.0 > filled[*k])
        };
        let outside = round.situation == 0 && !sheet.in_band(round.auction_price);
        let left = live().any(|(k, order)| {
            round.situation == 0 && order.is_all_or_none() && round.fills[k] == Pieces(0)
        });
        self.situations[round.situation as usize] += 1;
        self.outside_band += u64::from(outside);
        self.all_or_none_left += u64::from(left);
        self.with_steppers += u64::from(live().any(|(_, order)| order.is_stepper()));
    }

    fn add_step(&mut self, sheet: &Sheet, grid: Grid, opening: &Opening) {
        let usual = sheet.with_step(None);
        let changed = fast::opening::opening(&usual, grid) != *opening;
        self.with_step_word += u64::from(sheet.step.is_some());
        self.changed_by_step += u64::from(changed);
        let quantities: Vec<Pieces> = sheet.orders.iter().map(|order| order.quantity).collect();
        let step = sheet.step_in_force().0;
        for (k, order) in sheet.orders.iter().enumerate() {
            let Terms::Stepper { ignored, .. } = order.terms else {
                continue;
            };
            let rival = literal::limits::best_rival(sheet, grid, &quantities, k, ignored);
            match (order.side, rival) {
                (Side::Buy, Some(rival)) if rival.0 + step > grid.last => self.off_grid[0] += 1,
                (Side::Sell, Some(rival)) if rival.0 <= step => self.off_grid[1] += 1,
                _ => {}
            }
        }
    }

    fn print(&self, name: &str) {
        let [one, two, three, more] = self.rounds;
        println!("{name}: {} sheets", self.sheets);
        println!("  openings of 1, 2, 3, 4+ rounds: {one} {two} {three} {more}");
        println!("  most rounds: {}", self.most_rounds);
        println!("  rounds of situation 0..4: {:?}", self.situations);
        println!("  endings 0, 1, 2: {:?}", self.endings);
        println!(
            "  rounds of situation 0 that leave an all-or-none order unfilled: {}",
            self.all_or_none_left
        );
        println!(
            "  rounds with auction price outside the band in situation 0: {}",
            self.outside_band
        );
        println!("  rounds with Steppers: {}", self.with_steppers);
        println!("  sheets with a step word: {}", self.with_step_word);
        println!(
            "  openings that the usual step would change: {}",
            self.changed_by_step
        );
        println!(
            "  Steppers, buys and sells, whose step leads off the grid: {:?}",
            self.off_grid
        );
        println!(
            "  stored results: rounds, no such round, different within, different in length: {:?}",
            self.stored
        );
    }

    fn add_stored(&mut self, written: &[u32], stored: &[u32], answer: &Answer<Round>) {
        let shorter = written.len().min(stored.len());
        let place = match answer {
            Answer::Open(_) => 0,
            Answer::Refused(_) => 1,
            Answer::Different(place) if *place < shorter => 2,
            Answer::Different(_) => 3,
        };
        self.stored[place] += 1;
    }
}

/// Orders and pieces few enough that every list of fills is soon tried.
fn small_sizes(random: &mut Random, grid: Grid) -> Sizes {
    let few = random.below(2);
    let (orders, pieces) = random.pick(&[
        (few, 30),
        (2, 20),
        (3, 8),
        (3, 12),
        (4, 5),
        (4, 5),
        (4, 6),
        (5, 3),
        (5, 3),
        (5, 4),
        (6, 2),
        (7, 2),
    ]);
    Sizes {
        grid,
        orders,
        pieces,
    }
}

/// The first difference between the two ways on a sheet, in words; or the opening.
fn compare(sheet: &Sheet, grid: Grid, curve_prices: &[u32]) -> Result<Opening, String> {
    if read(&sheet.words(), grid).as_ref() != Ok(sheet) {
        return Err("the sheet is not read back".to_string());
    }
    let book = literal::Book::first(sheet, grid);
    for k in (0..sheet.orders.len()).filter(|k| sheet.orders[*k].is_stepper()) {
        let quick = fast::opening::limit_of_stepper(sheet, grid, k as u64);
        if quick != Ok(book.in_force[k]) {
            return Err(format!("Stepper {k}: {:?} {quick:?}", book.in_force[k]));
        }
    }
    for p in curve_prices {
        let slow = literal::price::carried_at(&book, crate::sheet::Price(*p));
        let quick = fast::opening::curves(sheet, grid, u64::from(*p));
        if quick != Ok([slow.demand.0, slow.supply.0, slow.volume.0]) {
            return Err(format!("curves at {p}: {slow:?} {quick:?}"));
        }
    }
    let (slow, quick) = (
        literal::opening::round(&book),
        fast::opening::first_round(sheet, grid),
    );
    if slow != quick {
        return Err(format!("first round: {slow:?} {quick:?}"));
    }
    let (slow, quick) = (
        literal::opening::opening(sheet, grid),
        fast::opening::opening(sheet, grid),
    );
    if slow.words() != quick.words() || slow != quick {
        return Err(format!("opening: {slow:?} {quick:?}"));
    }
    Ok(slow)
}

/// A step word of 1 says no more than none does.
fn compare_usual(sheet: &Sheet, grid: Grid) -> Result<(), String> {
    let said = sheet.with_step(Some(QuotationStep(1)));
    let (without, with) = (
        read(&sheet.with_step(None).words(), grid),
        read(&said.words(), grid),
    );
    let opened = |read: Result<Sheet, _>| read.map(|sheet| fast::opening::opening(&sheet, grid));
    match opened(without) == opened(with) {
        true => Ok(()),
        false => Err("a step of 1 with and without its word".to_string()),
    }
}

/// Stored words and rounds to ask for: those that the opening wrote, with each round and some past the
/// last, and a few spoilt ones.
fn stored_words(
    random: &mut Random,
    sheet: &Sheet,
    grid: Grid,
    opening: &Opening,
) -> Vec<(Vec<u32>, u64)> {
    let past = opening.rounds.len() as u64;
    let numbers = (0..past + 2).chain([round_past(random, opening)]);
    let mut asked: Vec<_> = numbers.map(|round| (opening.words(), round)).collect();
    for _ in 0..4 {
        let stored = spoilt(random, sheet, grid, opening);
        asked.push((stored, random.between(0, past)));
    }
    asked
}

/// The two ways on words stored beside a sheet with this opening.
fn compare_stored(
    sheet: &Sheet,
    grid: Grid,
    opening: &Opening,
    (stored, round): (&[u32], u64),
) -> Result<Answer<Round>, String> {
    let words = sheet.words();
    let slow = literal::stored::round(opening, stored, round);
    let quick = fast::stored::round(&words, grid, stored, round);
    if slow == quick && same_view(&words, grid, opening, stored) {
        return Ok(slow);
    }
    let stored = hexadecimal(stored, " ");
    Err(format!("round {round} of {stored}: {slow:?} {quick:?}"))
}

/// Whether both ways let a result open, and then have the same number of rounds and the same ending, or
/// tell the same place.
fn same_view(words: &[u32], grid: Grid, opening: &Opening, stored: &[u32]) -> bool {
    let slow = literal::stored::opens(opening, stored);
    match (slow, fast::stored::opens(words, grid, stored)) {
        (Answer::Open(slow), Answer::Open(quick)) => {
            (slow.rounds.len(), slow.ending) == (quick.rounds(), quick.ending())
        }
        (Answer::Different(slow), Answer::Different(quick)) => slow == quick,
        _ => false,
    }
}

/// Prices at which the curves of a real grid are compared: near limits, a quotation step from them,
/// and at random.
fn real_prices(random: &mut Random, sheet: &Sheet, grid: Grid) -> Vec<u32> {
    let mut prices = vec![1, grid.last, sheet.lower.0, sheet.upper.0];
    let step = sheet.step_in_force().0;
    for order in &sheet.orders {
        let limit = order.words()[0] & 0x00ff_ffff;
        let (above, below) = (limit + step, limit.max(step) - step);
        prices.extend([limit.max(1) - 1, limit, limit + 1]);
        prices.extend([above, above + 1, below, below.max(1) - 1]);
        prices.push(random.between(1, u64::from(grid.last)) as u32);
    }
    let on_grid = prices.into_iter().map(|price| price.clamp(1, grid.last));
    on_grid.collect()
}

/// The draws of a comparison. What is stored beside the sheets has its own, so that the sheets do not
/// depend on it.
struct Draws {
    sheets: Random,
    stored: Random,
}

/// Compares so many sheets; on a difference prints it and hands back false.
fn run(draws: &mut Draws, name: &str, count: u64, real: bool) -> bool {
    let Draws {
        sheets: random,
        stored,
    } = draws;
    let mut tally = Tally::default();
    for _ in 0..count {
        let grid = match real {
            true => Grid::DOCUMENT,
            false => Grid {
                last: random.between(8, 40) as u32,
            },
        };
        let sizes = small_sizes(random, grid);
        let sheet = random_sheet(random, sizes);
        let prices = match real {
            true => real_prices(random, &sheet, grid),
            false => (1..=grid.last).collect(),
        };
        let compared = compare(&sheet, grid, &prices)
            .and_then(|opening| compare_usual(&sheet, grid).map(|()| opening))
            .and_then(|opening| {
                for (stored, round) in stored_words(stored, &sheet, grid, &opening) {
                    let answer = compare_stored(&sheet, grid, &opening, (&stored, round))?;
                    tally.add_stored(&opening.words(), &stored, &answer);
                }
                Ok(opening)
            });
        match compared {
            Ok(opening) => tally.add(&sheet, grid, &opening),
            Err(difference) => {
                let words = hexadecimal(&sheet.words(), " ");
                println!("difference on a grid of {}: {words}", grid.last);
                println!("{difference}");
                return false;
            }
        }
    }
    tally.print(name);
    true
}

/// Small grids, then a hundredth as many sheets on the document's grid. False on a
/// difference.
pub fn agree(count: u64, seed: u64) -> bool {
    let mut draws = Draws {
        sheets: Random::new(seed),
        stored: Random::new(!seed),
    };
    let same = run(&mut draws, "small grids", count, false)
        && run(&mut draws, "grid of 1,000,000", count / 100, true);
    if same {
        println!("no difference");
    }
    same
}
