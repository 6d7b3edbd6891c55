//! Random stored results: as they were written, spoilt, beside a sheet that is not theirs, and
//! asked for rounds that they have and have not.

use crate::answer::{space_of_opening, space_of_round, Opening, Round};
use crate::arguments::large_sheet;
use crate::chains::{chain_sheet, steady_chain};
use crate::damage::damage;
use crate::fast::opening::opening;
use crate::random::Random;
use crate::shapes::{mirrored, sheet_by_lot, Sizes};
use crate::sheet::{
    word, Grid, Order, Pieces, Price, QuotationStep, Sheet, Side, Terms, MOST_ORDERS, MOST_PIECES,
    MOST_STEP,
};

/// Results up to this length are taken as they are drawn; of longer ones only some.
const USUAL_WORDS: usize = 1_000;

/// What the view is asked: a sheet, the words stored beside it, and the number of a round.
#[derive(Clone, Debug, PartialEq, Eq)]
pub struct StoredCase {
    pub sheet: Vec<u32>,
    pub stored: Vec<u32>,
    pub round: u64,
}

/// A result of any sort, and rarely one of the largest.
pub fn stored_case(random: &mut Random) -> StoredCase {
    match random.one_in(400) {
        true => largest_case(random),
        false => usual_case(random),
    }
}

/// About a third are asked for a round they have and another third are spoilt. The others are
/// asked for a round past the last, or have a sheet with faults, or are cut apart at a wrong word.
fn usual_case(random: &mut Random) -> StoredCase {
    let (sheet, opening) = filed(random);
    let case = |stored, round| StoredCase {
        sheet: sheet.words(),
        stored,
        round,
    };
    match random.below(24) {
        0..=8 => case(opening.words(), round_of(random, &opening)),
        9..=11 => case(opening.words(), round_past(random, &opening)),
        12..=19 => {
            let stored = spoilt(random, &sheet, Grid::DOCUMENT, &opening);
            case(stored, any_round(random, &opening))
        }
        20..=22 => beside_faults(random, &sheet, &opening),
        _ => {
            let round = any_round(random, &opening);
            cut_wrong(random, case(opening.words(), round))
        }
    }
}

/// A sheet of any shape and its opening.
fn filed(random: &mut Random) -> (Sheet, Opening) {
    loop {
        let sheet = match random.one_in(4) {
            true => short_chain(random),
            false => large_sheet(random),
        };
        let opening = opening(&sheet, Grid::DOCUMENT);
        if opening.words().len() <= USUAL_WORDS || random.one_in(8) {
            return (sheet, opening);
        }
    }
}

/// Few enough orders that the result is of the usual length, yet with many rounds to ask for.
fn short_chain(random: &mut Random) -> Sheet {
    let orders = random.between(3, 40);
    if random.one_in(4) {
        let sheet = steady_chain(random, orders);
        return match random.one_in(2) {
            true => mirrored(&sheet, Grid::DOCUMENT),
            false => sheet,
        };
    }
    let sizes = Sizes {
        grid: Grid::DOCUMENT,
        orders,
        pieces: random.pick(&[3, 100, u64::from(MOST_PIECES)]),
    };
    // Chains, disturbed ones, and such as a search comes upon.
    let lot = random.pick(&[0, 0, 0, 2, 2, 2, 3]);
    sheet_by_lot(random, sizes, lot)
}

/// All 120 orders and some sixty rounds, at times with the whole space of 15,005 words.
fn largest_case(random: &mut Random) -> StoredCase {
    let sheet = full_chain(random);
    let opening = opening(&sheet, Grid::DOCUMENT);
    let mut stored = opening.words();
    match random.below(3) {
        0 => fill_space(random, &opening, &mut stored),
        1 => stored = spoilt(random, &sheet, Grid::DOCUMENT, &opening),
        _ => {}
    }
    StoredCase {
        sheet: sheet.words(),
        stored,
        round: any_round(random, &opening),
    }
}

/// A chain has an odd number of orders. The last one here bids too little to trade.
fn full_chain(random: &mut Random) -> Sheet {
    let sizes = Sizes {
        grid: Grid::DOCUMENT,
        orders: MOST_ORDERS as u64,
        pieces: MOST_PIECES.into(),
    };
    let mut sheet = chain_sheet(random, sizes);
    sheet.orders.push(Order {
        side: Side::Buy,
        terms: Terms::Limited {
            limit: Price(1),
            all_or_none: false,
        },
        quantity: Pieces(1),
    });
    match random.one_in(2) {
        true => mirrored(&sheet, Grid::DOCUMENT),
        false => sheet,
    }
}

/// The number of orders, which every round has fills for.
fn orders(opening: &Opening) -> usize {
    opening.rounds[0].fills.len()
}

fn stretch(opening: &Opening) -> usize {
    space_of_round(orders(opening)) as usize
}

/// The number of a round: each as likely as the others, but for the last.
fn round_of(random: &mut Random, opening: &Opening) -> u64 {
    let last = opening.rounds.len() as u64 - 1;
    let any = random.between(0, last);
    random.pick(&[any, any, any, last])
}

/// The first number past the last round, one a little further, or a large one. Of these some come to
/// a round or to a place in the list if they, or they times the words of a round, are cut down to
/// 16, 32 or 64 bits.
pub fn round_past(random: &mut Random, opening: &Opening) -> u64 {
    let rounds = opening.rounds.len() as u64;
    let (any, words) = (random.below(rounds), opening.words().len() as u64);
    let stretch = stretch(opening) as u64;
    match random.below(8) {
        0..=2 => rounds,
        3 => rounds + random.between(1, 3),
        4 => {
            let most = MOST_ORDERS as u64;
            let some = [
                most,
                most + 1,
                words,
                words + 1,
                space_of_opening(MOST_ORDERS),
            ];
            random.pick(&some).max(rounds)
        }
        5 => (1 << random.pick(&[16, 31, 32, 32, 63])) + any,
        6 => {
            let wraps = [(1 << 32) / stretch + 1, u64::MAX / stretch + 1];
            random.pick(&wraps)
        }
        _ => random.pick(&[(1 << 32) - 1, u64::MAX - any, u64::MAX, u64::MAX]),
    }
}

/// A round that the opening had, and at times one that it had not.
fn any_round(random: &mut Random, opening: &Opening) -> u64 {
    match random.one_in(4) {
        true => round_past(random, opening),
        false => round_of(random, opening),
    }
}

/// A sheet with faults, at times with such as leave it one that is accepted, and beside it the result
/// that it had without them, or other words, or none.
fn beside_faults(random: &mut Random, sheet: &Sheet, opening: &Opening) -> StoredCase {
    let mut words = sheet.words();
    damage(random, &mut words);
    let stored = match random.below(8) {
        0 => Vec::new(),
        1 => (0..random.between(1, 9))
            .map(|_| random.next() as u32)
            .collect(),
        2 => spoilt(random, sheet, Grid::DOCUMENT, opening),
        _ => opening.words(),
    };
    StoredCase {
        sheet: words,
        stored,
        round: any_round(random, opening),
    }
}

/// The sheet ends a little before or behind its end, or it is none of the words, or all.
fn cut_wrong(random: &mut Random, case: StoredCase) -> StoredCase {
    let all = [&case.sheet[..], &case.stored].concat();
    let right = case.sheet.len();
    let (before, behind) = (random.between(1, 4) as usize, random.between(1, 4) as usize);
    let place = match random.below(8) {
        0 => 0,
        1 => all.len(),
        2..=4 => right - before,
        _ => right + behind,
    };
    let (sheet, stored) = all.split_at(place);
    StoredCase {
        sheet: sheet.to_vec(),
        stored: stored.to_vec(),
        round: case.round,
    }
}

/// What the opening writes, with one thing done to it. A few come out as they were, where there is
/// nothing to be done that way.
pub fn spoilt(random: &mut Random, sheet: &Sheet, grid: Grid, opening: &Opening) -> Vec<u32> {
    let mut words = opening.words();
    match random.below(16) {
        0..=2 => change_by_one(random, opening, &mut words),
        3 => change_kind(random, opening, &mut words),
        4 => change_bit(random, opening, &mut words),
        5 => change_last(random, opening, &mut words),
        6 => exchange(random, &mut words),
        7 | 8 => shorten(random, opening, &mut words),
        9 | 10 => lengthen(random, opening, &mut words),
        11..=13 => words = other_result(random, sheet, grid, opening),
        _ => words = rounds_moved(random, opening),
    }
    words
}

/// The place of a word: the first, the last, the one before it, a figure or a fill of some round,
/// or any.
fn some_place(random: &mut Random, opening: &Opening) -> usize {
    let (orders, rounds) = (orders(opening) as u64, opening.rounds.len() as u64);
    let last = rounds * (orders + 4);
    let begin = random.below(rounds) * (orders + 4);
    let place = match random.below(7) {
        0 => 0,
        1 => last,
        2 => last - 1,
        3 => begin + random.below(4),
        4 | 5 if orders > 0 => begin + 4 + random.below(orders),
        _ => random.between(0, last),
    };
    place as usize
}

fn change_by_one(random: &mut Random, opening: &Opening, words: &mut [u32]) {
    let place = some_place(random, opening);
    words[place] = match random.one_in(2) {
        true => words[place].wrapping_add(1),
        false => words[place].wrapping_sub(1),
    };
}

fn change_kind(random: &mut Random, opening: &Opening, words: &mut [u32]) {
    let place = some_place(random, opening);
    words[place] = words[place].wrapping_add((random.between(1, 15) as u32) << 28);
}

fn change_bit(random: &mut Random, opening: &Opening, words: &mut [u32]) {
    let place = some_place(random, opening);
    words[place] ^= 1 << random.below(32);
}

/// Another ending, or another count of rounds, in the last word.
fn change_last(random: &mut Random, opening: &Opening, words: &mut [u32]) {
    let rounds = opening.rounds.len() as u32;
    let other = (opening.ending + random.between(1, 2) as u32) % 3;
    let (ending, count) = random.pick(&[
        (other, rounds),
        (other, rounds),
        (3, rounds),
        (opening.ending, rounds + 1),
        (opening.ending, 0),
        (opening.ending, orders(opening) as u32 + 1),
    ]);
    words[words.len() - 1] = word(15, ending << 16 | count);
}

/// Two words that are not the same, neighbours or not.
fn exchange(random: &mut Random, words: &mut [u32]) {
    let length = words.len() as u64;
    for _ in 0..40 {
        let one = random.below(length);
        let other = match random.one_in(2) {
            true => (one + 1) % length,
            false => random.below(length),
        };
        let (one, other) = (one as usize, other as usize);
        if words[one] != words[other] {
            words.swap(one, other);
            return;
        }
    }
}

/// By a word, to the middle, to nothing, to whole rounds, or to any length.
fn shorten(random: &mut Random, opening: &Opening, words: &mut Vec<u32>) {
    let length = words.len();
    let rounds = random.below(opening.rounds.len() as u64) as usize;
    let left = match random.below(6) {
        0 | 1 => length - 1,
        2 => length / 2,
        3 => 0,
        4 => rounds * stretch(opening),
        _ => random.below(length as u64) as usize,
    };
    words.truncate(left);
}

/// A word, a round or more at the end; or a round more before the last word, which counts it.
fn lengthen(random: &mut Random, opening: &Opening, words: &mut Vec<u32>) {
    let last = words[words.len() - 1];
    let round = opening.rounds[opening.rounds.len() - 1].words();
    match random.below(8) {
        0 | 1 => words.push(last),
        2 => words.push(0),
        3 => words.push(random.next() as u32),
        4 => words.extend(round),
        5 => {
            words.pop();
            words.extend(round);
            words.push(last + 1);
        }
        6 => words.extend(words.clone()),
        _ => fill_space(random, opening, words),
    }
}

/// As if the whole space had been stored, with what it had in it before: nothing, or another result.
fn fill_space(random: &mut Random, opening: &Opening, words: &mut Vec<u32>) {
    let space = space_of_opening(orders(opening)) as usize;
    let earlier = match random.one_in(2) {
        true => vec![0],
        false => words.clone(),
    };
    let wanting = space.max(words.len()) - words.len();
    words.extend(earlier.into_iter().cycle().take(wanting));
}

/// The result of a sheet that differs in one number, from a few draws if the first has the same
/// result.
fn other_result(random: &mut Random, sheet: &Sheet, grid: Grid, same: &Opening) -> Vec<u32> {
    for _ in 0..4 {
        let other = opening(&other_sheet(random, sheet, grid), grid);
        if other != *same {
            return other.words();
        }
    }
    same.words()
}

/// One order's quantity, limit or ignored quantity is one more or less; or the last purchase price or
/// the step is another. A number stays as it is where it cannot move that way.
fn other_sheet(random: &mut Random, sheet: &Sheet, grid: Grid) -> Sheet {
    let mut other = sheet.clone();
    let lot = random.below(10);
    if lot <= 2 || other.orders.is_empty() {
        other.last_purchase = other_price(random, sheet, grid);
        return other;
    }
    if lot == 3 {
        let step = random.between(1, u64::from(MOST_STEP)) as u32;
        return other.with_step(Some(QuotationStep(step)));
    }
    let place = random.below(other.orders.len() as u64) as usize;
    let order = &mut other.orders[place];
    let up = random.one_in(2);
    match &mut order.terms {
        Terms::Limited { limit, .. } | Terms::Stepper { limit, .. } if lot <= 6 => {
            limit.0 = beside(limit.0, up, 1, grid.last);
        }
        Terms::Stepper { ignored, .. } if lot == 7 => {
            *ignored = Pieces(beside(ignored.0 as u32, up, 0, MOST_PIECES).into());
        }
        _ => {
            let quantity = beside(order.quantity.0 as u32, up, 1, MOST_PIECES);
            order.quantity = Pieces(quantity.into());
        }
    }
    other
}

/// A last purchase price one step off, on a bound, or any.
fn other_price(random: &mut Random, sheet: &Sheet, grid: Grid) -> Price {
    let last = sheet.last_purchase.0;
    let up = random.one_in(2);
    let any = random.between(1, grid.last.into()) as u32;
    let one_off = beside(last, up, 1, grid.last);
    Price(random.pick(&[one_off, one_off, sheet.lower.0, sheet.upper.0, any]))
}

/// The next number up or down, kept within bounds.
fn beside(number: u32, up: bool, least: u32, most: u32) -> u32 {
    match up {
        true => (number + 1).min(most),
        false => number.max(least + 1) - 1,
    }
}

/// The same rounds in another order, one in the place of another, or one left out; where there is only
/// one, it is written twice.
fn rounds_moved(random: &mut Random, opening: &Opening) -> Vec<u32> {
    let mut rounds: Vec<Round> = opening.rounds.clone();
    let count = rounds.len();
    let one = random.below(count as u64) as usize;
    let next = (one + 1) % count;
    match random.below(5) {
        _ if count == 1 => rounds.push(rounds[0].clone()),
        0 => rounds.reverse(),
        1 => rounds.rotate_left(1),
        2 => rounds.swap(one, next),
        3 => rounds[next] = rounds[one].clone(),
        _ => {
            rounds.remove(one);
        }
    }
    let ending = opening.ending;
    Opening { rounds, ending }.words()
}
