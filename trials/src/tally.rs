//! What was met on the way.

use reference::answer::Opening;
use reference::fast::opening::first_round;
use reference::fees::{worth, Tariff};
use reference::results::StoredCase;
use reference::sheet::{Grid, Order, Pieces, Sheet};

#[derive(Clone, Copy)]
pub enum Call {
    Check,
    StepperLimit,
    CurvesAt,
    FirstRound,
    Opening,
    OpeningFees,
    IndicativePrice,
    NextBand,
    WidenedBand,
    WaitingClock,
    StoredOpens,
    StoredRound,
}

/// Their names, in the same order.
const CALLS: [&str; 12] = [
    "check",
    "stepper_limit",
    "curves_at",
    "first_round",
    "opening",
    "opening_fees",
    "indicative_price",
    "next_band",
    "widened_band",
    "waiting_clock",
    "stored_opens",
    "stored_round",
];

/// 0, and the numbers of the refusals.
const NUMBERS: usize = 18;

#[derive(Default)]
pub struct Tally {
    pub sheets: u64,
    /// For each call, how often it was refused with each number; under 0, how often it answered.
    calls: [[u64; NUMBERS]; 12],
    /// Openings of 1, 2, 3 to 9, 10 to 59, 60 rounds and more.
    rounds: [u64; 5],
    most_rounds: usize,
    situations: [u64; 5],
    endings: [u64; 3],
    /// Openings of sheets of 100 orders and more, and of 120.
    large: u64,
    largest: u64,
    with_steppers: u64,
    with_all_or_none: u64,
    /// Openings of sheets with a step word, and those of them whose first round would be another without it.
    with_step: u64,
    by_the_step: u64,
    /// Openings whose first round trades.
    trading: u64,
    fees: Fees,
    /// Waiting lists that were followed: to a phase that is on, with 0, 1, 2 to 9, 10 to 142 and 143 openings due.
    waiting: u64,
    due: [u64; 5],
    /// Widenings of a bound below 10, and waiting lists that widen one.
    small: u64,
    small_lists: u64,
    longest_list: usize,
    /// Stored results that are different; and of all of them the most words, and the largest number of a round that was read.
    different: u64,
    longest_result: usize,
    latest_round: u64,
}

/// What was charged.
#[derive(Default)]
struct Fees {
    /// Openings of which some order has to pay.
    openings: u64,
    /// Fills that were raised to the least fee, cut to the greatest, or left at what the rate asks, and how many of the last
    /// came to exactly half a heller.
    raised: u64,
    cut: u64,
    left: u64,
    halves: u64,
    /// The largest fee of an order.
    largest: u64,
}

impl Fees {
    /// A fill of at least one piece, by what it is worth.
    fn add(&mut self, tariff: Tariff, worth: u64) {
        match tariff.share(worth) {
            share if share < tariff.least => self.raised += 1,
            share if share > tariff.greatest => self.cut += 1,
            _ => {
                self.left += 1;
                self.halves += u64::from(tariff.leaves_half(worth));
            }
        }
    }

    fn join(&mut self, other: &Fees) {
        self.openings += other.openings;
        self.raised += other.raised;
        self.cut += other.cut;
        self.left += other.left;
        self.halves += other.halves;
        self.largest = self.largest.max(other.largest);
    }

    fn print(&self) {
        println!(
            "openings charged: {}, largest fee of an order: {}",
            self.openings, self.largest
        );
        println!(
            "fills raised to the least fee: {}, cut to the greatest: {}, left: {}, of these rounded at a half: {}",
            self.raised, self.cut, self.left, self.halves
        );
    }
}

impl Tally {
    pub fn met(&mut self, call: Call, refusal: u32) {
        self.calls[call as usize][refusal as usize] += 1;
    }

    /// An opening that was not refused.
    pub fn opened(&mut self, sheet: &Sheet, opening: &Opening) {
        let (rounds, orders) = (opening.rounds.len(), sheet.orders.len());
        let bucket = match rounds {
            0 | 1 => 0,
            2 => 1,
            3..=9 => 2,
            10..=59 => 3,
            _ => 4,
        };
        self.rounds[bucket] += 1;
        self.most_rounds = self.most_rounds.max(rounds);
        self.endings[opening.ending as usize] += 1;
        self.large += u64::from(orders >= 100);
        self.largest += u64::from(orders == 120);
        self.with_steppers += u64::from(sheet.orders.iter().any(Order::is_stepper));
        self.with_all_or_none += u64::from(sheet.orders.iter().any(Order::is_all_or_none));
        self.with_step += u64::from(sheet.step.is_some());
        self.by_the_step += u64::from(goes_by_the_step(sheet));
        self.trading += u64::from(opening.rounds[0].total > Pieces(0));
        for round in &opening.rounds {
            self.situations[round.situation as usize] += 1;
        }
    }

    /// An opening with its fees that was not refused.
    pub fn charged(&mut self, tariff: Tariff, opening: &Opening, fees: &[u64]) {
        let largest = fees.iter().copied().max().unwrap_or(0);
        self.fees.openings += u64::from(largest > 0);
        self.fees.largest = self.fees.largest.max(largest);
        for round in &opening.rounds {
            let Some(price) = round.purchase_price else {
                continue;
            };
            for fill in round.fills.iter().filter(|fill| **fill > Pieces(0)) {
                self.fees.add(tariff, worth(*fill, price));
            }
        }
    }

    /// A waiting list that was not refused.
    pub fn waited(&mut self, words: usize, phase: u32, due: u32) {
        let bucket = match due {
            0 | 1 => due as usize,
            2..=9 => 2,
            10..=142 => 3,
            _ => 4,
        };
        self.due[bucket] += 1;
        self.waiting += u64::from(phase);
        self.longest_list = self.longest_list.max(words);
    }

    /// A widening that was not refused, by the bound that it moves.
    pub fn widened(&mut self, bound: u64) {
        self.small += u64::from(bound < 10);
    }

    /// A waiting list that was not refused, by the band before it and after.
    pub fn widened_by_waiting(&mut self, before: [u64; 2], after: [u32; 2]) {
        let moved = |(before, after): (u64, u32)| before < 10 && before != after.into();
        self.small_lists += u64::from(before.into_iter().zip(after).any(moved));
    }

    /// A stored result beside its sheet, by whether it is different and how many fills the round has that was read.
    pub fn compared(&mut self, different: u32, asked: &StoredCase, fills: usize) {
        self.different += u64::from(different);
        self.longest_result = self.longest_result.max(asked.stored.len());
        if fills > 0 {
            self.latest_round = self.latest_round.max(asked.round);
        }
    }

    pub fn join(&mut self, other: &Tally) {
        let sum = |own: &mut [u64], others: &[u64]| {
            own.iter_mut().zip(others).for_each(|(own, n)| *own += n);
        };
        for (own, others) in self.calls.iter_mut().zip(&other.calls) {
            sum(own, others);
        }
        sum(&mut self.rounds, &other.rounds);
        sum(&mut self.situations, &other.situations);
        sum(&mut self.endings, &other.endings);
        sum(&mut self.due, &other.due);
        self.waiting += other.waiting;
        self.small += other.small;
        self.small_lists += other.small_lists;
        self.longest_list = self.longest_list.max(other.longest_list);
        self.sheets += other.sheets;
        self.most_rounds = self.most_rounds.max(other.most_rounds);
        self.large += other.large;
        self.largest += other.largest;
        self.with_steppers += other.with_steppers;
        self.with_all_or_none += other.with_all_or_none;
        self.with_step += other.with_step;
        self.by_the_step += other.by_the_step;
        self.trading += other.trading;
        self.fees.join(&other.fees);
        self.different += other.different;
        self.longest_result = self.longest_result.max(other.longest_result);
        self.latest_round = self.latest_round.max(other.latest_round);
    }

    pub fn print(&self) {
        println!("sheets: {}", self.sheets);
        for (name, counts) in CALLS.iter().zip(&self.calls) {
            print_call(name, counts);
        }
        let [one, two, few, many, sixty] = self.rounds;
        println!(
            "openings of 100 orders and more: {}, of 120: {}",
            self.large, self.largest
        );
        println!(
            "with Steppers: {}, with all-or-none orders: {}",
            self.with_steppers, self.with_all_or_none
        );
        println!(
            "with a step word: {}, of these with another first round than without it: {}",
            self.with_step, self.by_the_step
        );
        println!("trading in the first round: {}", self.trading);
        println!("of one round {one}, of two {two}, of 3 to 9 {few}, of 10 to 59 {many}, of 60 and more {sixty}");
        println!("most rounds: {}", self.most_rounds);
        println!("rounds of situations 0 to 4: {:?}", self.situations);
        println!("endings 0 to 2: {:?}", self.endings);
        self.fees.print();
        let [none, one, few, many, most] = self.due;
        println!(
            "waiting lists to a phase that is on: {}, of most words: {}",
            self.waiting, self.longest_list
        );
        println!(
            "widenings of a bound below 10: {}, waiting lists that widen one: {}",
            self.small, self.small_lists
        );
        println!("openings due 0: {none}, 1: {one}, 2 to 9: {few}, 10 to 142: {many}, 143: {most}");
        println!(
            "stored results that differ: {}, of most words: {}, latest round read: {}",
            self.different, self.longest_result, self.latest_round
        );
    }
}

/// Whether the first round would be another if the sheet had no step word.
fn goes_by_the_step(sheet: &Sheet) -> bool {
    let first = |sheet: &Sheet| first_round(sheet, Grid::DOCUMENT);
    sheet.step.is_some() && first(sheet) != first(&sheet.with_step(None))
}

/// How often a call answered, and the refusals that it met by their numbers.
fn print_call(name: &str, counts: &[u64; NUMBERS]) {
    let met = counts.iter().enumerate().skip(1).filter(|(_, n)| **n > 0);
    let refused: Vec<String> = met.map(|(number, n)| format!("{number}: {n}")).collect();
    println!(
        "{name}: answered {}, refused {}",
        counts[0],
        refused.join(", ")
    );
}
