//! Random quotation steps, most of them such that another one would let Steppers stand elsewhere.

use crate::random::Random;
use crate::sheet::{Grid, QuotationStep, Sheet, Terms, MOST_STEP};

const MOST: u64 = MOST_STEP as u64;

/// The step word for a sheet that has its orders, or none, as in about half of them.
pub fn random_step(random: &mut Random, sheet: &Sheet, grid: Grid) -> Option<QuotationStep> {
    match random.one_in(2) {
        true => Some(some_step(random, sheet, grid)),
        false => None,
    }
}

/// A step for a sheet that has its orders: small, as large as may be, any, and often one by which
/// some order comes to stand just at, before or behind another.
pub fn some_step(random: &mut Random, sheet: &Sheet, grid: Grid) -> QuotationStep {
    let number = match random.below(10) {
        0 => 1,
        1 | 2 => random.between(2, 3),
        3..=6 => near_a_distance(random, sheet, grid),
        7 => random.between(1, 20),
        8 => random.between(1, MOST),
        _ => random.pick(&[MOST, MOST, MOST - 1]),
    };
    step(number)
}

/// The step word for a chain, or none: a small step, or one up to the largest for which the chain
/// has its orders far enough apart.
pub fn chain_step(random: &mut Random, largest: u64) -> Option<QuotationStep> {
    if random.one_in(2) {
        return None;
    }
    let largest = largest.clamp(1, MOST);
    let (small, any) = (random.between(1, 5), random.between(1, largest));
    let number = random.pick(&[1, small, small, any, any, largest]);
    Some(step(number.min(largest)))
}

/// As far as it is from some limit or bound to another, or one more or less: there a Stepper comes
/// to its entered limit, to a bound or past another order. The first numbers beyond the grid's
/// ends are looked at too.
fn near_a_distance(random: &mut Random, sheet: &Sheet, grid: Grid) -> u64 {
    let mut marks = vec![0, grid.last + 1, sheet.lower.0, sheet.upper.0];
    for order in &sheet.orders {
        if let Terms::Limited { limit, .. } | Terms::Stepper { limit, .. } = order.terms {
            marks.push(limit.0);
        }
    }
    let from = random.pick(&marks);
    let distances = marks.iter().map(|to| u64::from(to.abs_diff(from)));
    let near: Vec<u64> = distances.filter(|d| (1..=MOST).contains(d)).collect();
    if near.is_empty() {
        return random.between(1, MOST);
    }
    (random.pick(&near) + random.below(3)).clamp(2, MOST + 1) - 1
}

fn step(number: u64) -> QuotationStep {
    QuotationStep(number as u32)
}
