//! Fills, by walking down from lawful total to lawful total on both sides.

use super::{near_bound, Keenness, Live, State};
use crate::sheet::{Price, Side};
use std::cmp::Reverse;

/// A side's eligible orders by priority, with the sum of remainders before each.
pub struct Queue {
    orders: Vec<Live>,
    /// One longer than the orders: what is filled when the first 0, 1, 2, ... are.
    before: Vec<u64>,
}

impl Queue {
    /// The orders that are eligible at the potential purchase price, by priority (01 'Fills'):
    /// the keener limit in force first, those at the near bound or keener being level; on
    /// level limits all-or-none orders last; then as they were filed.
    pub fn new(state: &State, side: Side, live: &[Live], potential: Price) -> Queue {
        let asked = Keenness::of(side, potential);
        let bound = near_bound(state.sheet, side);
        let eligible = live.iter().filter(|order| order.limit >= asked);
        let mut orders: Vec<Live> = eligible.copied().collect();
        orders.sort_by_key(|order| {
            let rank = order.limit.min(bound);
            (Reverse(rank), order.all_or_none, order.number)
        });
        let mut before = vec![0];
        for order in &orders {
            before.push(before[before.len() - 1] + order.remaining);
        }
        Queue { orders, before }
    }

    fn whole(&self) -> u64 {
        self.before[self.orders.len()]
    }

    /// The largest total at or below the asked one that the side can lawfully reach: the
    /// orders are filled one after the other, and the one in which the asked total ends
    /// takes a part of its remainder unless it is all-or-none.
    fn lawful_at_or_below(&self, asked: u64) -> u64 {
        let complete = self.before.partition_point(|sum| *sum <= asked) - 1;
        match self.orders.get(complete) {
            Some(order) if !order.all_or_none => asked,
            _ => self.before[complete],
        }
    }

    /// Puts the fills that make up a lawful total into the list.
    fn fill(&self, total: u64, fills: &mut [u64]) {
        let mut left = total;
        for order in &self.orders {
            let pieces = left.min(order.remaining);
            fills[order.number] = pieces;
            left -= pieces;
        }
    }
}

/// The largest total that is lawful on both sides (01 'Fills'). Each step goes down to the next
/// total that the side in turn can reach, until neither goes further; 0 is lawful on both.
fn largest_common(buys: &Queue, sells: &Queue) -> u64 {
    let mut total = buys.whole().min(sells.whole());
    loop {
        let reached = sells.lawful_at_or_below(buys.lawful_at_or_below(total));
        if reached == total {
            return total;
        }
        total = reached;
    }
}

/// The total and the fills by order number.
pub fn fills(state: &State, buys: &Queue, sells: &Queue) -> (u64, Vec<u64>) {
    let total = largest_common(buys, sells);
    let mut fills = vec![0; state.remaining.len()];
    buys.fill(total, &mut fills);
    sells.fill(total, &mut fills);
    (total, fills)
}
