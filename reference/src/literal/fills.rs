//! Fills, by trying every list of fills against F1–F4.

use super::limits::{counts_at, entered_limit};
use super::Book;
use crate::answer::hexadecimal;
use crate::sheet::{Pieces, Price, Side};

/// The pieces that a round gives each order, by order number.
type List = Vec<Pieces>;

/// What the four rules ask of an order beyond the book: the potential purchase price,
/// which there is in situation 0 alone.
pub struct Trial<'a> {
    pub book: &'a Book<'a>,
    pub potential: Option<Price>,
}

/// The auction price, or the bound nearest to it where it is outside the band; none in
/// situations 1–4 (01 'Fills').
pub fn potential_purchase_price(book: &Book, situation: u32, auction: Price) -> Option<Price> {
    if situation != 0 {
        return None;
    }
    if auction < book.sheet.lower {
        return Some(book.sheet.lower);
    }
    if auction > book.sheet.upper {
        return Some(book.sheet.upper);
    }
    Some(auction)
}

impl Trial<'_> {
    fn side(&self, k: usize) -> Side {
        self.book.sheet.orders[k].side
    }

    fn numbers(&self) -> std::ops::Range<usize> {
        0..self.book.sheet.orders.len()
    }

    /// Something remains of the order and its limit in force allows the potential purchase
    /// price. Where there is no such price, nothing is eligible.
    fn eligible(&self, k: usize) -> bool {
        let Some(potential) = self.potential else {
            return false;
        };
        let remains = self.book.remaining[k] > Pieces(0);
        remains && counts_at(self.side(k), self.book.in_force[k], potential)
    }

    /// Of two buys the higher limit in force is better, of two sells the lower one. Buys at
    /// H or more are level with each other, and so are sells at D or less.
    fn better_limit(&self, first: usize, second: usize) -> bool {
        let (first_limit, second_limit) = (self.book.in_force[first], self.book.in_force[second]);
        let (lower, upper) = (self.book.sheet.lower, self.book.sheet.upper);
        match self.side(first) {
            Side::Buy => first_limit > second_limit && second_limit < upper,
            Side::Sell => first_limit < second_limit && second_limit > lower,
        }
    }

    /// The better limit in force ranks first. On level limits an all-or-none order ranks
    /// behind the others; between two alike in that too, the lower number was filed first.
    fn ranked_before(&self, first: usize, second: usize) -> bool {
        if self.better_limit(first, second) {
            return true;
        }
        if self.better_limit(second, first) {
            return false;
        }
        let orders = &self.book.sheet.orders;
        let disposition = (
            orders[first].is_all_or_none(),
            orders[second].is_all_or_none(),
        );
        match disposition {
            (false, true) => true,
            (true, false) => false,
            _ => first < second,
        }
    }

    fn filled_completely(&self, list: &List, k: usize) -> bool {
        list[k] == self.book.remaining[k]
    }

    fn total(&self, list: &List, side: Side) -> Pieces {
        let orders = self.numbers().filter(|k| self.side(*k) == side);
        orders.map(|k| list[k]).sum()
    }

    /// F1: an order that gets pieces is eligible and gets no more than remains of it.
    fn f1(&self, list: &List) -> bool {
        self.numbers()
            .all(|k| list[k] == Pieces(0) || self.eligible(k) && list[k] <= self.book.remaining[k])
    }

    /// F2: once an order of a side falls short of its remainder, the eligible ones ranked
    /// after it get no pieces.
    fn f2(&self, list: &List) -> bool {
        let below_unfilled = |k: usize| {
            self.numbers().any(|above| {
                self.side(above) == self.side(k)
                    && self.ranked_before(above, k)
                    && !self.filled_completely(list, above)
            })
        };
        let mut eligible = self.numbers().filter(|k| self.eligible(*k));
        eligible.all(|k| list[k] == Pieces(0) || !below_unfilled(k))
    }

    /// F3: no all-or-none order is filled in part.
    fn f3(&self, list: &List) -> bool {
        let orders = &self.book.sheet.orders;
        let mut all_or_none = self.numbers().filter(|k| orders[*k].is_all_or_none());
        all_or_none.all(|k| list[k] == Pieces(0) || list[k] == self.book.remaining[k])
    }

    /// F4: as many pieces are bought as sold.
    fn f4(&self, list: &List) -> bool {
        self.total(list, Side::Buy) == self.total(list, Side::Sell)
    }

    /// The list with the largest total among those that meet F1–F4, and this total, counted
    /// on the buys. There must be one such list and no second.
    pub fn largest(&self) -> (Pieces, List) {
        let mut best: Vec<(Pieces, List)> = Vec::new();
        let mut list = vec![Pieces(0); self.book.remaining.len()];
        loop {
            let lawful = self.f1(&list) && self.f2(&list) && self.f3(&list) && self.f4(&list);
            if lawful {
                keep_largest(&mut best, self.total(&list, Side::Buy), &list);
            }
            if !next_list(&mut list, &self.book.remaining) {
                break;
            }
        }
        if best.len() != 1 {
            let words = hexadecimal(&self.book.sheet.words(), " ");
            panic!("{} lists of the largest total: {words}", best.len());
        }
        best.remove(0)
    }

    /// Whether the price is worse than either of the order's limits, the entered one and the
    /// one in force: above it for a buy, below it for a sell.
    pub fn trades_past_limit(&self, k: usize, price: Price) -> bool {
        let order = &self.book.sheet.orders[k];
        let (in_force, entered) = (self.book.in_force[k], entered_limit(self.book.sheet, order));
        match order.side {
            Side::Buy => price > in_force || price > entered,
            Side::Sell => price < in_force || price < entered,
        }
    }
}

/// Keeps the lists of the largest total seen so far.
fn keep_largest(best: &mut Vec<(Pieces, List)>, total: Pieces, list: &List) {
    let largest = best.first().map(|(total, _)| *total);
    if largest > Some(total) {
        return;
    }
    if largest < Some(total) {
        best.clear();
    }
    best.push((total, list.clone()));
}

/// Counts on to the next list, each order from 0 to its remainder; false after the last.
fn next_list(list: &mut List, remaining: &[Pieces]) -> bool {
    for (fill, remainder) in list.iter_mut().zip(remaining) {
        if *fill < *remainder {
            fill.0 += 1;
            return true;
        }
        *fill = Pieces(0);
    }
    false
}
