//! Limits in force, from the entered limits put in order.

use super::{far_bound, near_bound, Keenness, Live, State};
use crate::sheet::{QuotationStep, Side, Terms};

/// The orders of a side with something remaining, by entered limit, keenest first.
fn entered(state: &State, side: Side) -> Vec<Live> {
    let mut orders: Vec<Live> = Vec::new();
    for (number, order) in state.sheet.orders.iter().enumerate() {
        if order.side != side || state.remaining[number] == 0 {
            continue;
        }
        let limit = match order.terms {
            Terms::WithoutLimit { .. } => near_bound(state.sheet, side),
            Terms::Limited { limit, .. } | Terms::Stepper { limit, .. } => {
                Keenness::of(side, limit)
            }
        };
        orders.push(Live {
            number,
            remaining: state.remaining[number],
            limit,
            all_or_none: order.is_all_or_none(),
        });
    }
    orders.sort_by_key(|order| std::cmp::Reverse(order.limit));
    orders
}

/// Walking from the keenest rival on, by entered limits and without the Stepper itself, the
/// best rival price is the limit of the one that takes the sum of pieces above the ignored
/// quantity (01 'Limits in force').
fn best_rival(entered: &[Live], stepper: usize, ignored: u64) -> Option<Keenness> {
    let mut pieces = 0;
    let mut rivals = entered.iter().filter(|order| order.number != stepper);
    let crossing = rivals.find(|rival| {
        pieces += rival.remaining;
        pieces > ignored
    });
    crossing.map(|rival| rival.limit)
}

/// A Stepper stands the quotation step keener than its best rival, at the far bound if that is
/// keener still or if it has no rival price, and in no case keener than its entered limit.
fn stepped(
    entered: Keenness,
    far: Keenness,
    rival: Option<Keenness>,
    step: QuotationStep,
) -> Keenness {
    let wanted = rival.map_or(far, |rival| rival.keener_by(step).max(far));
    wanted.min(entered)
}

/// The orders of a side with something remaining, by limit in force, keenest first.
pub fn in_force(state: &State, side: Side) -> Vec<Live> {
    let entered = entered(state, side);
    let far = far_bound(state.sheet, side);
    let step = state.sheet.step_in_force();
    let mut orders = entered.clone();
    for order in &mut orders {
        if let Terms::Stepper { ignored, .. } = state.sheet.orders[order.number].terms {
            let rival = best_rival(&entered, order.number, ignored.0);
            order.limit = stepped(order.limit, far, rival, step);
        }
    }
    orders.sort_by_key(|order| std::cmp::Reverse(order.limit));
    orders
}
