//! What the reference implementation answers, as the records of the library.

use crate::boxashewu::raw;
use reference::band::{indicative_price, next_band, widening};
use reference::fast::opening::{curves, limit_of_stepper};
use reference::refusal::Refusal;
use reference::results::StoredCase;
use reference::sheet::{Grid, Price, Sheet};
use reference::stored::{opens, round, Answer};

type Read<'a> = Result<&'a Sheet, Refusal>;

const GRID: Grid = Grid::DOCUMENT;

/// The two numbers of a refusal; 0 and 0 for an answer.
fn fault<T>(answer: &Result<T, Refusal>) -> (u32, usize) {
    match answer {
        Ok(_) => (0, 0),
        Err(refusal) => (refusal.number, refusal.place),
    }
}

pub fn sheet(read: Read) -> raw::SheetReply {
    let (refusal, order) = fault(&read);
    raw::SheetReply { refusal, order }
}

fn price(answer: Result<Price, Refusal>) -> raw::PriceReply {
    let (refusal, order) = fault(&answer);
    let price = answer.map_or(0, |price| price.0);
    raw::PriceReply {
        refusal,
        order,
        price,
    }
}

pub fn stepper_limit(read: Read, k: u64) -> raw::PriceReply {
    price(read.and_then(|sheet| limit_of_stepper(sheet, GRID, k)))
}

pub fn curves_at(read: Read, p: u64) -> raw::CurvesReply {
    let answer = read.and_then(|sheet| curves(sheet, GRID, p));
    let (refusal, order) = fault(&answer);
    let [demand, supply, volume] = answer.unwrap_or([0; 3]);
    raw::CurvesReply {
        refusal,
        order,
        demand,
        supply,
        volume,
    }
}

/// The record of a call that writes, by how many words it writes.
fn counted(answer: Result<usize, Refusal>) -> raw::SpaceReply {
    let (refusal, order) = fault(&answer);
    let count = answer.unwrap_or(0);
    raw::SpaceReply {
        refusal,
        order,
        count,
    }
}

pub fn space(answer: &Result<Vec<u32>, Refusal>) -> raw::SpaceReply {
    counted(answer.as_ref().map(Vec::len).map_err(|fault| *fault))
}

/// Only the words are counted: how many fees there are is known beforehand.
pub fn charged(answer: &Result<(Vec<u32>, Vec<u64>), Refusal>) -> raw::SpaceReply {
    let words = answer.as_ref().map(|(words, _)| words.len());
    counted(words.map_err(|fault| *fault))
}

pub fn indicative(asked: &reference::arguments::Indicative) -> raw::PriceReply {
    let answer = indicative_price(asked.band, asked.traded, asked.closing, asked.auction);
    price(answer)
}

fn band(answer: Result<(Price, Price), Refusal>) -> raw::BandReply {
    let (refusal, order) = fault(&answer);
    let (lower, upper) = answer.map_or((0, 0), |(lower, upper)| (lower.0, upper.0));
    raw::BandReply {
        refusal,
        order,
        lower,
        upper,
    }
}

pub fn next((code, indicative): (u64, u64)) -> raw::BandReply {
    band(next_band(code, indicative))
}

pub fn widened(((lower, upper), side): ((u64, u64), u64)) -> raw::BandReply {
    band(widening(lower, upper, side))
}

pub fn waiting(asked: &reference::arguments::Waited) -> raw::WaitingReply {
    let (lower, upper) = asked.band;
    let answer = reference::waiting::waiting(lower, upper, &asked.words);
    let (refusal, place) = fault(&answer);
    let phase = answer.ok().and_then(|waiting| waiting.phase);
    let (lower, upper) = answer.map_or((0, 0), |waiting| (waiting.band.0 .0, waiting.band.1 .0));
    raw::WaitingReply {
        refusal,
        place,
        phase: u32::from(phase.is_some()),
        start: phase.map_or(0, |phase| phase.start),
        side: phase.map_or(0, |phase| phase.side as u32),
        lower,
        upper,
        due: answer.map_or(0, |waiting| waiting.openings_due),
    }
}

/// What is said of the whole of a stored result: refusal, order, whether it is different, and where.
fn told<T>(answer: &Answer<T>) -> (u32, usize, u32, usize) {
    match answer {
        Answer::Refused(refusal) => (refusal.number, refusal.place, 0, 0),
        Answer::Different(place) => (0, 0, 1, *place),
        Answer::Open(_) => (0, 0, 0, 0),
    }
}

pub fn stored_opens(asked: &StoredCase) -> raw::StoredReply {
    let (refusal, order, different, place) = told(&opens(&asked.sheet, &asked.stored));
    raw::StoredReply {
        refusal,
        order,
        different,
        place,
    }
}

/// The fills themselves stand in the stored list, where the library says: they are compared apart.
pub fn stored_round(asked: &StoredCase) -> (raw::RoundReply, Vec<u64>) {
    let answer = round(&asked.sheet, &asked.stored, asked.round);
    let (refusal, order, different, place) = told(&answer);
    let mut reply = raw::RoundReply {
        refusal,
        order,
        different,
        place,
        situation: 0,
        price: 0,
        purchase: 0,
        total: 0,
        fills: 0,
        count: 0,
    };
    let Answer::Open(round) = answer else {
        return (reply, Vec::new());
    };
    reply.situation = round.situation;
    reply.price = round.auction_price.0;
    reply.purchase = round.purchase_price.map_or(0, |price| price.0);
    reply.total = round.total.0 as u32;
    reply.count = round.fills.len();
    reply.fills = asked.round as usize * (4 + reply.count) + 4;
    (reply, round.fills.iter().map(|fill| fill.0).collect())
}
