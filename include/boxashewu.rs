//! Opening call auctions: the calls of Boxashewu for programs in Rust. The words of a sheet, of a result and of a waiting list, and the
//! refusals, are in boxashewu.h beside this file. A program takes this file as a module, by `#[path = "include/boxashewu.rs"] mod boxashewu;`, and
//! links libboxashewu.a (rustc 1.82 or newer, any edition):
//!
//! ```text
//! (cd crates/boxashewu && rt lib)
//! rustc -O -L crates/boxashewu/out program.rs
//! ```
//!
//! With cargo a build script prints `cargo:rustc-link-search=native=` and the folder.
//!
//! Slices and borrows meet what the header asks of pointers. What is left to the caller: that a call has STACK_BYTES of stack (one
//! that runs out of it ends the program at the guard page), and that no number was cut down by `as` on its way here.

#![allow(dead_code)]

use std::fmt;

/// Words that are always enough, as they are those for 120 orders. With n orders a sheet has 5 + 3n words, or 6 + 3n, a first round asks
/// for a space of 4 + n, and an opening for one of (n + 1) × (n + 4) + 1, even where it then writes fewer.
pub const SHEET_WORDS: usize = 366;
pub const ROUND_WORDS: usize = 124;
pub const OPENING_WORDS: usize = 15005;

/// Places of a fee list that are always enough: an opening with fees asks for one for each order.
pub const FEE_PLACES: usize = 120;

/// What a call may take of the stack. The most that was measured is a third of it.
pub const STACK_BYTES: usize = 262144;

/// Which fault it is, by the header's numbers, and for 5 to 8 the order at fault, counted from 0.
#[derive(Clone, Copy, Debug, PartialEq, Eq)]
pub struct Refusal {
    pub number: u32,
    pub order: Option<usize>,
}

impl fmt::Display for Refusal {
    /// As the programs print it: the number, and the order or 0.
    fn fmt(&self, out: &mut fmt::Formatter) -> fmt::Result {
        write!(out, "refused {} {}", self.number, self.order.unwrap_or(0))
    }
}

impl std::error::Error for Refusal {}

/// Why a waiting list is not followed: 9 for the starting band, or 11, 13 or 14 and the word at fault, counted from 0.
#[derive(Clone, Copy, Debug, PartialEq, Eq)]
pub struct WaitingRefusal {
    pub number: u32,
    pub word: Option<usize>,
}

impl fmt::Display for WaitingRefusal {
    /// As the program `calls` prints it: the number, and the word or 0.
    fn fmt(&self, out: &mut fmt::Formatter) -> fmt::Result {
        write!(out, "refused {} {}", self.number, self.word.unwrap_or(0))
    }
}

impl std::error::Error for WaitingRefusal {}

#[derive(Clone, Copy, Debug, PartialEq, Eq)]
pub struct Curves {
    pub demand: u64,
    pub supply: u64,
    pub volume: u64,
}

#[derive(Clone, Copy, Debug, PartialEq, Eq)]
pub struct Band {
    pub lower: u32,
    pub upper: u32,
}

/// What is charged for a fill. 16 if a figure is too large, or the least fee above the greatest.
#[derive(Clone, Copy, Debug, PartialEq, Eq)]
pub struct Tariff {
    /// In ten-thousandths of the worth, at most 10,000.
    pub rate: u32,
    /// The least fee of each fill, so of each round in which an order gets pieces, in hellers, at most 100,000,000.
    pub least: u32,
    /// The greatest fee of each fill, likewise.
    pub greatest: u32,
}

/// A waiting phase: the second of the day at which it started, and the side of its latest round, 0 above the band and 1 below.
#[derive(Clone, Copy, Debug, PartialEq, Eq)]
pub struct Phase {
    pub start: u32,
    pub side: u32,
}

/// What a waiting list leads to: the phase that is on, if any, the band, and how many openings are due, counted over the whole list.
#[derive(Clone, Copy, Debug, PartialEq, Eq)]
pub struct Waiting {
    pub phase: Option<Phase>,
    pub band: Band,
    pub due: u32,
}

/// Why a stored result is not read: the sheet is refused or, where the result opens, there is no such round; or the stored words are not
/// those of the sheet's opening, and differ first at this place, counted from 0.
#[derive(Clone, Copy, Debug, PartialEq, Eq)]
pub enum NotRead {
    Refused(Refusal),
    Different(usize),
}

impl fmt::Display for NotRead {
    /// As the program `calls` prints it.
    fn fmt(&self, out: &mut fmt::Formatter) -> fmt::Result {
        match self {
            NotRead::Refused(refusal) => refusal.fmt(out),
            NotRead::Different(place) => write!(out, "different {place}"),
        }
    }
}

impl std::error::Error for NotRead {}

/// A round of a stored result. Its fills are still words, and still a part of the stored list: the pieces of order k are the lower 28
/// bits of word k.
#[derive(Clone, Copy, Debug, PartialEq, Eq)]
pub struct StoredRound<'a> {
    pub situation: u32,
    pub price: u32,
    /// 0 if nothing traded.
    pub purchase: u32,
    pub total: u32,
    pub fills: &'a [u32],
}

/// The records and functions as the library has them.
pub mod raw {
    #[repr(C)]
    #[derive(Clone, Copy, Debug, PartialEq, Eq)]
    pub struct SheetReply {
        pub refusal: u32,
        pub order: usize,
    }

    #[repr(C)]
    #[derive(Clone, Copy, Debug, PartialEq, Eq)]
    pub struct PriceReply {
        pub refusal: u32,
        pub order: usize,
        pub price: u32,
    }

    #[repr(C)]
    #[derive(Clone, Copy, Debug, PartialEq, Eq)]
    pub struct CurvesReply {
        pub refusal: u32,
        pub order: usize,
        pub demand: u64,
        pub supply: u64,
        pub volume: u64,
    }

    #[repr(C)]
    #[derive(Clone, Copy, Debug, PartialEq, Eq)]
    pub struct SpaceReply {
        pub refusal: u32,
        pub order: usize,
        pub count: usize,
    }

    #[repr(C)]
    #[derive(Clone, Copy, Debug, PartialEq, Eq)]
    pub struct BandReply {
        pub refusal: u32,
        pub order: usize,
        pub lower: u32,
        pub upper: u32,
    }

    #[repr(C)]
    #[derive(Clone, Copy, Debug, PartialEq, Eq)]
    pub struct WaitingReply {
        pub refusal: u32,
        pub place: usize,
        pub phase: u32,
        pub start: u32,
        pub side: u32,
        pub lower: u32,
        pub upper: u32,
        pub due: u32,
    }

    #[repr(C)]
    #[derive(Clone, Copy, Debug, PartialEq, Eq)]
    pub struct StoredReply {
        pub refusal: u32,
        pub order: usize,
        pub different: u32,
        pub place: usize,
    }

    #[repr(C)]
    #[derive(Clone, Copy, Debug, PartialEq, Eq)]
    pub struct RoundReply {
        pub refusal: u32,
        pub order: usize,
        pub different: u32,
        pub place: usize,
        pub situation: u32,
        pub price: u32,
        pub purchase: u32,
        pub total: u32,
        pub fills: usize,
        pub count: usize,
    }

    #[link(name = "boxashewu", kind = "static")]
    unsafe extern "C" {
        pub fn auction_check(words: *const u32, count: usize) -> SheetReply;
        pub fn auction_stepper_limit(words: *const u32, count: usize, order: usize) -> PriceReply;
        pub fn auction_curves_at(words: *const u32, count: usize, price: u32) -> CurvesReply;
        pub fn auction_first_round(
            words: *const u32,
            count: usize,
            space: *mut u32,
            room: usize,
        ) -> SpaceReply;
        pub fn auction_opening(
            words: *const u32,
            count: usize,
            space: *mut u32,
            room: usize,
        ) -> SpaceReply;
        pub fn auction_opening_fees(
            words: *const u32,
            count: usize,
            rate: u32,
            least: u32,
            greatest: u32,
            space: *mut u32,
            room: usize,
            fees: *mut u64,
            places: usize,
        ) -> SpaceReply;
        pub fn auction_stored_opens(
            sheet: *const u32,
            count: usize,
            stored: *const u32,
            length: usize,
        ) -> StoredReply;
        pub fn auction_stored_round(
            sheet: *const u32,
            count: usize,
            stored: *const u32,
            length: usize,
            round: usize,
        ) -> RoundReply;
        pub fn auction_indicative_price(
            lower: u32,
            upper: u32,
            traded: u64,
            closing: u32,
            auction: u32,
        ) -> PriceReply;
        pub fn auction_next_band(code: u32, indicative: u32) -> BandReply;
        pub fn auction_widened_band(lower: u32, upper: u32, side: u32) -> BandReply;
        pub fn auction_waiting_clock(
            lower: u32,
            upper: u32,
            words: *const u32,
            count: usize,
        ) -> WaitingReply;
    }
}

fn answered<T>(refusal: u32, order: usize, value: T) -> Result<T, Refusal> {
    match refusal {
        0 => Ok(value),
        number => Err(Refusal {
            number,
            order: (5..=8).contains(&number).then_some(order),
        }),
    }
}

// Each unsafe line below is sound: a slice is what the library asks of a pointer and a count, a space or fee list lent as `&mut` overlaps
// nothing and is seen by nobody else, and the library's functions touch every page of the stack that they take, one after the
// other, so that too small a stack is met at its guard page.

/// Whether a sheet is accepted. Refusals: those of a sheet.
pub fn check(words: &[u32]) -> Result<(), Refusal> {
    let reply = unsafe { raw::auction_check(words.as_ptr(), words.len()) };
    answered(reply.refusal, reply.order, ())
}

/// The limit in force, in the first round, of an order that is a Stepper. Refusals: those of a sheet; 9 if there is no such order, or it
/// is no Stepper.
pub fn stepper_limit(words: &[u32], order: usize) -> Result<u32, Refusal> {
    let reply = unsafe { raw::auction_stepper_limit(words.as_ptr(), words.len(), order) };
    answered(reply.refusal, reply.order, reply.price)
}

/// Demand, supply and volume at a price in the first round. Refusals: those of a sheet; 9 if the price is off the grid.
pub fn curves_at(words: &[u32], price: u32) -> Result<Curves, Refusal> {
    let reply = unsafe { raw::auction_curves_at(words.as_ptr(), words.len(), price) };
    let curves = Curves {
        demand: reply.demand,
        supply: reply.supply,
        volume: reply.volume,
    };
    answered(reply.refusal, reply.order, curves)
}

/// The words of the first round, which now stand at the start of the space; its other words keep what they held, and all of them
/// where the call refuses. Refusals: those of a sheet; 10 if the space has fewer than 4 + n words.
pub fn first_round<'a>(words: &[u32], space: &'a mut [u32]) -> Result<&'a [u32], Refusal> {
    let reply = unsafe {
        raw::auction_first_round(words.as_ptr(), words.len(), space.as_mut_ptr(), space.len())
    };
    answered(reply.refusal, reply.order, &space[..reply.count])
}

/// The words of the opening, likewise. Refusals: those of a sheet; 10 if the space has fewer than (n + 1) × (n + 4) + 1 words.
pub fn opening<'a>(words: &[u32], space: &'a mut [u32]) -> Result<&'a [u32], Refusal> {
    let reply = unsafe {
        raw::auction_opening(words.as_ptr(), words.len(), space.as_mut_ptr(), space.len())
    };
    answered(reply.refusal, reply.order, &space[..reply.count])
}

/// The words of the opening, likewise, and then the n fees by a tariff, in hellers, the fee of order k at place k; they now stand at the
/// start of the fee list. The other places of the list keep what they held; after a refusal space and list keep all that they held. How a
/// fee is worked out is said in boxashewu.h, at auction_opening_fees. Refusals: those of a sheet; 16 if the tariff is not allowed; 10 if
/// the space has fewer than (n + 1) × (n + 4) + 1 words or the list fewer than n places.
pub fn opening_fees<'a, 'b>(
    words: &[u32],
    tariff: Tariff,
    space: &'a mut [u32],
    fees: &'b mut [u64],
) -> Result<(&'a [u32], &'b [u64]), Refusal> {
    let reply = unsafe {
        raw::auction_opening_fees(
            words.as_ptr(),
            words.len(),
            tariff.rate,
            tariff.least,
            tariff.greatest,
            space.as_mut_ptr(),
            space.len(),
            fees.as_mut_ptr(),
            fees.len(),
        )
    };
    answered(reply.refusal, reply.order, ())?;
    let orders = (words[4] & 0xfff_ffff) as usize;
    Ok((&space[..reply.count], &fees[..orders]))
}

fn read<T>(refusal: u32, order: usize, different: u32, place: usize, value: T) -> Result<T, NotRead> {
    match different {
        0 => answered(refusal, order, value).map_err(NotRead::Refused),
        _ => Err(NotRead::Different(place)),
    }
}

/// Whether a stored result opens beside its sheet: only if its words are exactly those that `opening` writes for this sheet. Else where
/// they first differ, or the length of the shorter list if it is the beginning of the other. Refusals: those of a sheet.
pub fn stored_opens(sheet: &[u32], stored: &[u32]) -> Result<(), NotRead> {
    let reply = unsafe {
        raw::auction_stored_opens(sheet.as_ptr(), sheet.len(), stored.as_ptr(), stored.len())
    };
    read(reply.refusal, reply.order, reply.different, reply.place, ())
}

/// A round of a stored result, counted from 0, where the result opens beside its sheet. Refusals: those of a sheet; 9 for a number past
/// the last round. Each call runs the opening again.
pub fn stored_round<'a>(
    sheet: &[u32],
    stored: &'a [u32],
    round: usize,
) -> Result<StoredRound<'a>, NotRead> {
    let reply = unsafe {
        raw::auction_stored_round(sheet.as_ptr(), sheet.len(), stored.as_ptr(), stored.len(), round)
    };
    read(reply.refusal, reply.order, reply.different, reply.place, ())?;
    Ok(StoredRound {
        situation: reply.situation,
        price: reply.price,
        purchase: reply.purchase,
        total: reply.total,
        fills: &stored[reply.fills..][..reply.count],
    })
}

/// The closing purchase price as it is if any pieces were traded, else the last auction price moved into the band. 9 if the bounds
/// are no band, or the price that is used is off the grid.
pub fn indicative_price(
    lower: u32,
    upper: u32,
    traded: u64,
    closing: u32,
    auction: u32,
) -> Result<u32, Refusal> {
    let reply = unsafe { raw::auction_indicative_price(lower, upper, traded, closing, auction) };
    answered(reply.refusal, reply.order, reply.price)
}

/// The next band of shares (code 0) or certificates (code 1). 9 for another code or a price off the grid; 11 for a price of 1, or an
/// upper bound that would be off the grid.
pub fn next_band(code: u32, indicative: u32) -> Result<Band, Refusal> {
    let reply = unsafe { raw::auction_next_band(code, indicative) };
    answered(
        reply.refusal,
        reply.order,
        Band {
            lower: reply.lower,
            upper: reply.upper,
        },
    )
}

/// The band with its upper bound (side 0) or its lower (side 1) moved out by a tenth of itself, rounded towards where it was, and by
/// at least 1; a lower bound of 1 does not move. 9 for another side, or if the bounds are no band; 11 if the upper bound, so moved,
/// would be off the grid.
pub fn widened_band(lower: u32, upper: u32, side: u32) -> Result<Band, Refusal> {
    let reply = unsafe { raw::auction_widened_band(lower, upper, side) };
    answered(
        reply.refusal,
        reply.order,
        Band {
            lower: reply.lower,
            upper: reply.upper,
        },
    )
}

/// What the words of a waiting list lead to, from a starting band on; when a phase starts and ends is said in boxashewu.h, at
/// auction_waiting_clock. 9 if the bounds are no band; then of each word in turn 13 if its kind or value is wrong, 14 if it is a second
/// that is lower than the one before it, 11 if it is a second at which the time of a phase is up and the upper bound, widened, would be
/// off the grid.
pub fn waiting_clock(lower: u32, upper: u32, words: &[u32]) -> Result<Waiting, WaitingRefusal> {
    let reply = unsafe { raw::auction_waiting_clock(lower, upper, words.as_ptr(), words.len()) };
    let (start, side) = (reply.start, reply.side);
    match reply.refusal {
        0 => Ok(Waiting {
            phase: (reply.phase == 1).then_some(Phase { start, side }),
            band: Band {
                lower: reply.lower,
                upper: reply.upper,
            },
            due: reply.due,
        }),
        number => Err(WaitingRefusal {
            number,
            word: (number != 9).then_some(reply.place),
        }),
    }
}
