//! The listing, the cases P1–P12, widened bounds, the table of refusals, the quotation step, the fees,
//! and the waiting clock; stored results and their archive by themselves. The cases' openings, limits
//! in force and stored results are worked out in both ways; bands, refusals, fees and the clock have
//! only one.

mod archive;
mod stored;

use crate::answer::{hexadecimal, space_of_opening, space_of_round, Opening, Round};
use crate::arguments::{order_for, price_for, quick_sheet, upper_before};
use crate::band::widening;
use crate::calls::{answer_line, opening_program};
use crate::chains::{chain_sheet, steady_chain};
use crate::damage::damage;
use crate::fees::{Tariff, MOST_FEE};
use crate::lines::{joined, line, Kind};
use crate::shapes::{mirrored, sheet_by_lot, Sizes, LOTS};
use crate::sheet::{kind, read, value, Grid, Layout, Order, Pieces, Price, QuotationStep};
use crate::sheet::{Sheet, Side, Terms};
use crate::{fast, literal, random::Random};
use Side::{Buy, Sell};

/// A grid that holds the cases and is soon tried whole.
const SMALL: Grid = Grid { last: 130 };

const LISTING: &str = "1000005a 2000006e 30000064 40000064 50000002 60000069 8000000a \
                       90000000 7000005f 80000004 90000000";
const LISTED: &str = "a0000000 b0000069 c0000069 d0000004 e0000004 e0000004 a0000002 \
                      b0000069 c0000000 d0000000 e0000000 e0000000 f0000002";

fn limited(side: Side, quantity: u64, limit: u32, all_or_none: bool) -> Order {
    let limit = Price(limit);
    Order {
        side,
        terms: Terms::Limited { limit, all_or_none },
        quantity: Pieces(quantity),
    }
}

fn basic(side: Side, quantity: u64, limit: u32) -> Order {
    limited(side, quantity, limit, false)
}

fn stepper(side: Side, quantity: u64, limit: u32, ignored: u64) -> Order {
    let (limit, ignored) = (Price(limit), Pieces(ignored));
    Order {
        side,
        terms: Terms::Stepper { limit, ignored },
        quantity: Pieces(quantity),
    }
}

/// The heading that all the cases share.
fn sheet(orders: &[Order]) -> Sheet {
    Sheet {
        lower: Price(90),
        upper: Price(110),
        last_purchase: Price(100),
        indicative: Price(100),
        step: None,
        orders: orders.to_vec(),
    }
}

/// The same with a step word.
fn sheet_by(step: u32, orders: &[Order]) -> Sheet {
    sheet(orders).with_step(Some(QuotationStep(step)))
}

fn opening(orders: &[Order]) -> Opening {
    opening_of(&sheet(orders))
}

fn opening_by(step: u32, orders: &[Order]) -> Opening {
    opening_of(&sheet_by(step, orders))
}

/// The opening, the same in both ways and on both grids.
fn opening_of(sheet: &Sheet) -> Opening {
    assert_eq!(read(&sheet.words(), SMALL).as_ref(), Ok(sheet));
    let opening = fast::opening::opening(sheet, Grid::DOCUMENT);
    assert_eq!(opening, fast::opening::opening(sheet, SMALL));
    assert_eq!(opening, literal::opening::opening(sheet, SMALL));
    opening
}

/// Situation, auction price, purchase price and total of the first round.
fn first(opening: &Opening) -> (u32, u32, u32, u64) {
    figures(&opening.rounds[0])
}

fn figures(round: &Round) -> (u32, u32, u32, u64) {
    let purchase = round.purchase_price.map_or(0, |price| price.0);
    (
        round.situation,
        round.auction_price.0,
        purchase,
        round.total.0,
    )
}

fn fills(opening: &Opening) -> Vec<u64> {
    opening.rounds[0].fills.iter().map(|fill| fill.0).collect()
}

fn stands(orders: &[Order]) -> u32 {
    stands_in(&sheet(orders), SMALL)
}

/// The limit in force of the last order, a Stepper, the same in both ways; the literal one tries the
/// prices of the grid given.
fn stands_in(sheet: &Sheet, grid: Grid) -> u32 {
    let k = sheet.orders.len() - 1;
    let limit = fast::opening::limit_of_stepper(sheet, Grid::DOCUMENT, k as u64);
    assert_eq!(limit, Ok(literal::Book::first(sheet, grid).in_force[k]));
    limit.unwrap().0
}

fn bytes_of(words: &str) -> Vec<u8> {
    let words = words.split(' ');
    let words = words.map(|word| u32::from_str_radix(word, 16).unwrap());
    words.flat_map(u32::to_be_bytes).collect()
}

#[test]
fn p1_listing() {
    let lines = LISTED.replace(' ', "\n") + "\n";
    assert_eq!(opening_program(&bytes_of(LISTING)), lines);
    assert_eq!(answer_line(&format!("opening 19 {LISTING}")), LISTED);
    assert_eq!(
        answer_line(&format!("opening 18 {LISTING}")),
        "refused 10 0"
    );
    let sheet = sheet(&[basic(Buy, 10, 105), basic(Sell, 4, 95)]);
    let slow = literal::opening::opening(&sheet, Grid::DOCUMENT);
    assert_eq!(hexadecimal(&slow.words(), " "), LISTED);
}

#[test]
fn p2_no_orders() {
    let opening = opening(&[]);
    assert_eq!(first(&opening), (4, 100, 0, 0));
    assert_eq!((opening.rounds.len(), opening.ending), (1, 0));
}

#[test]
fn p3_outside_the_band() {
    let orders = [basic(Buy, 5, 95), basic(Buy, 5, 80), basic(Sell, 10, 70)];
    let opening = opening(&orders);
    assert_eq!(first(&opening), (0, 80, 90, 5));
    assert_eq!((opening.rounds.len(), opening.ending), (1, 2));
}

#[test]
fn p4_blocked() {
    let opening = opening(&[limited(Buy, 10, 105, true), basic(Sell, 4, 95)]);
    assert_eq!(first(&opening), (0, 105, 0, 0));
    assert_eq!((opening.rounds.len(), opening.ending), (1, 1));
}

#[test]
fn p5_p6_p7_without_volume() {
    assert_eq!(first(&opening(&[basic(Sell, 4, 104)])), (1, 100, 0, 0));
    assert_eq!(first(&opening(&[basic(Sell, 4, 97)])), (1, 97, 0, 0));
    assert_eq!(first(&opening(&[basic(Buy, 4, 96)])), (2, 100, 0, 0));
    let apart = [basic(Buy, 5, 95), basic(Sell, 5, 105)];
    assert_eq!(first(&opening(&apart)), (3, 100, 0, 0));
}

#[test]
fn p8_nearest_the_last_purchase_price() {
    let opening = opening(&[basic(Buy, 4, 105), basic(Sell, 4, 95)]);
    assert_eq!(first(&opening), (0, 100, 100, 4));
    assert_eq!((opening.rounds.len(), opening.ending), (2, 0));
}

#[test]
fn p9_p10_steppers() {
    let rivals = [basic(Buy, 5, 104), basic(Buy, 3, 101)];
    let standing = |ignored| stands(&[rivals[0], rivals[1], stepper(Buy, 7, 108, ignored)]);
    assert_eq!((standing(5), standing(4)), (102, 105));
    assert_eq!(stands(&[stepper(Buy, 7, 108, 0)]), 90);
    assert_eq!(stands(&[stepper(Buy, 7, 80, 0)]), 80);
    let rivals = [basic(Sell, 5, 96), basic(Sell, 3, 99)];
    let standing = |ignored| stands(&[rivals[0], rivals[1], stepper(Sell, 7, 92, ignored)]);
    assert_eq!((standing(5), standing(4)), (98, 95));
    assert_eq!(stands(&[stepper(Sell, 7, 92, 0)]), 110);
    assert_eq!(stands(&[stepper(Sell, 7, 120, 0)]), 120);
}

#[test]
fn p11_equal_beyond_the_bound() {
    let orders = [basic(Buy, 3, 115), basic(Buy, 3, 120), basic(Sell, 3, 95)];
    let opening = opening(&orders);
    assert_eq!(first(&opening), (0, 110, 110, 3));
    assert_eq!(fills(&opening), [3, 0, 3]);
}

#[test]
fn p12_bands() {
    let answers = [
        ("next 0 2", "1 3"),
        ("next 0 833334", "666668 1000000"),
        ("next 0 833335", "refused 11 0"),
        ("next 1 800000", "600000 1000000"),
        ("next 1 1", "refused 11 0"),
        ("next 2 1", "refused 9 0"),
        ("next 0 0", "refused 9 0"),
        ("widen 90 110 0", "90 121"),
        ("widen 95 110 1", "86 110"),
        ("widen 90 909091 0", "90 1000000"),
        ("widen 90 909092 0", "refused 11 0"),
        ("widen 90 909092 2", "refused 9 0"),
        ("widen 90 90 1", "refused 9 0"),
        ("indicative 90 110 0 0 111", "110"),
        ("indicative 90 110 18446744073709551615 200 0", "200"),
        ("indicative 90 110 1 0 100", "refused 9 0"),
        ("indicative 110 90 1 100 100", "refused 9 0"),
    ];
    for (line, answer) in answers {
        assert_eq!(answer_line(line), answer, "{line}");
    }
}

/// H, and what side 0 makes of it.
const WIDENED_UPPERS: [(u32, u32); 20] = [
    // 2.2 to 9.9 rounded down are what they were, so that they go up by 1.
    (2, 3),
    (3, 4),
    (4, 5),
    (5, 6),
    (6, 7),
    (7, 8),
    (8, 9),
    (9, 10),
    // From here on the tenth is enough: 11.0, 12.1, 13.2.
    (10, 11),
    (11, 12),
    (12, 13),
    // 20.9, 22.0, 23.1: 19 is the last that goes up by 1.
    (19, 20),
    (20, 22),
    (21, 23),
    // 108.9, 110.0, 111.1.
    (99, 108),
    (100, 110),
    (101, 111),
    // 999,997.9; 999,999.0; 1,000,000.1, the last on the grid.
    (909_089, 999_997),
    (909_090, 999_999),
    (909_091, 1_000_000),
];

/// D, and what side 1 makes of it.
const WIDENED_LOWERS: [(u32, u32); 21] = [
    // It cannot go lower.
    (1, 1),
    // 1.8 to 8.1 rounded up are what they were, so that they go down by 1.
    (2, 1),
    (3, 2),
    (4, 3),
    (5, 4),
    (6, 5),
    (7, 6),
    (8, 7),
    (9, 8),
    // From here on the tenth is enough: 9.0, 9.9, 10.8.
    (10, 9),
    (11, 10),
    (12, 11),
    // 17.1, 18.0, 18.9: 19 is the last that goes down by 1.
    (19, 18),
    (20, 18),
    (21, 19),
    // 89.1, 90.0, 90.9.
    (99, 90),
    (100, 90),
    (101, 91),
    // 899,991.0; 899,998.2; 899,999.1.
    (999_990, 899_991),
    (999_998, 899_999),
    (999_999, 900_000),
];

#[test]
fn widened_bounds() {
    for (upper, widened) in WIDENED_UPPERS {
        // D stays where it is, far below H or next to it.
        for lower in [1, upper - 1] {
            let line = format!("widen {lower} {upper} 0");
            assert_eq!(answer_line(&line), format!("{lower} {widened}"), "{line}");
        }
    }
    for (lower, widened) in WIDENED_LOWERS {
        // And H does, next to D or far above it.
        for upper in [lower + 1, 1_000_000] {
            let line = format!("widen {lower} {upper} 1");
            assert_eq!(answer_line(&line), format!("{widened} {upper}"), "{line}");
        }
    }
}

#[test]
fn widenings_refused() {
    let answers = [
        // 1,000,001.2; 1,099,998.9; 1,100,000.0.
        ("widen 1 909092 0", "refused 11 0"),
        ("widen 909091 909092 0", "refused 11 0"),
        ("widen 1 999999 0", "refused 11 0"),
        ("widen 1 1000000 0", "refused 11 0"),
        ("widen 999999 1000000 0", "refused 11 0"),
        // A lower bound that cannot move is not refused, whatever H is.
        ("widen 1 2 1", "1 2"),
        ("widen 1 9 1", "1 9"),
        ("widen 1 909092 1", "1 909092"),
        ("widen 1 1000000 1", "1 1000000"),
        // No band and no side, which come first; the last three would do if cut down to 32 bits.
        ("widen 1 1 0", "refused 9 0"),
        ("widen 1 1 1", "refused 9 0"),
        ("widen 5 5 1", "refused 9 0"),
        ("widen 6 5 0", "refused 9 0"),
        ("widen 0 1 1", "refused 9 0"),
        ("widen 0 5 0", "refused 9 0"),
        ("widen 1 0 1", "refused 9 0"),
        ("widen 1 1000001 0", "refused 9 0"),
        ("widen 1000000 1000000 0", "refused 9 0"),
        ("widen 1 5 2", "refused 9 0"),
        ("widen 1 1000000 2", "refused 9 0"),
        ("widen 4294967297 5 1", "refused 9 0"),
        ("widen 1 4294967301 0", "refused 9 0"),
        ("widen 1 5 4294967296", "refused 9 0"),
    ];
    for (line, answer) in answers {
        assert_eq!(answer_line(line), answer, "{line}");
    }
}

#[test]
fn bounds_from_ten_on_widen_as_before() {
    let widened = |lower, upper, side| match widening(lower, upper, side) {
        Ok((lower, upper)) => Ok((u64::from(lower.0), u64::from(upper.0))),
        Err(refusal) => Err(refusal.number),
    };
    let last = 1_000_000;
    let mut refused = 0;
    for upper in 10..=last {
        // Before, the tenth was all that a bound moved by.
        let former = match 11 * upper / 10 {
            off_grid if off_grid > last => Err(11),
            tenth => Ok((1, tenth)),
        };
        assert_eq!(widened(1, upper, 0), former, "{upper}");
        refused += u32::from(former.is_err());
    }
    // Those from 909,092 on. None below 10 was refused.
    assert_eq!(refused, 90_909);
    for upper in 2..10 {
        assert!(widened(1, upper, 0).is_ok(), "{upper}");
    }
    for lower in 10..last {
        let former = (9 * lower + 9) / 10;
        assert_eq!(widened(lower, last, 1), Ok((former, last)), "{lower}");
    }
    // As a lower bound the last price has no H above it.
    assert_eq!(widened(last, last, 1), Err(9));
}

#[test]
fn uppers_before_a_widening() {
    let rows = [
        // 20.9 is within 21 and 22.0 is not.
        (22, 20),
        (21, 19),
        (20, 19),
        (12, 11),
        (11, 10),
        // Here the tenth comes to nothing; 2 is the lowest H.
        (10, 9),
        (9, 8),
        (8, 7),
        (3, 2),
        (2, 2),
    ];
    for (upper, before) in rows {
        assert_eq!(upper_before(upper), before, "{upper}");
    }
    // Widened it reaches no further, and the next one does or leaves the grid.
    for upper in 3..=1_000_000 {
        let reach = |before| widening(1, before, 0).map_or(u64::MAX, |band| band.1 .0.into());
        let before = upper_before(upper);
        assert!(reach(before) <= upper, "{upper}");
        assert!(reach(before + 1) > upper, "{upper}");
    }
}

#[test]
fn random_widenings_of_small_bands() {
    let mut random = Random::new(7);
    let bands = (1..12).flat_map(|lower| (lower + 1..=12).map(move |upper| (lower, upper)));
    let mut missing: Vec<_> = bands.flat_map(|band| [(band, 0), (band, 1)]).collect();
    assert_eq!(missing.len(), 132);
    let mut below_ten = 0;
    for _ in 0..20_000 {
        let (band, side) = crate::arguments::widening(&mut random);
        missing.retain(|asked| *asked != (band, side));
        below_ten += u32::from(band.1 < 10);
    }
    assert!(missing.is_empty(), "{missing:?}");
    // About one in eight has an H that the tenth does not move.
    assert!((2_200..=2_800).contains(&below_ten), "{below_ten}");
}

#[test]
fn tempting_errors() {
    // The all-or-none buy finds too few pieces, and the buy below it gets none either.
    let orders = [
        limited(Buy, 6, 105, true),
        basic(Buy, 5, 100),
        basic(Sell, 5, 95),
    ];
    assert_eq!(first(&opening(&orders)).3, 0);
    // A rival Stepper counts at its entered limit.
    assert_eq!(
        stands(&[stepper(Buy, 5, 104, 0), stepper(Buy, 5, 108, 0)]),
        105
    );
}

/// The heading of the cases, without its last word.
const HEAD: &str = "1000005a 2000006e 30000064 40000064";

/// Each call is the part before `HEAD`, the heading, and the part after it.
fn answered(lines: &[(&str, &str, &str)]) {
    for (before, after, answer) in lines {
        let line = format!("{before} {HEAD} {after}");
        assert_eq!(answer_line(line.trim_end()), *answer, "{line}");
    }
}

/// D, H, the last purchase price and I, in decimal here, as the first four words of a sheet.
fn head([lower, upper, last, indicative]: [u32; 4]) -> String {
    format!("1{lower:07x} 2{upper:07x} 3{last:07x} 4{indicative:07x}")
}

/// Every call on a sheet refuses these words with the same number, and so does the program. The
/// numbers or spaces that a call takes would not do either, but their turn comes only after the
/// sheet.
fn refused_by_all(words: &str, number: u32) {
    let refused = format!("refused {number} 0");
    let calls = [
        "check",
        "stepper 0",
        "curves 0",
        "round 0",
        "opening 0",
        "fees 10001 1 0 0 0",
    ];
    for call in calls {
        let line = format!("{call} {words}");
        assert_eq!(answer_line(&line), refused, "{line}");
    }
    assert_eq!(opening_program(&bytes_of(words)), refused + "\n", "{words}");
}

#[test]
fn refusals_of_the_heading() {
    assert_eq!(answer_line("check"), "refused 1 0");
    let equal = "check 10000064 2000006e 30000064 40000064 50000079";
    assert_eq!(answer_line(equal), "refused 15 0");
    let off_grid = "check 10000000 2000006e 30000064 40000064 50000079";
    assert_eq!(answer_line(off_grid), "refused 3 0");
    answered(&[
        ("check", "", "refused 1 0"),
        ("check", "50000000", "accepted"),
        ("check", "60000001", "refused 2 0"),
        ("check", "50000079", "refused 4 0"),
        ("check", "50000001", "refused 4 0"),
    ]);
    // Two good words changed over: by place they would be a D above H, but their kinds are wrong.
    refused_by_all("2000006e 1000005a 30000064 40000064 50000000", 2);
}

#[test]
fn headings_accepted() {
    let accepted = [
        // One price is all that these bands hold between their bounds.
        [99, 101, 100, 100],
        [1, 3, 2, 2],
        [999_998, 1_000_000, 999_999, 999_999],
        // The last purchase price may lie on a bound or anywhere outside.
        [90, 110, 90, 100],
        [90, 110, 1, 100],
        [90, 110, 1_000_000, 100],
    ];
    for prices in accepted {
        let line = format!("check {} 50000000", head(prices));
        assert_eq!(answer_line(&line), "accepted", "{line}");
    }
}

/// Headings of prices on the grid for which D < I < H fails.
const NOT_BETWEEN: [[u32; 4]; 18] = [
    // I on D, on H, and one step beyond either.
    [90, 110, 100, 90],
    [90, 110, 100, 110],
    [90, 110, 100, 89],
    [90, 110, 100, 111],
    // The ends of the grid are prices of it, so that nothing is wrong but where I lies.
    [1, 1_000_000, 100, 1],
    [1, 1_000_000, 100, 1_000_000],
    [2, 1_000_000, 100, 1],
    [1, 999_999, 100, 1_000_000],
    // Neighbours have no price between them.
    [99, 100, 100, 99],
    [99, 100, 100, 100],
    // D above H: I between the two, on either, and on each side of both.
    [110, 90, 100, 100],
    [110, 90, 100, 110],
    [110, 90, 100, 90],
    [110, 90, 100, 111],
    [110, 90, 100, 89],
    // D on H: I with them, and on each side.
    [100, 100, 100, 100],
    [100, 100, 100, 101],
    [100, 100, 100, 99],
];

#[test]
fn indicative_price_not_between() {
    for prices in NOT_BETWEEN {
        let head = head(prices);
        refused_by_all(&format!("{head} 50000000"), 15);
        // It comes before all that may be wrong with the count: too many orders, one that is
        // missing, one too many, a word too many.
        refused_by_all(&format!("{head} 50000079"), 15);
        refused_by_all(&format!("{head} 50000001"), 15);
        refused_by_all(&format!("{head} 50000000 60000000 80000001 90000000"), 15);
        refused_by_all(&format!("{head} 50000000 60000000"), 15);
        // And before a faulty order.
        refused_by_all(&format!("{head} 50000001 50000000 80000000 90000001"), 15);
        // It comes after the kinds, also that of the count, which stands behind the prices.
        refused_by_all(&format!("{head} 60000000"), 2);
        refused_by_all(&format!("0{} 50000000", &head[1..]), 2);
        // Without the count there is no heading to look at.
        refused_by_all(&head, 1);
    }
}

/// Headings with a price off the grid, D < I < H or not.
const NOT_ON_GRID: [[u32; 4]; 20] = [
    // One price alone, which leaves I between the bounds all the same.
    [0, 110, 100, 100],
    [90, 1_000_001, 100, 100],
    [90, 110, 0, 100],
    [90, 110, 1_000_001, 100],
    [90, 110, 268_435_455, 100],
    // One price alone again, which also takes I out of the band; the grid comes first.
    [1_000_001, 110, 100, 100],
    [90, 0, 100, 100],
    [90, 110, 100, 0],
    [90, 110, 100, 1_000_001],
    [90, 110, 100, 268_435_455],
    // Several at once: D < I < H holds in the first as numbers and in no other.
    [0, 1_000_001, 100, 100],
    [0, 110, 100, 0],
    [90, 1_000_001, 100, 1_000_001],
    [0, 0, 0, 0],
    // The last purchase price has no part in the order, yet it is looked at before that is:
    // I on a bound, outside, D above H, all three the same.
    [90, 110, 0, 90],
    [90, 110, 1_000_001, 90],
    [90, 110, 0, 110],
    [90, 110, 1_000_001, 111],
    [110, 90, 0, 100],
    [100, 100, 1_000_001, 100],
];

#[test]
fn prices_off_the_grid_before_the_band() {
    for prices in NOT_ON_GRID {
        let head = head(prices);
        refused_by_all(&format!("{head} 50000000"), 3);
        // Also before the count and after the kinds.
        refused_by_all(&format!("{head} 50000079"), 3);
        refused_by_all(&format!("{head} 50000000 60000000"), 3);
        refused_by_all(&format!("{head} 60000000"), 2);
        refused_by_all(&format!("{head} 60000000 00000000"), 2);
    }
}

/// Two orders, the refusal and the order at fault.
const FAULTY_ORDERS: [(&str, &str); 7] = [
    (
        "62000000 80000000 90000000 70000001 80000001 80000000",
        "6 0",
    ),
    (
        "60000000 80000001 90000000 73000001 80000000 80000000",
        "5 1",
    ),
    (
        "60000000 80000001 90000000 63000001 80000000 90000001",
        "6 1",
    ),
    (
        "60000000 80000001 90000000 600f4241 80000000 90000001",
        "6 1",
    ),
    (
        "60000000 80000001 90000000 610f4240 80000000 90000001",
        "7 1",
    ),
    (
        "60000000 80000001 90000000 610f4240 800f4240 90000001",
        "8 1",
    ),
    (
        "60000000 80000001 90000000 620f4240 800f4240 900f4241",
        "8 1",
    ),
];

#[test]
fn refusals_of_the_orders() {
    for (words, refusal) in FAULTY_ORDERS {
        let refused = format!("refused {refusal}");
        answered(&[("check", &format!("50000002 {words}"), &refused)]);
        // A step word in good form moves the orders on and not their numbers.
        let stepped = format!("50000002 000003e8 {words}");
        answered(&[("check", &stepped, &refused)]);
    }
    let accepted = "620f4240 800f4240 900f4240";
    answered(&[
        ("check", &format!("50000001 {accepted}"), "accepted"),
        (
            "check",
            &format!("50000001 00000001 {accepted}"),
            "accepted",
        ),
    ]);
}

#[test]
fn refusals_of_arguments_and_space() {
    let stepper = "50000001 620f4240 800f4240 900f4240";
    let all_or_none = "50000001 610f4240 800f4240 90000000";
    let no_orders = "a0000004 b0000064 c0000000 d0000000";
    answered(&[
        ("stepper 0", stepper, "90"),
        ("stepper 1", stepper, "refused 9 0"),
        ("stepper 0", all_or_none, "refused 9 0"),
        ("curves 0", all_or_none, "refused 9 0"),
        ("curves 1000000", all_or_none, "1000000 0 0"),
        ("curves 1000001", all_or_none, "refused 9 0"),
        ("round 3", "50000000", "refused 10 0"),
        ("round 4", "50000000", no_orders),
        ("round 0", "50000001", "refused 4 0"),
        ("opening 4", "50000000", "refused 10 0"),
        ("opening 5", "50000000", &format!("{no_orders} f0000001")),
    ]);
}

#[test]
fn unreadable_lines() {
    let lines = [
        "next 0",
        "next 0 -1",
        "check 1000005g",
        "check  1",
        "check ",
        "other",
    ];
    for line in lines {
        assert_eq!(answer_line(line), "unreadable", "{line}");
    }
    let mut printed = Vec::new();
    crate::calls::answer_lines(&b"# remark\n\nnext 0 2\n"[..], &mut printed).unwrap();
    assert_eq!(printed, b"# remark\n1 3\n");
}

#[test]
fn lines_too_long() {
    // 16,384 words, and one more.
    let rows = [
        ("check", "refused 2 0"),
        ("stepper 0", "refused 2 0"),
        ("opening 5", "refused 2 0"),
        ("fees 0 0 0 0 0", "refused 2 0"),
        ("waiting 90 110", "refused 13 0"),
        ("view 0 0", "refused 1 0"),
        ("view 0 16384", "refused 2 0"),
    ];
    for (call, answer) in rows {
        let line = call.to_string() + &" 0".repeat(16_384);
        assert_eq!(answer_line(&line), answer, "{call}");
        assert_eq!(answer_line(&(line + " 0")), "unreadable", "{call}");
    }
    // 150,000 bytes and one more, the newline left out; parts so long can only be numbers.
    let long = format!("next 0 {}2", "0".repeat(149_992));
    let longer = format!("next 0 {}2", "0".repeat(149_993));
    assert_eq!((long.len(), longer.len()), (150_000, 150_001));
    let remark = format!("#{}", "x".repeat(150_000));
    let lines = format!("{long}\n{longer}\n{remark}\n{long}");
    let mut printed = Vec::new();
    crate::calls::answer_lines(lines.as_bytes(), &mut printed).unwrap();
    let printed = String::from_utf8(printed).unwrap();
    assert_eq!(printed, format!("1 3\nunreadable\n{remark}\n1 3\n"));
}

#[test]
fn program_input() {
    for bytes in [1, 1_461, 1_463, 1_465, 1_468, 1_472, 1_476, 100_000] {
        let zeros = vec![0; bytes];
        assert_eq!(opening_program(&zeros), "refused 12 0\n", "{bytes}");
    }
    for bytes in [1_456, 1_460, 1_464] {
        let zeros = vec![0; bytes];
        assert_eq!(opening_program(&zeros), "refused 2 0\n", "{bytes}");
    }
    assert_eq!(opening_program(&[]), "refused 1 0\n");
}

#[test]
fn longest_program_input() {
    // 120 buys of one piece at 100, and nobody sells.
    let orders = " 60000064 80000001 90000000".repeat(120);
    let fills = "e0000000\n".repeat(120);
    let opened = format!("a0000002\nb0000064\nc0000000\nd0000000\n{fills}f0000001\n");
    let plain = format!("{HEAD} 50000078{orders}");
    let stepped = format!("{HEAD} 50000078 000003e8{orders}");
    assert_eq!(bytes_of(&plain).len(), 1_460);
    assert_eq!(bytes_of(&stepped).len(), 1_464);
    let answers = [
        (plain.clone(), opened.as_str()),
        (stepped.clone(), &opened),
        // A word too many, which without a step word makes the first order's one be judged.
        (plain + " 00000001", "refused 17 0\n"),
        (stepped + " 00000001", "refused 12 0\n"),
        // 121 orders are too long in either layout.
        (
            format!("{HEAD} 50000079{orders} 60000064 80000001 90000000"),
            "refused 12 0\n",
        ),
        // Counted as 121 they are too few.
        (format!("{HEAD} 50000079 00000001{orders}"), "refused 4 0\n"),
    ];
    for (words, printed) in answers {
        assert_eq!(opening_program(&bytes_of(&words)), printed, "{words}");
    }
}

#[test]
fn chains_run_sixty_rounds() {
    let sizes = Sizes {
        grid: Grid::DOCUMENT,
        orders: 119,
        pieces: 1_000_000,
    };
    let mut random = Random::new(7);
    for _ in 0..20 {
        let sheet = chain_sheet(&mut random, sizes);
        let turned = mirrored(&sheet, Grid::DOCUMENT);
        for sheet in [sheet, turned] {
            let opening = fast::opening::opening(&sheet, Grid::DOCUMENT);
            assert_eq!(opening.rounds.len(), 60);
        }
    }
}

/// Rows of a step and of where the last order, a Stepper, stands by it.
fn stand(orders: &[Order], rows: &[(u32, u32)]) {
    for (step, price) in rows {
        let stands = stands_in(&sheet_by(*step, orders), SMALL);
        assert_eq!(stands, *price, "{step}: {orders:?}");
    }
}

#[test]
fn p9_by_other_steps() {
    let buying = |ignored| {
        let stepper = stepper(Buy, 7, 108, ignored);
        [basic(Buy, 5, 104), basic(Buy, 3, 101), stepper]
    };
    // From 101, past 104 on the way, as far as 108.
    let from_101 = [(1, 102), (2, 103), (3, 104), (4, 105), (6, 107), (7, 108)];
    let no_further = [(8, 108), (9, 108), (500, 108), (999, 108), (1_000, 108)];
    stand(&buying(5), &from_101);
    stand(&buying(7), &from_101);
    stand(&buying(5), &no_further);
    let from_104 = [(1, 105), (2, 106), (3, 107), (4, 108), (5, 108)];
    stand(&buying(4), &from_104);
    stand(&buying(0), &from_104);
    stand(&buying(4), &no_further);
    // All eight pieces are ignored: there is no rival price to step from.
    stand(&buying(8), &[(1, 90), (2, 90), (11, 90), (1_000, 90)]);
}

#[test]
fn p9_by_other_steps_for_sells() {
    let selling = |ignored| {
        let stepper = stepper(Sell, 7, 92, ignored);
        [basic(Sell, 5, 96), basic(Sell, 3, 99), stepper]
    };
    let from_99 = [(1, 98), (2, 97), (3, 96), (4, 95), (6, 93), (7, 92)];
    // To zero it is 99, and 96 from the other rival.
    let no_further = [(8, 92), (95, 92), (96, 92), (97, 92), (98, 92)];
    let below_zero = [(99, 92), (100, 92), (500, 92), (999, 92), (1_000, 92)];
    stand(&selling(5), &from_99);
    stand(&selling(7), &from_99);
    stand(&selling(5), &no_further);
    stand(&selling(5), &below_zero);
    let from_96 = [(1, 95), (2, 94), (3, 93), (4, 92), (5, 92)];
    stand(&selling(4), &from_96);
    stand(&selling(0), &from_96);
    stand(&selling(4), &no_further);
    stand(&selling(4), &below_zero);
    stand(&selling(8), &[(1, 110), (2, 110), (11, 110), (1_000, 110)]);
}

#[test]
fn p10_by_every_step() {
    let alone = [
        (stepper(Buy, 7, 108, 0), 90),
        (stepper(Buy, 7, 90, 0), 90),
        (stepper(Buy, 7, 80, 0), 80),
        (stepper(Sell, 7, 92, 0), 110),
        (stepper(Sell, 7, 110, 0), 110),
        (stepper(Sell, 7, 120, 0), 120),
    ];
    for (order, price) in alone {
        let steps = [1, 2, 3, 10, 18, 19, 20, 999, 1_000];
        stand(&[order], &steps.map(|step| (step, price)));
        // Orders of the other side are no rivals.
        let other = match order.side {
            Buy => basic(Sell, 9, 100),
            Sell => basic(Buy, 9, 100),
        };
        stand(&[other, order], &steps.map(|step| (step, price)));
    }
}

#[test]
fn steps_and_bounds_for_buys() {
    // From 70 it is 20 to D, below which the Stepper does not stand, and 38 to its own limit.
    let below = [basic(Buy, 5, 70), stepper(Buy, 7, 108, 0)];
    stand(&below, &[(1, 90), (2, 90), (19, 90), (20, 90), (21, 91)]);
    stand(&below, &[(37, 107), (38, 108), (39, 108), (1_000, 108)]);
    // Its own limit is below D: D is no reason to go beyond it.
    let low = [basic(Buy, 5, 70), stepper(Buy, 7, 85, 0)];
    stand(&low, &[(1, 85), (14, 85), (15, 85), (16, 85), (1_000, 85)]);
    // H is no bound for a buy.
    let across = [basic(Buy, 5, 109), stepper(Buy, 7, 125, 0)];
    stand(&across, &[(1, 110), (2, 111), (7, 116), (16, 125)]);
    stand(&across, &[(17, 125), (1_000, 125)]);
    let above = [basic(Buy, 5, 120), stepper(Buy, 7, 125, 0)];
    stand(&above, &[(1, 121), (3, 123), (5, 125), (6, 125)]);
    // A rival without limit is entered at H, a Stepper at its entered limit whatever the step.
    let unlimited = Order {
        terms: Terms::WithoutLimit { all_or_none: false },
        ..basic(Buy, 5, 1)
    };
    let without = [unlimited, stepper(Buy, 7, 125, 0)];
    stand(&without, &[(1, 111), (14, 124), (15, 125), (16, 125)]);
    let steppers = [stepper(Buy, 5, 104, 0), stepper(Buy, 5, 108, 0)];
    stand(&steppers, &[(1, 105), (2, 106), (4, 108), (5, 108)]);
    // The rival is beyond the Stepper's own limit.
    let beyond = [basic(Buy, 5, 108), stepper(Buy, 7, 104, 0)];
    stand(&beyond, &[(1, 104), (2, 104), (1_000, 104)]);
}

#[test]
fn steps_and_bounds_for_sells() {
    let above = [basic(Sell, 5, 130), stepper(Sell, 7, 92, 0)];
    stand(&above, &[(1, 110), (2, 110), (19, 110), (20, 110)]);
    stand(&above, &[(21, 109), (37, 93), (38, 92), (39, 92)]);
    // One short of zero, zero, one below, far below.
    stand(&above, &[(129, 92), (130, 92), (131, 92), (1_000, 92)]);
    let high = [basic(Sell, 5, 130), stepper(Sell, 7, 115, 0)];
    stand(&high, &[(1, 115), (14, 115), (15, 115), (1_000, 115)]);
    let across = [basic(Sell, 5, 91), stepper(Sell, 7, 75, 0)];
    stand(&across, &[(1, 90), (2, 89), (7, 84), (16, 75)]);
    stand(&across, &[(17, 75), (91, 75), (92, 75), (1_000, 75)]);
    let below = [basic(Sell, 5, 80), stepper(Sell, 7, 75, 0)];
    stand(&below, &[(1, 79), (3, 77), (5, 75), (6, 75)]);
    let unlimited = Order {
        terms: Terms::WithoutLimit { all_or_none: false },
        ..basic(Sell, 5, 1)
    };
    let without = [unlimited, stepper(Sell, 7, 75, 0)];
    stand(&without, &[(1, 89), (14, 76), (15, 75), (16, 75)]);
    let steppers = [stepper(Sell, 5, 96, 0), stepper(Sell, 5, 92, 0)];
    stand(&steppers, &[(1, 95), (2, 94), (4, 92), (5, 92)]);
    let beyond = [basic(Sell, 5, 92), stepper(Sell, 7, 96, 0)];
    stand(&beyond, &[(1, 96), (2, 96), (92, 96), (1_000, 96)]);
}

/// A sheet with D, H, last purchase price and I as given, by a step.
fn sheet_at([lower, upper, last, indicative]: [u32; 4], step: u32, orders: &[Order]) -> Sheet {
    Sheet {
        lower: Price(lower),
        upper: Price(upper),
        last_purchase: Price(last),
        indicative: Price(indicative),
        ..sheet_by(step, orders)
    }
}

#[test]
fn largest_steps() {
    let grid = Grid { last: 10_000 };
    // A rival and a Stepper with its limit, and where it stands by steps of 999 and 1,000.
    let rows = [
        (Buy, 3_000, 4_000, 3_999, 4_000),
        (Buy, 3_000, 3_999, 3_999, 3_999),
        (Buy, 3_000, 5_000, 3_999, 4_000),
        (Buy, 1, 5_000, 1_000, 1_001),
        (Sell, 7_000, 6_000, 6_001, 6_000),
        (Sell, 7_000, 6_001, 6_001, 6_001),
        (Sell, 7_000, 5_000, 6_001, 6_000),
        (Sell, 10_000, 5_000, 9_000, 9_000),
        (Sell, 9_999, 5_000, 9_000, 8_999),
    ];
    for (side, rival, limit, by_999, by_1_000) in rows {
        let orders = [basic(side, 5, rival), stepper(side, 5, limit, 0)];
        let head = [1_000, 9_000, 5_000, 5_000];
        let stands = |step| stands_in(&sheet_at(head, step, &orders), grid);
        assert_eq!(
            (stands(999), stands(1_000)),
            (by_999, by_1_000),
            "{rival} {limit}"
        );
    }
}

#[test]
fn steps_below_zero() {
    let head = [2, 9, 5, 5];
    // A rival, the Stepper's limit, the step and where it stands; wrapped around it would be H.
    let rows = [
        (3, 1, 1, 2),
        (3, 1, 2, 1),
        (3, 1, 3, 1),
        (3, 1, 4, 1),
        (3, 1, 1_000, 1),
        (3, 2, 1, 2),
        (3, 2, 2, 2),
        (3, 2, 3, 2),
        (3, 2, 4, 2),
        (3, 2, 1_000, 2),
        (1, 1, 1, 1),
        (1, 1, 2, 1),
        (1, 1, 1_000, 1),
        (8, 1, 1, 7),
        (8, 1, 6, 2),
        (8, 1, 7, 1),
        (8, 1, 8, 1),
        (8, 1, 9, 1),
        // Its own limit is H, or beyond.
        (1, 9, 1, 9),
        (1, 9, 1_000, 9),
        (1, 10, 1_000, 10),
        // A rival so high that H is the bound, or just not.
        (12, 1, 3, 9),
        (12, 1, 4, 8),
        (12, 1, 12, 1),
        (12, 1, 13, 1),
    ];
    for (rival, limit, step, price) in rows {
        let orders = [basic(Sell, 5, rival), stepper(Sell, 5, limit, 0)];
        let sheet = sheet_at(head, step, &orders);
        assert_eq!(stands_in(&sheet, SMALL), price, "{rival} {limit} {step}");
        let line = joined("stepper", Some(1), &sheet.words());
        assert_eq!(answer_line(&line), price.to_string(), "{line}");
    }
}

#[test]
fn opening_with_a_step_below_zero() {
    // Standing at its own limit, the Stepper sells at the price that finds the most pieces.
    let head = [2, 9, 5, 5];
    let orders = [basic(Sell, 5, 3), stepper(Sell, 5, 1, 0), basic(Buy, 10, 3)];
    let opening = opening_of(&sheet_at(head, 1_000, &orders));
    assert_eq!(
        (first(&opening), fills(&opening)),
        ((0, 3, 3, 10), vec![5, 5, 10])
    );
}

#[test]
fn steps_above_the_grid() {
    let head = [999_990, 1_000_000, 999_995, 999_995];
    let rows = [
        (999_998, 1_000_000, 1, 999_999),
        (999_998, 1_000_000, 2, 1_000_000),
        (999_998, 1_000_000, 3, 1_000_000),
        (999_998, 1_000_000, 1_000, 1_000_000),
        (999_998, 999_999, 2, 999_999),
        (999_998, 999_999, 1_000, 999_999),
        (1_000_000, 1_000_000, 1, 1_000_000),
        (1_000_000, 1_000_000, 1_000, 1_000_000),
        (998_990, 1_000_000, 1_000, 999_990),
        (998_991, 1_000_000, 1_000, 999_991),
    ];
    for (rival, limit, step, price) in rows {
        let orders = [basic(Buy, 5, rival), stepper(Buy, 5, limit, 0)];
        let sheet = sheet_at(head, step, &orders);
        let stands = stands_in(&sheet, Grid::DOCUMENT);
        assert_eq!(stands, price, "{rival} {limit} {step}");
    }
}

/// The buy at 101 is the Stepper's rival, and the sell finds fewer pieces than the Stepper has.
fn price_by_step() -> [Order; 3] {
    let stepper = stepper(Buy, 7, 108, 0);
    [basic(Buy, 5, 101), stepper, basic(Sell, 5, 95)]
}

#[test]
fn auction_price_by_step() {
    // Demand exceeds supply up to where the Stepper stands, and this is the price; the second round
    // has no sells and leaves it there.
    for (step, price) in [(1, 102), (2, 103), (3, 104), (6, 107), (7, 108), (8, 108)] {
        let opening = opening_by(step, &price_by_step());
        let figures: Vec<_> = opening.rounds.iter().map(figures).collect();
        assert_eq!(figures, [(0, price, price, 5), (2, price, 0, 0)], "{step}");
        assert_eq!((fills(&opening), opening.ending), (vec![0, 5, 5], 0));
    }
    let selling = [
        basic(Sell, 5, 99),
        stepper(Sell, 7, 92, 0),
        basic(Buy, 5, 105),
    ];
    for (step, price) in [(1, 98), (3, 96), (7, 92), (8, 92), (99, 92), (1_000, 92)] {
        let opening = opening_by(step, &selling);
        let figures: Vec<_> = opening.rounds.iter().map(figures).collect();
        assert_eq!(figures, [(0, price, price, 5), (1, price, 0, 0)], "{step}");
        assert_eq!((fills(&opening), opening.ending), (vec![0, 5, 5], 0));
    }
}

/// The words of these orders.
const PRICE_BY_STEP: &str =
    "60000065 80000005 90000000 6200006c 80000007 90000000 7000005f 80000005 90000000";

#[test]
fn listing_by_step() {
    // By 3 the Stepper stands at 104.
    let sheet = format!("50000003 00000003 {PRICE_BY_STEP}");
    let round = "a0000000 b0000068 c0000068 d0000005 e0000000 e0000005 e0000005";
    let last = "a0000002 b0000068 c0000000 d0000000 e0000000 e0000000 e0000000 f0000002";
    let result = format!("{round} {last}");
    // 5 pieces at 104 are 5,200 hellers.
    let charged = format!("{result} fees 0 52 52");
    answered(&[
        ("check", &sheet, "accepted"),
        ("stepper 1", &sheet, "104"),
        ("stepper 0", &sheet, "refused 9 0"),
        ("stepper 3", &sheet, "refused 9 0"),
        ("curves 94", &sheet, "12 0 0"),
        ("curves 101", &sheet, "12 5 5"),
        ("curves 102", &sheet, "7 5 5"),
        ("curves 104", &sheet, "7 5 5"),
        ("curves 105", &sheet, "0 5 0"),
        ("round 7", &sheet, round),
        ("round 6", &sheet, "refused 10 0"),
        ("opening 29", &sheet, &result),
        ("opening 28", &sheet, "refused 10 0"),
        ("fees 100 0 99 29 3", &sheet, &charged),
        ("fees 100 0 99 29 2", &sheet, "refused 10 0"),
        ("fees 10001 0 99 29 3", &sheet, "refused 16 0"),
    ]);
    let printed = opening_program(&bytes_of(&format!("{HEAD} {sheet}")));
    assert_eq!(printed, result.replace(' ', "\n") + "\n");
    let words = sheet_by(3, &price_by_step()).words();
    assert_eq!(format!("{HEAD} {sheet}"), hexadecimal(&words, " "));
}

#[test]
fn listing_by_other_steps() {
    // The words up to the orders, where the Stepper stands, and the curves at 103.
    for (heading, price, curves) in [
        ("50000003", "102", "0 5 0"),
        ("50000003 00000001", "102", "0 5 0"),
        ("50000003 00000002", "103", "7 5 5"),
        ("50000003 00000007", "108", "7 5 5"),
        ("50000003 000003e8", "108", "7 5 5"),
    ] {
        let sheet = format!("{heading} {PRICE_BY_STEP}");
        answered(&[("stepper 1", &sheet, price), ("curves 103", &sheet, curves)]);
    }
}

/// The Stepper steps from 101: below the buy at 104, level with it at 3, ahead of it from 4 on.
fn priority_by_step() -> [Order; 4] {
    [
        basic(Buy, 5, 104),
        basic(Buy, 3, 101),
        stepper(Buy, 3, 108, 5),
        basic(Sell, 4, 95),
    ]
}

#[test]
fn fills_by_step() {
    let orders = priority_by_step();
    let selling = [
        basic(Sell, 5, 96),
        basic(Sell, 3, 99),
        stepper(Sell, 3, 92, 5),
        basic(Buy, 4, 105),
    ];
    for (step, filled) in [
        (1, [4, 0, 0, 4]),
        (2, [4, 0, 0, 4]),
        (3, [4, 0, 0, 4]),
        (4, [1, 0, 3, 4]),
        (7, [1, 0, 3, 4]),
        (1_000, [1, 0, 3, 4]),
    ] {
        let (bought, sold) = (opening_by(step, &orders), opening_by(step, &selling));
        assert_eq!(
            (first(&bought), first(&sold)),
            ((0, 104, 104, 4), (0, 96, 96, 4))
        );
        assert_eq!(
            (fills(&bought), fills(&sold)),
            (filled.into(), filled.into())
        );
    }
}

#[test]
fn level_by_step() {
    // Level limits go by filing order, and all-or-none orders come last.
    let orders = priority_by_step();
    let filed_first = [orders[2], orders[0], orders[1], orders[3]];
    assert_eq!(fills(&opening_by(2, &filed_first)), [0, 4, 0, 4]);
    assert_eq!(fills(&opening_by(3, &filed_first)), [3, 1, 0, 4]);
    let mut all_or_none = orders;
    all_or_none[0] = limited(Buy, 5, 104, true);
    let below = opening_by(2, &all_or_none);
    assert_eq!(
        (first(&below), below.rounds.len(), below.ending),
        ((0, 104, 0, 0), 1, 1)
    );
    let level = opening_by(3, &all_or_none);
    assert_eq!(
        (first(&level), level.rounds.len(), level.ending),
        ((0, 104, 104, 3), 2, 1)
    );
    assert_eq!(fills(&level), [0, 0, 3, 3]);
}

#[test]
fn waiting_by_step() {
    // From 109 it takes 6 to meet the sell at 115, which is above the band.
    let orders = [
        basic(Buy, 5, 109),
        stepper(Buy, 7, 125, 0),
        basic(Sell, 5, 115),
    ];
    let selling = [
        basic(Sell, 5, 91),
        stepper(Sell, 7, 75, 0),
        basic(Buy, 5, 85),
    ];
    for (step, bought, sold, ending) in [
        (1, (2, 110, 0, 0), (1, 90, 0, 0), 0),
        (2, (2, 110, 0, 0), (1, 90, 0, 0), 0),
        (5, (2, 110, 0, 0), (1, 90, 0, 0), 0),
        (6, (0, 115, 0, 0), (0, 85, 0, 0), 2),
        (7, (0, 116, 0, 0), (0, 84, 0, 0), 2),
        (15, (0, 124, 0, 0), (0, 76, 0, 0), 2),
        (16, (0, 125, 0, 0), (0, 75, 0, 0), 2),
        (91, (0, 125, 0, 0), (0, 75, 0, 0), 2),
        (1_000, (0, 125, 0, 0), (0, 75, 0, 0), 2),
    ] {
        for (orders, round) in [(orders, bought), (selling, sold)] {
            let opening = opening_by(step, &orders);
            assert_eq!(first(&opening), round, "{step}");
            assert_eq!((opening.rounds.len(), opening.ending), (1, ending));
        }
    }
}

#[test]
fn beyond_the_bound_by_step() {
    // Beyond H all are level, by whatever step: the first is filled.
    let level = [
        basic(Buy, 3, 115),
        stepper(Buy, 3, 120, 0),
        basic(Sell, 3, 95),
    ];
    for step in [1, 2, 5, 6, 1_000] {
        let opening = opening_by(step, &level);
        assert_eq!(
            (first(&opening), fills(&opening)),
            ((0, 110, 110, 3), vec![3, 0, 3])
        );
    }
}

/// Three pairs of all-or-none orders, buys of 5 at the limits given and sells of 6, and a Stepper of 4
/// that ignores 5 and can add the sixth piece.
fn three_pairs(limits: [u32; 3]) -> [Order; 7] {
    let [one, two, three] = limits.map(|limit| limited(Buy, 5, limit, true));
    let [first, second, third] = [93, 94, 95].map(|limit| limited(Sell, 6, limit, true));
    let stepper = stepper(Buy, 4, 110, 5);
    [one, two, three, stepper, first, second, third]
}

/// The figures of all rounds. Seen from the other side they are the same about a price of 100; so is
/// the ending, and the fills are handed over in the same order.
fn both_sides(sheet: &Sheet) -> (Opening, Vec<(u32, u32, u32, u64)>) {
    let opening = opening_of(sheet);
    let turned = opening_of(&mirrored(sheet, Grid { last: 199 }));
    let rounds: Vec<_> = opening.rounds.iter().map(figures).collect();
    assert_eq!(turned.rounds.len(), rounds.len());
    for (round, turned) in opening.rounds.iter().zip(&turned.rounds) {
        assert_eq!(turned.auction_price.0, 200 - round.auction_price.0);
        assert_eq!(turned.fills, round.fills);
    }
    assert_eq!(turned.ending, opening.ending);
    (opening, rounds)
}

#[test]
fn rounds_by_step() {
    let (close, apart) = (three_pairs([108, 106, 104]), three_pairs([108, 105, 102]));
    // The Stepper stands between the first two buys, then between the others, at 90 in the end: at
    // 107 and 105 where they are 2 apart, at 106 and 103 or at 107 and 104 where they are 3. Until
    // then demand exceeds supply (19 and 18, 13 and 12) up to the lowest buy; in the end the buy
    // has 5, the sell 6.
    for (step, orders, price) in [(1, close, 104), (1, apart, 102), (2, apart, 102)] {
        let (opening, rounds) = both_sides(&sheet_by(step, &orders));
        let traded = (0, price, price, 6);
        assert_eq!(rounds, [traded, traded, (0, 95, 0, 0)], "{step}");
        assert_eq!(
            (fills(&opening), opening.ending),
            (vec![5, 0, 0, 1, 6, 0, 0], 1)
        );
    }
    assert_eq!(opening_by(1, &close), opening(&close));
    // A hundredth of 5,100, 1,020 and 6,120 hellers: 51, 10.2 and 61.2.
    let fees = tariff(100, 0, MOST_FEE).fees(&opening_by(2, &apart));
    assert_eq!(fees, [51, 51, 0, 20, 61, 61, 0]);
    // Level with the first buy, which as an all-or-none order ranks behind, or ahead of it: 4, 9, 14
    // or 19 pieces and no part of 6, 12 or 18.
    for (step, orders, price) in [
        (2, close, 104),
        (3, close, 104),
        (3, apart, 102),
        (4, apart, 102),
        (1_000, apart, 102),
    ] {
        let (opening, rounds) = both_sides(&sheet_by(step, &orders));
        assert_eq!(
            (rounds, opening.ending),
            (vec![(0, price, 0, 0)], 1),
            "{step}"
        );
    }
}

#[test]
fn step_words() {
    let order = "60000000 80000001 90000000";
    for step in [1, 2, 3, 10, 255, 256, 512, 999, 1_000] {
        answered(&[
            ("check", &format!("50000000 {step:08x}"), "accepted"),
            ("check", &format!("50000001 {step:08x} {order}"), "accepted"),
        ]);
    }
    // None, one beyond, and numbers that would do if their upper bits were not looked at.
    let mut wrong: Vec<u32> = [0, 1_001, 1_002, 1_023, 1_024, 1_025, 1_256].to_vec();
    wrong.extend([65_536, 65_537, 1_000_000, 1 << 20 | 1, 1 << 24 | 1]);
    wrong.extend([1 << 27, 1 << 27 | 1, 0x0fff_ffff]);
    // Each other kind, with values that would be right and with one that is not either.
    for kind in 1..16 {
        wrong.extend([1, 100, 1_000, 0].map(|value| kind << 28 | value));
    }
    for word in wrong {
        refused_by_all(&format!("{HEAD} 50000000 {word:08x}"), 17);
        refused_by_all(&format!("{HEAD} 50000001 {word:08x} {order}"), 17);
        // Before the orders and all that may be wrong with them.
        let faulty = "50000000 80000000 90000001";
        refused_by_all(&format!("{HEAD} 50000001 {word:08x} {faulty}"), 17);
        // It is not judged where the length is no such sheet's.
        refused_by_all(&format!("{HEAD} 50000001 {word:08x}"), 4);
        refused_by_all(&format!("{HEAD} 50000000 {word:08x} {word:08x}"), 4);
        refused_by_all(&format!("{HEAD} 50000000 {word:08x} {order}"), 4);
        refused_by_all(&format!("{HEAD} 50000001 {word:08x} {order} {order}"), 4);
        refused_by_all(&format!("{HEAD} 5fffffff {word:08x}"), 4);
        // After the kinds.
        refused_by_all(&format!("0{} 50000000 {word:08x}", &HEAD[1..]), 2);
        refused_by_all(&format!("{HEAD} 00000000 {word:08x}"), 2);
    }
}

/// Rows of what follows `HEAD`, in which `order` is for the words of one in good form, and of the
/// check's refusal, 0 for none.
fn checked(rows: &[(&str, u32)]) {
    for (words, number) in rows {
        let words = words.replace("order", "60000064 80000001 90000000");
        let answer = match number {
            0 => "accepted".to_string(),
            _ => format!("refused {number} 0"),
        };
        answered(&[("check", &words, &answer)]);
    }
}

#[test]
fn words_too_many_or_missing() {
    checked(&[
        // One behind the orders: the sixth word is then an order's first.
        ("50000001 order 00000001", 17),
        ("50000001 order 90000000", 17),
        ("50000002 order order 00000001", 17),
        // One before them, right or wrong.
        ("50000001 000003e8 order", 0),
        ("50000001 000003e9 order", 17),
        ("50000001 60000000 order", 17),
        // Without orders there is nothing behind which it could stand.
        ("50000000 00000001", 0),
        ("50000000 60000000", 17),
        // Two of them, or a word too many beside one.
        ("50000000 00000001 00000001", 4),
        ("50000001 00000001 00000001 order", 4),
        ("50000001 00000001 order 90000000", 4),
        ("50000001 00000000 order 90000000", 4),
        // The last word dropped: a plain sheet by its length, whose first order begins with the step.
        ("50000001 00000001 60000000 80000001", 5),
        ("50000001 00000000 60000000 80000001", 5),
        // And two words dropped.
        ("50000001 00000001 60000000", 4),
        ("50000001 00000000 60000000", 4),
        // The step dropped: a plain sheet.
        ("50000001 order", 0),
        // One order more or less than counted.
        ("50000000 00000001 order", 4),
        ("50000002 00000001 order", 4),
        ("50000000 00000000 order", 4),
        ("50000002 00000000 order", 4),
    ]);
}

#[test]
fn step_words_of_too_many_orders() {
    for n in [121, 122, 1_000] {
        let count = format!("5{n:07x}");
        let orders = vec!["order"; n].join(" ");
        // Two words of the last order, and one.
        let (two, one) = ("60000064 80000001", "60000064");
        let fewer = vec!["order"; n - 1].join(" ");
        checked(&[
            // As long as a sheet with a step word: this is judged first.
            (&format!("{count} 00000000 {orders}"), 17),
            (&format!("{count} 000003e9 {orders}"), 17),
            (&format!("{count} 10000001 {orders}"), 17),
            (&format!("{count} {orders} 00000001"), 17),
            (&format!("{count} 00000001 {orders}"), 4),
            (&format!("{count} 000003e8 {orders}"), 4),
            // As long as one without, or as none.
            (&format!("{count} {orders}"), 4),
            (&format!("{count} 00000000 {fewer} {two}"), 4),
            (&format!("{count} 00000000 {fewer} {one}"), 4),
            (&format!("{count} 00000000 {orders} 00000000"), 4),
        ]);
    }
    let orders = vec!["order"; 120].join(" ");
    checked(&[
        // 120 are not too many.
        (&format!("50000078 {orders}"), 0),
        (&format!("50000078 00000001 {orders}"), 0),
        (&format!("50000078 00000000 {orders}"), 17),
        (&format!("50000078 {orders} 00000001"), 17),
    ]);
}

#[test]
fn step_words_after_prices_and_band() {
    let orders = " 60000064 80000001 90000000".repeat(121);
    let between = NOT_BETWEEN.map(|prices| (prices, 15));
    let on_grid = NOT_ON_GRID.map(|prices| (prices, 3));
    for (prices, number) in between.into_iter().chain(on_grid) {
        let head = head(prices);
        for step in ["00000000", "000003e9", "10000001", "00000001", "000003e8"] {
            refused_by_all(&format!("{head} 50000000 {step}"), number);
            refused_by_all(&format!("{head} 50000001 {step}"), number);
            // Too many orders for the program, not for the calls.
            let line = format!("opening 0 {head} 50000079 {step}{orders}");
            assert_eq!(answer_line(&line), format!("refused {number} 0"));
        }
    }
}

#[test]
fn usual_step_said_or_not() {
    let mut random = Random::new(7);
    for _ in 0..150 {
        let sheet = quick_sheet(&mut random).with_step(None);
        let said = sheet.with_step(Some(QuotationStep(1)));
        let n = sheet.orders.len() as u64;
        let (round, opening) = (space_of_round(n as usize), space_of_opening(n as usize));
        let order = order_for(&mut random, &sheet, false);
        let price = price_for(&mut random, &sheet, false);
        for call in [
            "check".to_string(),
            format!("stepper {order}"),
            format!("stepper {n}"),
            format!("curves {price}"),
            "curves 0".to_string(),
            format!("round {round}"),
            format!("round {}", round - 1),
            format!("opening {opening}"),
            format!("opening {}", opening - 1),
            format!("fees 35 1 1000000 {opening} {n}"),
            format!("fees 35 1 0 {opening} {n}"),
        ] {
            let [one, other] = [&sheet, &said].map(|s| joined(&call, None, &s.words()));
            assert_eq!(one.len() + 9, other.len());
            assert_eq!(answer_line(&one), answer_line(&other), "{one}");
        }
        let [one, other] = [sheet, said].map(|s| bytes_of(&hexadecimal(&s.words(), " ")));
        assert_eq!(opening_program(&one), opening_program(&other));
    }
}

#[test]
fn steppers_mirrored() {
    let mut random = Random::new(7);
    let mut moved = 0;
    for _ in 0..2_000 {
        let sizes = Sizes {
            grid: Grid {
                last: random.between(8, 40) as u32,
            },
            orders: 4,
            pieces: 5,
        };
        let lot = random.pick(&[2, 11, 12, 15]);
        let sheet = sheet_by_lot(&mut random, sizes, lot);
        let turned = mirrored(&sheet, sizes.grid);
        let stand = |sheet: &Sheet| literal::Book::first(sheet, sizes.grid).in_force;
        let turn = |price: Price| Price(sizes.grid.last + 1 - price.0);
        let back: Vec<Price> = stand(&turned).into_iter().map(turn).collect();
        assert_eq!(stand(&sheet), back, "{sheet:?}");
        moved += u32::from(stand(&sheet) != stand(&sheet.with_step(None)));
    }
    assert!(moved > 200, "{moved}");
}

#[test]
fn all_shapes_have_step_words() {
    let mut random = Random::new(7);
    let sizes = Sizes {
        grid: Grid::DOCUMENT,
        orders: 5,
        pieces: 5,
    };
    let mut missing = vec![1, 2, 3, 999, 1_000];
    let mut all = 0;
    for lot in 0..LOTS {
        let sheets = (0..60).map(|_| sheet_by_lot(&mut random, sizes, lot));
        let steps: Vec<u32> = sheets
            .filter_map(|sheet| sheet.step)
            .map(|step| step.0)
            .collect();
        assert!(steps.len() >= 18, "{lot}: {}", steps.len());
        assert!(steps.iter().all(|step| (1..=1_000).contains(step)));
        missing.retain(|step| !steps.contains(step));
        all += steps.len() as u64;
    }
    assert!(missing.is_empty(), "{missing:?}");
    assert!((30 * LOTS..=40 * LOTS).contains(&all), "{all}");
    let chains = (0..60).map(|_| steady_chain(&mut random, 30));
    let stepped = chains.filter(|sheet| sheet.step.is_some()).count();
    assert!((18..=42).contains(&stepped), "{stepped}");
}

#[test]
fn random_lines_have_step_words() {
    let mut random = Random::new(7);
    let kinds = [
        (Kind::Check, 1),
        (Kind::Stepper, 2),
        (Kind::Curves, 2),
        (Kind::Round, 2),
        (Kind::Opening, 2),
        (Kind::Fees, 6),
        (Kind::Small, 2),
    ];
    for (kind, before) in kinds {
        let (mut plain, mut stepped) = (0, 0);
        for _ in 0..120 {
            let line = line(&mut random, kind);
            if answer_line(&line).starts_with("refused") {
                continue;
            }
            match (line.split(' ').count() - before) % 3 {
                2 => plain += 1,
                0 => stepped += 1,
                _ => panic!("no such length: {line}"),
            }
        }
        assert!(plain >= 25 && stepped >= 25, "{plain} {stepped}");
    }
}

/// What is wrong, or just not wrong, with a step word among the words of a sheet; the layout is that
/// of their length.
fn step_faults(words: &[u32]) -> Vec<&'static str> {
    let [_, _, _, _, count, sixth, ..] = *words else {
        return Vec::new();
    };
    let count = value(count) as usize;
    let (few, many) = ((1..=120).contains(&count), count > 120);
    let right = (1..=1_000).contains(&sixth);
    let order_word = [6, 7].contains(&kind(sixth));
    let faults = match Layout::of_length(words.len(), count) {
        Some(Layout::Stepped) => vec![
            ("zero", sixth == 0),
            ("1,001", sixth == 1_001),
            ("large", kind(sixth) == 0 && sixth > 60_000),
            (
                "kind",
                kind(sixth) > 0 && (1..=1_000).contains(&value(sixth)),
            ),
            ("order word", few && order_word),
            ("right", right && !many),
            ("right, too many orders", right && many),
            ("wrong, too many orders", !right && many),
            ("order word, too many orders", order_word && many),
        ],
        Some(Layout::Plain) => vec![
            ("plain, too many orders", many && order_word),
            ("step left", right && few),
            ("step left, too many orders", right && many),
        ],
        None => vec![
            ("length, wrong word", !right),
            ("length, right word", right),
        ],
    };
    let found = faults.into_iter().filter(|(_, so)| *so);
    found.map(|(name, _)| name).collect()
}

#[test]
fn damage_reaches_step_words() {
    let mut random = Random::new(7);
    let mut seen = std::collections::BTreeMap::new();
    let sizes = Sizes {
        grid: Grid::DOCUMENT,
        orders: 3,
        pieces: 5,
    };
    let mut refusals = std::collections::BTreeSet::new();
    for _ in 0..20_000 {
        let lot = random.pick(&[0, 15]);
        let mut words = sheet_by_lot(&mut random, sizes, lot).words();
        damage(&mut random, &mut words);
        for fault in step_faults(&words) {
            *seen.entry(fault).or_insert(0) += 1;
        }
        if let Err(refusal) = read(&words, Grid::DOCUMENT) {
            refusals.insert(refusal.number);
        }
    }
    assert_eq!(seen.len(), 14, "{seen:?}");
    assert!(seen.values().all(|count| *count >= 20), "{seen:?}");
    assert!(refusals.into_iter().eq([1, 2, 3, 4, 5, 6, 7, 8, 15, 17]));
}

fn tariff(rate: u64, least: u64, greatest: u64) -> Tariff {
    let tariff = Tariff {
        rate,
        least,
        greatest,
    };
    assert_eq!(tariff.check(), Ok(()));
    tariff
}

/// Each row is a rate, a fill, the price in steps, and the fee without bounds that are met.
fn rated(rows: &[(u64, u64, u32, u64)]) {
    for (rate, fill, price, fee) in rows {
        let free = tariff(*rate, 0, MOST_FEE);
        let row = format!("{rate} {fill} {price}");
        assert_eq!(free.fee(Pieces(*fill), Price(*price)), *fee, "{row}");
    }
}

#[test]
fn fees_rounded() {
    rated(&[
        // A single piece by a rate of 1: a thousandth of its steps. 0.499, 0.5, 0.501.
        (1, 1, 499, 0),
        (1, 1, 500, 1),
        (1, 1, 501, 1),
        // 1.499, 1.5, 1.501, 2.499, 2.5: no half goes to the even side.
        (1, 1, 1_499, 1),
        (1, 1, 1_500, 2),
        (1, 1, 1_501, 2),
        (1, 1, 2_499, 2),
        (1, 1, 2_500, 3),
        // Ten hellers: 0.499, 0.5, 0.501, then 9.999 and all of them.
        (499, 1, 1, 0),
        (500, 1, 1, 1),
        (501, 1, 1, 1),
        (9_999, 1, 1, 10),
        (10_000, 1, 1, 10),
        // Thirty hellers: 1.5; twenty: 1.
        (500, 3, 1, 2),
        (500, 1, 2, 1),
        // 86,380 hellers: 302.33. 4,200 hellers: 14.7.
        (35, 7, 1_234, 302),
        (35, 4, 105, 15),
        // 5,000 of them are half of tens, which is whole: 15 of 30.
        (5_000, 3, 1, 15),
        // 0.01 of 9,990 hellers is 99.9, and 0.0001 of 10,000,000,000 is a million.
        (100, 9, 111, 100),
        (1, 1_000, 1_000_000, 1_000_000),
    ]);
}

#[test]
fn fees_at_the_ends() {
    rated(&[
        // No rate, no pieces.
        (0, 1_000_000, 1_000_000, 0),
        (10_000, 0, 1_000_000, 0),
        // The whole worth, up to the highest fee and no further.
        (10_000, 4, 105, 4_200),
        (10_000, 239, 41_841, 99_999_990),
        (10_000, 10, 1_000_000, MOST_FEE),
        (10_000, 11, 1_000_000, MOST_FEE),
        // 10^13 hellers: even their ten-thousandth is more than may be asked.
        (1, 1_000_000, 1_000_000, MOST_FEE),
        (10_000, 1_000_000, 1_000_000, MOST_FEE),
    ]);
    let free = tariff(10_000, 0, MOST_FEE);
    assert_eq!(free.share(10_000_000_000_000), 10_000_000_000_000);
    assert_eq!(
        tariff(9_999, 0, 0).share(10_000_000_000_000),
        9_999_000_000_000
    );
}

#[test]
fn fees_within_bounds() {
    // 4 pieces at 105 by a rate of 35 are 14.7 hellers, so 15.
    let rows = [
        ((0, 14), 14),
        ((0, 15), 15),
        ((0, 16), 15),
        ((14, 20), 15),
        ((15, 20), 15),
        ((16, 20), 16),
        ((15, 15), 15),
        ((14, 14), 14),
        ((16, 16), 16),
        ((0, 0), 0),
        ((MOST_FEE, MOST_FEE), MOST_FEE),
    ];
    for ((least, greatest), fee) in rows {
        let tariff = tariff(35, least, greatest);
        assert_eq!(tariff.fee(Pieces(4), Price(105)), fee, "{least} {greatest}");
        // Nothing filled, nothing owed.
        assert_eq!(tariff.fee(Pieces(0), Price(105)), 0, "{least} {greatest}");
    }
    // Raised from nothing: by the rate, or by rounding, as 4.2 hundredths of a heller are.
    assert_eq!(tariff(0, 7, 9).fee(Pieces(4), Price(105)), 7);
    assert_eq!(tariff(1, 1, 9).fee(Pieces(1), Price(42)), 1);
}

/// A round that fills as told, with an auction price that no fee may go by.
fn round_of(price: u32, fills: &[u64]) -> Round {
    Round {
        situation: 0,
        auction_price: Price(999),
        purchase_price: (price > 0).then_some(Price(price)),
        total: Pieces(fills.iter().sum::<u64>() / 2),
        fills: fills.iter().map(|fill| Pieces(*fill)).collect(),
    }
}

#[test]
fn fees_add_up() {
    let rounds = vec![
        round_of(100, &[4, 4, 0, 0]),
        round_of(150, &[1, 0, 1, 0]),
        round_of(0, &[0, 0, 0, 0]),
    ];
    let opening = Opening { rounds, ending: 1 };
    // By 0.0035: 4,000 hellers are 14, and 1,500 are 5.25, so 5.
    assert_eq!(tariff(35, 0, 100).fees(&opening), [19, 14, 5, 0]);
    assert_eq!(tariff(35, 10, 100).fees(&opening), [24, 14, 10, 0]);
    assert_eq!(tariff(35, 0, 12).fees(&opening), [17, 12, 5, 0]);
    assert_eq!(tariff(35, 6, 12).fees(&opening), [18, 12, 6, 0]);
    assert_eq!(tariff(35, 8, 8).fees(&opening), [16, 8, 8, 0]);
    assert_eq!(tariff(0, 0, 0).fees(&opening), [0; 4]);
    assert_eq!(
        tariff(10_000, 0, MOST_FEE).fees(&opening),
        [5_500, 4_000, 1_500, 0]
    );
}

#[test]
fn fees_beyond_32_bits() {
    // 2^32 is 4,294,967,296: 42 of the highest fees stay below it, 43 do not.
    for (rounds, fee) in [
        (42, 4_200_000_000),
        (43, 4_300_000_000),
        (121, 12_100_000_000),
    ] {
        let rounds = vec![round_of(1, &[1, 0, 1]); rounds];
        let opening = Opening { rounds, ending: 0 };
        let highest = tariff(0, MOST_FEE, MOST_FEE);
        assert_eq!(highest.fees(&opening), [fee, 0, fee]);
    }
    let rounds = vec![round_of(1_000_000, &[8, 8]); 60];
    let opening = Opening { rounds, ending: 0 };
    // 80,000,000 hellers in each round.
    assert_eq!(
        tariff(10_000, 0, MOST_FEE).fees(&opening),
        [4_800_000_000; 2]
    );
}

#[test]
fn steady_chains_charge_in_all_rounds() {
    let mut random = Random::new(7);
    for orders in [119, 120].repeat(8) {
        let sheet = steady_chain(&mut random, orders);
        for sheet in [mirrored(&sheet, Grid::DOCUMENT), sheet] {
            let stepper = sheet.orders.iter().position(Order::is_stepper).unwrap();
            let opening = fast::opening::opening(&sheet, Grid::DOCUMENT);
            // 59 pairs, of which the last is blocked.
            assert_eq!((opening.rounds.len(), opening.ending), (59, 1));
            let fees = tariff(10_000, MOST_FEE, MOST_FEE).fees(&opening);
            assert_eq!(fees[stepper], 5_800_000_000);
        }
    }
}

/// Three pairs of all-or-none orders, buys of 10 and sells of 11, and a Stepper of 5 that adds the
/// eleventh piece: it stands at 107, then at 105, at last without rivals at 90. The price is 104
/// as long as the demand exceeds the supply (35 and 33, 24 and 22), and the third pair is blocked.
fn three_rounds() -> [Order; 7] {
    [
        limited(Buy, 10, 108, true),
        limited(Buy, 10, 106, true),
        limited(Buy, 10, 104, true),
        stepper(Buy, 5, 110, 10),
        limited(Sell, 11, 93, true),
        limited(Sell, 11, 94, true),
        limited(Sell, 11, 95, true),
    ]
}

#[test]
fn fees_of_three_rounds() {
    let opening = opening(&three_rounds());
    let priced = |round: &Round| (round.purchase_price, round.fills[3].0);
    let rounds: Vec<_> = opening.rounds.iter().map(priced).collect();
    let traded = Some(Price(104));
    assert_eq!(rounds, [(traded, 1), (traded, 1), (None, 0)]);
    // A hundredth of 10,400, 1,040 and 11,440 hellers: 104, 10.4 and 114.4. The Stepper's two
    // fills are 10 each, although 20.8 together would be 21.
    assert_eq!(
        tariff(100, 0, MOST_FEE).fees(&opening),
        [104, 104, 0, 20, 114, 114, 0]
    );
    assert_eq!(
        tariff(100, 50, 110).fees(&opening),
        [104, 104, 0, 100, 110, 110, 0]
    );
    assert_eq!(tariff(0, 7, 7).fees(&opening), [7, 7, 0, 14, 7, 7, 0]);
}

#[test]
fn fees_by_the_purchase_price() {
    // P3: two sides trade 5 at 90, beside an auction price of 80, by which they would pay 40.
    let orders = [basic(Buy, 5, 95), basic(Buy, 5, 80), basic(Sell, 10, 70)];
    assert_eq!(tariff(100, 1, 99).fees(&opening(&orders)), [45, 0, 45]);
    let p3 = "50000003 6000005f 80000005 90000000 60000050 80000005 90000000 70000046 8000000a \
              90000000";
    let words = "a0000000 b0000050 c000005a d0000005 e0000005 e0000000 e0000005 f0020001";
    answered(&[
        ("fees 100 1 99 29 3", p3, &format!("{words} fees 45 0 45")),
        ("fees 100 46 99 29 3", p3, &format!("{words} fees 46 0 46")),
        ("fees 100 0 44 29 3", p3, &format!("{words} fees 44 0 44")),
    ]);
    // Above the band, where both sides have 10 from 115 on, only the sell at 100 trades, at 110.
    let orders = [
        basic(Buy, 10, 120),
        basic(Sell, 5, 115),
        basic(Sell, 5, 100),
    ];
    assert_eq!(first(&opening(&orders)), (0, 115, 110, 5));
    assert_eq!(tariff(100, 1, 99).fees(&opening(&orders)), [55, 0, 55]);
}

#[test]
fn fees_of_the_listing() {
    // 4 pieces at 105 are 4,200 hellers, and the second round trades nothing.
    let answers = [
        ("35 0 100000000 19 2", "15 15"),
        ("35 20 100000000 19 2", "20 20"),
        ("35 0 10 1019 1002", "10 10"),
        ("0 0 0 20 3", "0 0"),
        ("10000 0 100000000 19 2", "4200 4200"),
        (
            "10000 100000000 100000000 18446744073709551615 18446744073709551615",
            "100000000 100000000",
        ),
    ];
    for (numbers, fees) in answers {
        let line = format!("fees {numbers} {LISTING}");
        assert_eq!(
            answer_line(&line),
            format!("{LISTED} fees {fees}"),
            "{line}"
        );
    }
    // Without orders nobody pays, and no list is needed.
    let no_orders = "a0000004 b0000064 c0000000 d0000000 f0000001 fees";
    answered(&[
        ("fees 35 1 9 5 0", "50000000", no_orders),
        ("fees 35 1 9 6 1", "50000000", no_orders),
        ("fees 35 1 9 4 0", "50000000", "refused 10 0"),
        ("fees 35 1 9 4 1000", "50000000", "refused 10 0"),
    ]);
}

const ALLOWED_TARIFFS: [&str; 6] = [
    "0 0 0",
    "10000 0 0",
    "0 0 100000000",
    "0 5 5",
    "0 4 5",
    "1 100000000 100000000",
];

const REFUSED_TARIFFS: [&str; 22] = [
    // A figure one beyond its range, alone where that can be.
    "10001 0 0",
    "0 0 100000001",
    "0 100000001 100000001",
    "0 100000001 100000000",
    "0 100000001 0",
    // The bounds in the wrong order.
    "0 6 5",
    "0 1 0",
    "0 100000000 99999999",
    "10000 100000000 0",
    // Cut down to 32 bits these would be allowed.
    "4294967296 0 0",
    "0 4294967296 0",
    "0 0 4294967296",
    "0 4294967296 4294967301",
    "4294967297 0 4294967301",
    // The largest numbers of 32 and of 64 bits.
    "4294967295 0 0",
    "0 4294967295 4294967295",
    "0 0 4294967295",
    "18446744073709551615 0 0",
    "0 18446744073709551615 18446744073709551615",
    "0 0 18446744073709551615",
    "18446744073709551615 18446744073709551615 18446744073709551615",
    // Several at once.
    "10001 100000001 100000000",
];

#[test]
fn refusals_of_tariffs() {
    for figures in ALLOWED_TARIFFS {
        let answer = answer_line(&format!("fees {figures} 19 2 {LISTING}"));
        assert!(answer.starts_with(&format!("{LISTED} fees ")), "{figures}");
    }
    for figures in REFUSED_TARIFFS {
        // Also where the spaces would not do.
        for spaces in ["19 2", "18 2", "19 1", "0 0"] {
            let line = format!("fees {figures} {spaces} {LISTING}");
            assert_eq!(answer_line(&line), "refused 16 0", "{line}");
        }
    }
}

#[test]
fn refusals_of_fee_spaces() {
    for spaces in ["18 2", "19 1", "18 1", "0 2", "19 0", "0 0", "2 19"] {
        let line = format!("fees 35 0 9 {spaces} {LISTING}");
        assert_eq!(answer_line(&line), "refused 10 0", "{line}");
    }
    // A faulty sheet comes before a bad tariff and before small spaces.
    let sheets = [
        ("", "refused 1 0"),
        ("60000001", "refused 2 0"),
        ("50000000 00000000", "refused 17 0"),
        ("50000079", "refused 4 0"),
        ("50000001 50000001 80000001 90000000", "refused 5 0"),
        (
            "50000002 60000000 80000001 90000000 73000001 80000000 90000001",
            "refused 6 1",
        ),
        ("50000001 60000001 80000000 90000001", "refused 7 0"),
        ("50000001 60000001 80000001 90000001", "refused 8 0"),
    ];
    for (words, refused) in sheets {
        for numbers in [
            "35 0 9 99 9",
            "10001 0 0 99 9",
            "35 0 9 0 9",
            "35 0 9 99 0",
            "0 1 0 0 0",
        ] {
            answered(&[(&format!("fees {numbers}"), words, refused)]);
        }
    }
}

#[test]
fn fee_lines() {
    let unreadable = [
        "fees",
        "fees 35",
        "fees 35 0 9 19",
        "fees 35 0 9 19 ",
        "fees 35 0 9  19 2",
        "fees 35 0 9 19 2 ",
        "fees 35 0 9 19 2a",
        "fees -35 0 9 19 2",
        "fees 35 0 9 19 18446744073709551616",
        "fees 18446744073709551616 0 9 19 2",
        "fees 35 0 9 19 2 1000005g",
        "fees 35 0 9 19 2 01000005a",
    ];
    for line in unreadable {
        assert_eq!(answer_line(line), "unreadable", "{line}");
    }
    // Five numbers are a call, on a sheet without words.
    assert_eq!(answer_line("fees 10001 0 0 0 0"), "refused 1 0");
}

#[test]
fn random_fees_reach_all() {
    let mut random = Random::new(7);
    let mut missing: Vec<String> = [1, 2, 3, 4, 5, 6, 7, 8, 10, 15, 16, 17]
        .map(|number| format!("refused {number} "))
        .to_vec();
    let mut most = 0;
    for _ in 0..3_000 {
        let line = line(&mut random, Kind::Fees);
        let answer = answer_line(&line);
        assert_ne!(answer, "unreadable");
        missing.retain(|start| !answer.starts_with(start));
        let fees = answer.split_once("fees").map_or("", |(_, fees)| fees);
        let fees = fees.split_whitespace().map(|fee| fee.parse().unwrap());
        most = fees.fold(most, u64::max);
    }
    assert!(missing.is_empty(), "{missing:?}");
    assert!(most > 1 << 32, "{most}");
}

/// The clock's line for a band and a day. A day is written as seconds in decimal, `above`,
/// `below`, `inside`, and bare words after an x.
fn clock_line(band: &str, day: &str) -> String {
    let mut line = format!("waiting {band}");
    for part in day.split_whitespace() {
        line += &match part {
            "above" => " 20000000".to_string(),
            "below" => " 30000000".to_string(),
            "inside" => " 40000000".to_string(),
            bare if bare.starts_with('x') => bare.replace('x', " "),
            second => format!(" 1{:07x}", second.parse::<u32>().unwrap()),
        };
    }
    line
}

fn clocked(band: &str, days: &[(&str, &str)]) {
    for (day, answer) in days {
        let line = clock_line(band, day);
        assert_eq!(answer_line(&line), *answer, "{band}: {day}");
    }
}

#[test]
fn clock_sides_and_starts() {
    clocked(
        "90 110",
        &[
            // Nothing happens: no words, and seconds alone from the day's first to its last.
            ("", "0 0 0 90 110 0"),
            ("0 86399", "0 0 0 90 110 0"),
            // Before any second a phase counts from 0, and does so when seconds follow.
            ("above", "1 0 0 90 110 0"),
            ("below", "1 0 1 90 110 0"),
            ("above 500", "1 0 0 90 110 0"),
            // From the latest second, not the first.
            ("500 above", "1 500 0 90 110 0"),
            ("500 700 above", "1 700 0 90 110 0"),
            // The second round turns the side and leaves the start.
            ("500 above below", "1 500 1 90 110 0"),
            ("500 above 700 below", "1 500 1 90 110 0"),
            ("500 below 700 above 700 above", "1 500 0 90 110 0"),
            // And the latest side is the one widened: 90 to 81, 110 to 121.
            ("500 above 700 below 1100", "0 0 0 81 110 1"),
            ("500 below 700 above 1100", "0 0 0 90 121 1"),
            ("500 below above below above 1100", "0 0 0 90 121 1"),
            // The wait is not counted from the later round.
            ("500 above 1099 above 1100", "0 0 0 90 121 1"),
        ],
    );
}

#[test]
fn clock_rounds_inside() {
    clocked(
        "90 110",
        &[
            // Alone it does nothing.
            ("inside", "0 0 0 90 110 0"),
            ("inside 700 inside", "0 0 0 90 110 0"),
            // It ends a phase with nothing due, so that no later second ends it again.
            ("500 above inside", "0 0 0 90 110 0"),
            ("500 above inside 1100", "0 0 0 90 110 0"),
            ("500 below 1099 inside 1100", "0 0 0 90 110 0"),
            // The next phase counts anew, from the second read last.
            ("500 above inside above", "1 500 0 90 110 0"),
            ("500 above 600 inside above 1100", "1 600 0 90 110 0"),
            ("500 above 600 inside above 1200", "0 0 0 90 121 1"),
            // The side is new as well.
            ("500 above 600 inside below 1200", "0 0 0 81 110 1"),
            // What is due stays due, what is widened stays wide.
            ("above 600 inside", "0 0 0 90 121 1"),
            ("above 600 below inside", "0 0 0 90 121 1"),
        ],
    );
}

#[test]
fn clock_endings_by_time() {
    clocked(
        "90 110",
        &[
            // The 600th second ends it, or one beyond.
            ("0 above 599", "1 0 0 90 110 0"),
            ("0 above 600", "0 0 0 90 121 1"),
            ("0 above 601", "0 0 0 90 121 1"),
            ("7 above 606", "1 7 0 90 110 0"),
            ("7 above 607", "0 0 0 90 121 1"),
            // Also when the phase is older than the first second.
            ("above 599", "1 0 0 90 110 0"),
            ("above 599 600", "0 0 0 90 121 1"),
            ("above 600", "0 0 0 90 121 1"),
            ("below 40000", "0 0 0 81 110 1"),
            // However late, once; and it stays ended.
            ("0 above 86399", "0 0 0 90 121 1"),
            ("0 above 600 600 1200 86399", "0 0 0 90 121 1"),
            // Rounds do not end it.
            ("0 above 599 below above", "1 0 0 90 110 0"),
            // The day's last second can be the 600th, or the 599th.
            ("85799 above 86399", "0 0 0 90 121 1"),
            ("85800 above 86399", "1 85800 0 90 110 0"),
        ],
    );
}

#[test]
fn clock_further_phases() {
    clocked(
        "90 110",
        &[
            // A new phase in the second that ended the last counts from that second.
            ("0 above 600 below", "1 600 1 90 121 1"),
            ("0 above 600 600 below", "1 600 1 90 121 1"),
            ("0 above 600 below 1199", "1 600 1 90 121 1"),
            ("0 above 600 below 1200", "0 0 0 81 121 2"),
            // Counted from the second that came late, 1000.
            ("0 above 1000 above 1599", "1 1000 0 90 121 1"),
            ("0 above 1000 above 1600", "0 0 0 90 133 2"),
            // 110 to 121, 133 (from 133.1), 146 (from 146.3).
            ("0 above 600 above 1200 above 1800", "0 0 0 90 146 3"),
            // 90 to 81, 73 (from 72.9), 66 (from 65.7).
            ("0 below 600 below 1200 below 1800", "0 0 0 66 110 3"),
            // Of three phases the middle one ends inside.
            ("above 600 below inside below 1200", "0 0 0 81 121 2"),
        ],
    );
    // 85.5 is rounded up.
    clocked("95 110", &[("below 600", "0 0 0 86 110 1")]);
    // 9.9 and 7.2 would be rounded back to where they were, so that each moves by 1: 9 to 10, 8 to 7.
    clocked("8 9", &[("above 600 below 1200", "0 0 0 7 10 2")]);
}

/// Phases one straight after the other, the side of each and the band after it. Each has one more
/// opening due.
fn clocked_by_phase(band: &str, phases: &[(&str, (u32, u32))]) {
    let mut day = String::new();
    for (due, (side, (lower, upper))) in (1..).zip(phases) {
        day += &format!("{side} {} ", 600 * due);
        clocked(band, &[(&day, &format!("0 0 0 {lower} {upper} {due}"))]);
    }
}

/// An H of 2 after one widening, after two, and so on to the last that the grid has room for: up to
/// 9 it has to go up by 1, from 10 to 19 a tenth of it is 1, and after that more.
const UPWARDS: [u32; 133] = [
    3, 4, 5, 6, 7, 8, 9, 10, 11, 12, 13, 14, 15, 16, 17, 18, 19, 20, 22, 24, 26, 28, 30, 33, 36,
    39, 42, 46, 50, 55, 60, 66, 72, 79, 86, 94, 103, 113, 124, 136, 149, 163, 179, 196, 215, 236,
    259, 284, 312, 343, 377, 414, 455, 500, 550, 605, 665, 731, 804, 884, 972, 1_069, 1_175, 1_292,
    1_421, 1_563, 1_719, 1_890, 2_079, 2_286, 2_514, 2_765, 3_041, 3_345, 3_679, 4_046, 4_450,
    4_895, 5_384, 5_922, 6_514, 7_165, 7_881, 8_669, 9_535, 10_488, 11_536, 12_689, 13_957, 15_352,
    16_887, 18_575, 20_432, 22_475, 24_722, 27_194, 29_913, 32_904, 36_194, 39_813, 43_794, 48_173,
    52_990, 58_289, 64_117, 70_528, 77_580, 85_338, 93_871, 103_258, 113_583, 124_941, 137_435,
    151_178, 166_295, 182_924, 201_216, 221_337, 243_470, 267_817, 294_598, 324_057, 356_462,
    392_108, 431_318, 474_449, 521_893, 574_082, 631_490, 694_639, 764_102, 840_512, 924_563,
];

#[test]
fn clock_small_band_upwards() {
    let upwards = [
        6, 7, 8, 9, 10, 11, 12, 13, 14, 15, 16, 17, 18, 19, 20, 22, 24,
    ];
    clocked_by_phase("4 5", &upwards.map(|upper| ("above", (4, upper))));
    clocked_by_phase("1 2", &UPWARDS.map(|upper| ("above", (1, upper))));
    // The next one, the 134th, would be 1,017,019; its second is the word at place 267.
    let day: String = (1..=134).map(|n| format!("above {} ", 600 * n)).collect();
    clocked("1 2", &[(&day, "refused 11 267")]);
    // With that phase below it is not refused: 1 stays 1.
    let day = day.replace("above 80400", "below 80400");
    clocked("1 2", &[(&day, "0 0 0 1 924563 134")]);
}

#[test]
fn clock_small_band_downwards() {
    // 10.8, 9.9 and 9.0 by the tenth, then by 1, and from 1 no further; what is due goes on.
    let downwards = [11, 10, 9, 8, 7, 6, 5, 4, 3, 2, 1, 1, 1, 1];
    clocked_by_phase("12 13", &downwards.map(|lower| ("below", (lower, 13))));
    // 27.0, 24.3, 22.5, 20.7, 18.9, 17.1, 16.2, and so on.
    let downwards = [
        27, 25, 23, 21, 19, 18, 17, 16, 15, 14, 13, 12, 11, 10, 9, 8, 7, 6, 5, 4, 3, 2, 1, 1, 1,
    ];
    clocked_by_phase("30 31", &downwards.map(|lower| ("below", (lower, 31))));
    clocked_by_phase("2 3", &[1, 1, 1].map(|lower| ("below", (lower, 3))));
    clocked(
        "1 2",
        &[
            ("below 600", "0 0 0 1 2 1"),
            ("below 600 below", "1 600 1 1 2 1"),
            ("below 600 below 1200", "0 0 0 1 2 2"),
            ("below 600 above 1200", "0 0 0 1 3 2"),
        ],
    );
}

#[test]
fn clock_small_band_both_ways() {
    let by_turns = [
        ("above", (5, 7)),
        ("below", (4, 7)),
        ("above", (4, 8)),
        ("below", (3, 8)),
        ("above", (3, 9)),
        ("below", (2, 9)),
        ("above", (2, 10)),
        ("below", (1, 10)),
        ("above", (1, 11)),
        ("below", (1, 11)),
        ("below", (1, 11)),
        ("above", (1, 12)),
        ("above", (1, 13)),
        ("below", (1, 13)),
    ];
    clocked_by_phase("5 6", &by_turns);
    // Around 20, where the tenth turns from 1 to 2: 18.0, 23.1, 16.2, 25.3, 15.3.
    let by_turns = [
        ("below", (18, 21)),
        ("above", (18, 23)),
        ("below", (17, 23)),
        ("above", (17, 25)),
        ("below", (16, 25)),
    ];
    clocked_by_phase("20 21", &by_turns);
    clocked(
        "5 6",
        &[
            // Not before its time, and not after a round inside.
            ("above 599", "1 0 0 5 6 0"),
            ("above 599 inside 600", "0 0 0 5 6 0"),
            // The latest side moves, once, however late it is.
            ("above below 600", "0 0 0 4 6 1"),
            ("below above 600", "0 0 0 5 7 1"),
            ("below 86399", "0 0 0 4 6 1"),
            // The bound has moved while the next phase waits.
            ("above 600 below", "1 600 1 5 7 1"),
            ("below 600 below 1199", "1 600 1 4 6 1"),
            // Of a day that is refused nothing is left.
            ("above 600 x50000000", "refused 13 2"),
            ("above 600 599", "refused 14 2"),
        ],
    );
}

#[test]
fn clock_whole_day() {
    // 143 waits fit into the day, up to second 85,800, and 599 seconds are left over.
    let day: String = (1..=143).map(|n| format!("below {} ", 600 * n)).collect();
    // 9 is at 1 after eight of them and stays there.
    clocked("9 110", &[(&day, "0 0 0 1 110 143")]);
    let longer = day + "below 86399";
    clocked("9 110", &[(&longer, "1 85800 1 1 110 143")]);
    // As many rounds as a line has room for.
    let rounds = "above ".repeat(16_383) + "below ";
    clocked("90 110", &[(&rounds, "1 0 1 90 110 0")]);
    clocked("90 110", &[(&(rounds + "below"), "unreadable")]);
    // Lists may be far longer than a line, and than a day has seconds.
    let rounds = [0x2000_0000, 0x3000_0000].repeat(100_000);
    let waiting = crate::waiting::waiting(90, 110, &rounds).unwrap();
    assert_eq!(waiting.line(), "1 0 1 90 110 0");
}

#[test]
fn clock_refuses_the_band() {
    // Before any word is looked at, also a faulty first one.
    let days = [("", "refused 9 0"), ("above x50000000", "refused 9 0")];
    for band in ["90 90", "110 90", "0 110", "90 1000001", "0 0"] {
        clocked(band, &days);
    }
    // 90 and 110 with a bit above the 32nd; the largest number of 64.
    clocked("4294967386 4294967406", &days);
    clocked("90 18446744073709551615", &days);
    clocked("1 1000000", &[("", "0 0 0 1 1000000 0")]);
    clocked("999999 1000000", &[("", "0 0 0 999999 1000000 0")]);
}

#[test]
fn clock_refuses_a_widening() {
    clocked(
        "90 909092",
        &[
            // 1,000,001.2 is off the grid, at the second and not at the round before it.
            ("above 600", "refused 11 1"),
            ("0 above 300 599 inside above 1199", "refused 11 6"),
            // Nothing is widened yet, or ever, or it is the other side.
            ("above 599", "1 0 0 90 909092 0"),
            ("above 599 inside 600", "0 0 0 90 909092 0"),
            ("above below 600", "0 0 0 81 909092 1"),
            ("below 600 above 1200", "refused 11 3"),
            // The first fault counts, wherever the others are.
            ("above 600 x50000000", "refused 11 1"),
            ("above x50000000 600", "refused 13 1"),
            ("above 500 400 1100", "refused 14 2"),
            // No second of the day: the widening is not tried.
            ("above 86400", "refused 13 1"),
        ],
    );
    // 1,000,000.1 is rounded down onto the grid, and the next widening leaves it.
    clocked(
        "90 909091",
        &[
            ("above 600", "0 0 0 90 1000000 1"),
            ("above 600 above 1200", "refused 11 3"),
            ("above 600 below 1200", "0 0 0 81 1000000 2"),
        ],
    );
    // A lower bound that cannot move is no fault; an upper one is.
    clocked(
        "1 1000000",
        &[
            ("below 600", "0 0 0 1 1000000 1"),
            ("below 600 below 1200", "0 0 0 1 1000000 2"),
            ("below 600 above 1200", "refused 11 3"),
        ],
    );
}

#[test]
fn clock_refuses_words() {
    for kind in [0, 5, 6, 7, 8, 9, 10, 11, 12, 13, 14, 15] {
        clocked("90 110", &[(&format!("x{kind:x}0000000"), "refused 13 0")]);
    }
    clocked(
        "90 110",
        &[
            // One second past the day's last, and the largest value.
            ("86400", "refused 13 0"),
            ("x1fffffff", "refused 13 0"),
            // Rounds with a value.
            ("x20000001", "refused 13 0"),
            ("0 x30000001", "refused 13 1"),
            ("0 above x40000001", "refused 13 2"),
            ("0 above 600 x28000000", "refused 13 3"),
            // Short words are filled up with zeros, so that these are of kind 0.
            ("0 x0", "refused 13 1"),
            ("0 x258", "refused 13 1"),
            // Of two faults the earlier one.
            ("100 x50000000 99", "refused 13 1"),
            ("100 99 x50000000", "refused 14 1"),
        ],
    );
}

#[test]
fn clock_refuses_to_run_back() {
    clocked(
        "90 110",
        &[
            ("100 99", "refused 14 1"),
            ("100 100", "0 0 0 90 110 0"),
            ("86399 0", "refused 14 1"),
            // Below the second before it, though not below the phase's start.
            ("100 above 300 200", "refused 14 3"),
            // The second before it lies before the phase, or in one that is over.
            ("100 above 99", "refused 14 2"),
            ("100 above inside 99", "refused 14 3"),
            ("100 above 700 699", "refused 14 3"),
            ("100 above 700 below inside above 699", "refused 14 6"),
            // A phase from before any second does not bind the first one.
            ("above 0", "1 0 0 90 110 0"),
        ],
    );
}

#[test]
fn clock_lines() {
    let ended = "waiting 90 110 10000000 20000000 10000258";
    assert_eq!(answer_line(ended), "0 0 0 90 121 1");
    let lines = [
        "waiting",
        "waiting 90",
        "waiting 90 110 ",
        "waiting 90  110",
        "waiting 5a 110",
        "waiting -90 110",
        "waiting 90 18446744073709551616",
        "waiting 90 110 2000000g",
        "waiting 90 110 020000000",
    ];
    for line in lines {
        assert_eq!(answer_line(line), "unreadable", "{line}");
    }
}

#[test]
fn random_days_reach_all() {
    let mut random = Random::new(7);
    let mut missing = vec![
        "0 ",
        "1 ",
        "refused 9 0",
        "refused 11",
        "refused 13",
        "refused 14",
    ];
    for _ in 0..3_000 {
        let line = line(&mut random, Kind::Waiting);
        let answer = answer_line(&line);
        assert_ne!(answer, "unreadable");
        missing.retain(|start| !answer.starts_with(start));
    }
    assert!(missing.is_empty(), "{missing:?}");
}

#[test]
fn random_days_of_small_bands() {
    let mut random = Random::new(7);
    let (mut small, mut raised, mut at_one, mut run_out) = (0, 0, 0, 0);
    for _ in 0..3_000 {
        let asked = crate::arguments::waiting(&mut random);
        let (lower, upper) = asked.band;
        if lower == 0 || lower >= upper || upper > 12 {
            continue;
        }
        small += 1;
        match crate::waiting::waiting(lower, upper, &asked.words) {
            Ok(waiting) => {
                let (lower, upper) = waiting.band;
                // From 12 it takes 20 widenings to come beyond 50.
                raised += u32::from(upper > Price(50));
                at_one += u32::from(lower == Price(1) && waiting.openings_due >= 20);
            }
            Err(refusal) => run_out += u32::from(refusal.number == 11),
        }
    }
    assert!(small >= 300, "{small}");
    assert!(raised >= 30 && at_one >= 30, "{raised} {at_one}");
    assert!(run_out >= 5, "{run_out}");
}
