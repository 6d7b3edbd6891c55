//! Sheets to measure with: stored ones, and random books of a kind and a size.

use reference::chains::chain_sheet;
use reference::random::Random;
use reference::shapes::{price, random_order, Mix, Sizes};
use reference::sheet::{Grid, Sheet};

/// The kinds of books. A chain is all-or-none pairs, one of which trades in each round, with a Stepper: an odd number of orders,
/// so one fewer than asked for.
pub const KINDS: [&str; 5] = ["basic", "all-or-none", "steppers", "mixed", "chain"];

pub const SIZES: [u64; 4] = [10, 30, 60, 120];

/// Books of each kind and size.
const BOOKS: u64 = 20;

const MORNING: &[u8] = include_bytes!("../sheets/morning.stream");
const SLOW: &[u8] = include_bytes!("../sheets/slow.stream");

/// Sheets one after the other: each is its words, highest byte first, behind the number of its bytes, likewise.
fn stored(stream: &[u8]) -> Vec<Vec<u32>> {
    let word = |bytes: &[u8]| u32::from_be_bytes([bytes[0], bytes[1], bytes[2], bytes[3]]);
    let mut sheets = Vec::new();
    let mut rest = stream;
    while !rest.is_empty() {
        let (bytes, behind) = rest[4..].split_at(word(rest) as usize);
        sheets.push(bytes.chunks(4).map(word).collect());
        rest = behind;
    }
    sheets
}

/// In eighths: all-or-none, Steppers, without limit.
fn shares(kind: &str) -> [u64; 3] {
    match kind {
        "basic" => [0, 0, 1],
        "all-or-none" => [8, 0, 1],
        "steppers" => [0, 8, 0],
        _ => [2, 2, 1],
    }
}

/// Orders of up to 1,000 pieces on 21 prices around the last purchase price.
fn random_book(random: &mut Random, kind: &str, orders: u64) -> Sheet {
    let (low, middle, high) = (990, 1000, 1010);
    let [all_or_none_share, stepper_share, without_limit_share] = shares(kind);
    let mix = Mix {
        buys: (low, high),
        sells: (low, high),
        buy_share: 4,
        all_or_none_share,
        stepper_share,
        without_limit_share,
        least: 1,
        pieces: 1000,
        ignored: 3000,
    };
    Sheet {
        lower: price(low),
        upper: price(high),
        last_purchase: price(middle),
        indicative: price(middle),
        step: None,
        orders: (0..orders).map(|_| random_order(random, &mix)).collect(),
    }
}

fn book(random: &mut Random, kind: &str, orders: u64) -> Sheet {
    let sizes = Sizes {
        grid: Grid::DOCUMENT,
        orders,
        pieces: 1000,
    };
    match kind {
        "chain" => chain_sheet(random, sizes),
        _ => random_book(random, kind, orders),
    }
}

/// The sheets of a name: `morning`, `slow`, or a kind and a size as `mixed-60`.
pub fn named(name: &str) -> Option<Vec<Vec<u32>>> {
    match name {
        "morning" => return Some(stored(MORNING)),
        "slow" => return Some(stored(SLOW)),
        _ => {}
    }
    let (kind, size) = name.rsplit_once('-')?;
    let orders = size.parse().ok()?;
    let known = KINDS.contains(&kind) && SIZES.contains(&orders);
    let mut random = Random::new(orders);
    known.then(|| {
        let books = (0..BOOKS).map(|_| book(&mut random, kind, orders).words());
        books.collect()
    })
}

/// All names.
pub fn names() -> Vec<String> {
    let mut names = vec!["morning".to_string(), "slow".to_string()];
    for kind in KINDS {
        names.extend(SIZES.iter().map(|size| format!("{kind}-{size}")));
    }
    names
}
