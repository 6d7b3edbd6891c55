//! A case of the comparison: a sheet, as it was drawn or damaged, and arguments for every call. Each is drawn from a seed and
//! its own number alone, so that it can be had again without the others.

use reference::answer::{space_of_opening, space_of_round};
use reference::arguments::{
    charged, charged_chain, indicative, next, order_for, price_for, quick_sheet, space_for,
    waiting, widening, Charged, Indicative, Waited,
};
use reference::damage::damage;
use reference::random::Random;
use reference::results::{stored_case, StoredCase};
use reference::sheet::Sheet;

/// What the calls of one case are asked. Numbers are of 64 bits, as the reference implementation takes them.
pub struct Case {
    pub words: Vec<u32>,
    pub order: u64,
    pub price: u64,
    pub round_space: u64,
    pub opening_space: u64,
    pub indicative: Indicative,
    pub next: (u64, u64),
    pub widening: ((u64, u64), u64),
    pub waiting: Waited,
    /// The fees on the case's own sheet.
    pub charged: Charged,
    /// At times the fees on a second sheet, a chain that charges one order in nearly every round.
    pub chain: Option<(Vec<u32>, Charged)>,
    /// At times a stored result, beside a sheet of its own.
    pub stored: Option<StoredCase>,
}

/// In sixteen cases, so many have a damaged sheet, so many arguments that are most likely refused, so many a tariff that is not
/// allowed, and so many too little space for the opening with its fees.
const DAMAGED: u64 = 1;
const BAD_ARGUMENTS: u64 = 1;
const BAD_TARIFFS: u64 = 1;
const BAD_SPACES: u64 = 1;

/// One case in so many has a chain besides.
const CHAINS: u64 = 32;

/// One case in so many has a stored result.
const STORED: u64 = 4;

impl Case {
    pub fn drawn(seed: u64, number: u64) -> Case {
        let mixed = Random::new(seed.wrapping_add(number)).next();
        let random = &mut Random::new(mixed ^ seed.rotate_left(32));
        let sheet = quick_sheet(random);
        let n = sheet.orders.len();
        let mut words = sheet.words();
        if random.below(16) < DAMAGED {
            damage(random, &mut words);
        }
        let bad = random.below(16) < BAD_ARGUMENTS;
        Case {
            words,
            order: order_for(random, &sheet, bad),
            price: price_for(random, &sheet, bad),
            round_space: space_for(random, space_of_round(n), bad),
            opening_space: space_for(random, space_of_opening(n), bad),
            indicative: indicative(random),
            next: next(random),
            widening: widening(random),
            waiting: waiting(random),
            charged: charged_for(random, &sheet),
            chain: random_chain(random),
            stored: random.one_in(STORED).then(|| stored_case(random)),
        }
    }
}

/// What the fees of a sheet are asked. It is drawn behind all that other calls are asked.
fn charged_for(random: &mut Random, sheet: &Sheet) -> Charged {
    let bad_tariff = random.below(16) < BAD_TARIFFS;
    let bad_spaces = random.below(16) < BAD_SPACES;
    charged(random, sheet, bad_tariff, bad_spaces)
}

fn random_chain(random: &mut Random) -> Option<(Vec<u32>, Charged)> {
    random.one_in(CHAINS).then(|| {
        let sheet = charged_chain(random);
        (sheet.words(), charged_for(random, &sheet))
    })
}

/// A number for a parameter of 32 bits: one that it cannot hold becomes the largest, which is no price, code, side or figure
/// of a tariff either.
pub fn narrow(number: u64) -> u32 {
    u32::try_from(number).unwrap_or(u32::MAX)
}
