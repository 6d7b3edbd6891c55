//! Faults put into a sheet's words, for every refusal from 1 to 8 and for 15 and 17.

use crate::random::Random;
use crate::sheet::{
    value, word, Layout, HEADING_WORDS, LAST_PRICE, MOST_ORDERS, MOST_PIECES, MOST_STEP, STEP_PLACE,
};

/// Numbers just off the grid or far from it.
const OFF_GRID: [u32; 4] = [0, LAST_PRICE + 1, LAST_PRICE + 2, 0x0fff_ffff];

/// Numbers that no quotation step may be; most of the large ones would do if cut down to fewer bits.
const NO_STEP: [u32; 10] = [
    0,
    0,
    0,
    MOST_STEP + 1,
    MOST_STEP + 1,
    MOST_STEP + 2,
    (1 << 10) + 1,
    (1 << 16) + 1,
    (1 << 27) + 1,
    0x0fff_ffff,
];

/// An order in good form.
const GOOD_ORDER: [u32; 3] = [0x6000_0001, 0x8000_0001, 0x9000_0000];

/// One fault, or several at once.
pub fn damage(random: &mut Random, words: &mut Vec<u32>) {
    let faults = random.pick(&[1, 1, 1, 2, 3]);
    for _ in 0..faults {
        match random.below(10) {
            0 => damage_length(random, words),
            1 => damage_bit(random, words),
            2 | 3 => damage_heading(random, words),
            4 | 5 => damage_step(random, words),
            _ => damage_order(random, words),
        }
    }
}

/// The layout that the words have by their count and length; a plain one if these do not go together.
fn layout_of(words: &[u32]) -> Layout {
    let orders = words.get(4).map_or(0, |word| value(*word) as usize);
    Layout::of_length(words.len(), orders).unwrap_or(Layout::Plain)
}

fn set_value(word: &mut u32, value: u32) {
    *word = *word & 0xf000_0000 | value & 0x0fff_ffff;
}

/// Another kind for one of the words.
fn set_kind(random: &mut Random, words: &mut [u32]) {
    let place = random.below(words.len() as u64) as usize;
    let kind = ((words[place] >> 28) + random.between(1, 15) as u32) % 16;
    words[place] = kind << 28 | words[place] & 0x0fff_ffff;
}

fn damage_bit(random: &mut Random, words: &mut [u32]) {
    if words.is_empty() {
        return;
    }
    let place = random.below(words.len() as u64) as usize;
    words[place] ^= 1 << random.below(32);
}

fn damage_length(random: &mut Random, words: &mut Vec<u32>) {
    let length = words.len();
    let order = layout_of(words).order_words();
    match random.below(7) {
        0 => words.truncate(random.below(7) as usize),
        1 => words.truncate(length.max(1) - 1),
        2 => words.truncate(length.max(order) - order),
        // On a plain sheet this makes the sixth word one to be judged as the step.
        3 => words.push(random.next() as u32),
        4 => words.extend(GOOD_ORDER),
        _ => lengthen(random, words),
    }
}

/// Orders up to one more than allowed or a few, all in good form, with the count to match; at times
/// with the length of the other layout, and at times with a step word that is wrong as well.
fn lengthen(random: &mut Random, words: &mut Vec<u32>) {
    if words.len() < HEADING_WORDS {
        return;
    }
    let layout = layout_of(words);
    let orders = MOST_ORDERS + random.pick(&[1, 1, 1, 2, 8]);
    let most = layout.length(orders);
    while words.len() < most {
        words.extend(GOOD_ORDER);
    }
    words.truncate(most);
    set_value(&mut words[4], orders as u32);
    match (layout, random.below(4)) {
        (Layout::Stepped, 0 | 1) => spoil_step(random, words),
        (Layout::Stepped, 2) => words.truncate(most - 1),
        (Layout::Plain, 0) => words.push(word(0, 1)),
        (Layout::Plain, 1) => words.insert(STEP_PLACE, word(0, 1)),
        _ => {}
    }
}

/// A step word that is wrong, missing, or one too many.
fn damage_step(random: &mut Random, words: &mut Vec<u32>) {
    if words.len() < HEADING_WORDS {
        return;
    }
    match (layout_of(words), random.below(8)) {
        (Layout::Plain, _) => add_word(random, words),
        // Without it the sheet is a plain one.
        (Layout::Stepped, 0) => {
            words.remove(STEP_PLACE);
        }
        // By its length the sheet is a plain one, with the step word where the first order begins.
        (Layout::Stepped, 1) => {
            words.pop();
        }
        (Layout::Stepped, _) => spoil_step(random, words),
    }
}

/// A wrong value or a wrong kind, or both.
fn spoil_step(random: &mut Random, words: &mut [u32]) {
    let lot = random.below(8);
    if lot <= 4 {
        set_value(&mut words[STEP_PLACE], random.pick(&NO_STEP));
    }
    if lot >= 4 {
        set_kind(random, &mut words[STEP_PLACE..STEP_PLACE + 1]);
    }
}

/// One word more on a sheet without a step word, where this would stand or behind the orders: such
/// as it should be or with a fault.
fn add_word(random: &mut Random, words: &mut Vec<u32>) {
    let right = random.between(1, u64::from(MOST_STEP)) as u32;
    let kind = random.between(1, 15) as u32;
    let wrong = word(0, random.pick(&NO_STEP));
    let added = random.pick(&[right, wrong, wrong, word(kind, right)]);
    let place = random.pick(&[STEP_PLACE, STEP_PLACE, words.len()]);
    words.insert(place, added);
}

fn damage_heading(random: &mut Random, words: &mut [u32]) {
    if words.len() < HEADING_WORDS {
        return;
    }
    let place = random.below(4) as usize;
    match random.below(6) {
        0 => set_kind(random, &mut words[..HEADING_WORDS]),
        1 => set_value(&mut words[place], random.pick(&OFF_GRID)),
        2 => {
            // One of D and H taken for I, or I for one of them: equal, not below.
            let (from, to) = random.pick(&[(0, 3), (1, 3), (3, 0), (3, 1)]);
            let value = words[from];
            set_value(&mut words[to], value);
        }
        3 => {
            let (lower, upper) = (words[0], words[1]);
            set_value(&mut words[0], upper);
            set_value(&mut words[1], lower);
        }
        4 => {
            let count = words[4];
            set_value(&mut words[4], random.pick(&[count + 1, count.max(1) - 1]));
        }
        _ => set_value(&mut words[4], random.pick(&[121, 122, 0x0fff_ffff])),
    }
}

fn damage_order(random: &mut Random, words: &mut [u32]) {
    let layout = layout_of(words);
    let (begin, size) = (layout.orders_begin(), layout.order_words());
    if words.len() < begin + size {
        return;
    }
    let orders = (words.len() - begin) / size;
    let first = begin + size * random.below(orders as u64) as usize;
    let three = &mut words[first..first + size];
    let disposition = three[0] & 0x0f00_0000;
    let limit = three[0] & 0x00ff_ffff;
    match random.below(8) {
        0 | 1 => set_kind(random, three),
        2 => set_value(&mut three[0], (random.between(3, 15) as u32) << 24 | limit),
        3 => {
            let limit = random.pick(&[LAST_PRICE + 1, LAST_PRICE + 2, 0x00ff_ffff]);
            set_value(&mut three[0], disposition | limit);
        }
        // No limit on a Stepper.
        4 => set_value(&mut three[0], 2 << 24),
        5 => set_value(
            &mut three[1],
            random.pick(&[0, MOST_PIECES + 1, 0x0fff_ffff]),
        ),
        6 => set_value(&mut three[2], random.pick(&[MOST_PIECES + 1, 0x0fff_ffff])),
        // An ignored quantity that only a Stepper may have.
        _ => set_value(&mut three[2], random.pick(&[1, MOST_PIECES])),
    }
}
