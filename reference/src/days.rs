//! Random days for the waiting clock, and faults put into them.

use crate::random::Random;
use crate::sheet::{kind, value, word};
use crate::waiting::{ABOVE, BELOW, INSIDE, LAST_SECOND, SECOND, WAIT};

/// The most words that a day is drawn with; faults may add a few.
const MOST_WORDS: usize = 400;

/// Rounds below among those outside on a busy day, in eighths. Few upper bounds can be widened so
/// often, so that most of the rounds are below.
const MOSTLY_BELOW: [u64; 6] = [8, 8, 8, 7, 4, 0];
/// For a small band it is the other way round: D is soon at 1, and H has far to go.
const MOSTLY_ABOVE: [u64; 6] = [0, 0, 0, 1, 4, 6];

/// A list as it grows, and what the draw of its next word goes by.
#[derive(Default)]
struct Day {
    words: Vec<u32>,
    /// The latest second, if one was read.
    second: Option<u32>,
    /// Where the phase under way began.
    start: Option<u32>,
}

impl Day {
    fn latest(&self) -> u32 {
        self.second.unwrap_or(0)
    }

    /// Reads the clock, never backwards and never beyond the day.
    fn read(&mut self, second: u32) {
        let second = second.clamp(self.latest(), LAST_SECOND);
        self.words.push(word(SECOND, second));
        self.second = Some(second);
        if self.start.is_some_and(|start| second >= start + WAIT) {
            self.start = None;
        }
    }

    fn outside(&mut self, below: bool) {
        self.words.push(word(if below { BELOW } else { ABOVE }, 0));
        self.start = self.start.or(Some(self.latest()));
    }

    fn inside(&mut self) {
        self.words.push(word(INSIDE, 0));
        self.start = None;
    }
}

/// How the words of a day are drawn.
struct Habits {
    /// In eighths: seconds among all words; rounds inside among the rounds; rounds below among
    /// those outside.
    second_share: u64,
    inside_share: u64,
    below_share: u64,
    /// The longest ordinary step from one second to the next.
    step: u64,
}

fn random_habits(random: &mut Random) -> Habits {
    Habits {
        second_share: random.pick(&[0, 1, 2, 3, 3, 4, 4, 4, 4, 4, 5, 5, 5, 6, 7, 8]),
        inside_share: random.pick(&[0, 0, 1, 1, 2, 4]),
        below_share: random.pick(&[0, 2, 4, 4, 6, 8]),
        step: random.pick(&[5, 60, 300, 700, 700, 2_000, 20_000]),
    }
}

/// A list without fault: most often of some sixty words at most, now and then none or hundreds.
pub fn random_day(random: &mut Random) -> Vec<u32> {
    let most = MOST_WORDS as u64;
    let length = match random.below(20) {
        0 => random.between(0, 2),
        1 => random.between(61, most),
        _ => random.between(3, 60),
    };
    match random.below(14) {
        0 => busy_day(random, &MOSTLY_BELOW),
        _ => mixed_day(random, length as usize),
    }
}

fn mixed_day(random: &mut Random, length: usize) -> Vec<u32> {
    let habits = random_habits(random);
    let mut day = Day::default();
    while day.words.len() < length {
        draw_word(random, &mut day, &habits);
    }
    day.words
}

fn draw_word(random: &mut Random, day: &mut Day, habits: &Habits) {
    if random.below(8) < habits.second_share {
        let second = next_second(random, day, habits);
        day.read(second);
    } else if random.below(8) < habits.inside_share {
        day.inside();
    } else {
        day.outside(random.below(8) < habits.below_share);
    }
}

/// An ordinary step further, or none, or to where a phase's wait is about over.
fn next_second(random: &mut Random, day: &Day, habits: &Habits) -> u32 {
    let lot = random.below(64);
    let step = random.between(1, habits.step) as u32;
    match (lot, day.second, day.start) {
        (0, _, _) => LAST_SECOND,
        (1..=6, Some(latest), _) => latest,
        (7..=26, _, Some(start)) => start + random.pick(&[WAIT - 1, WAIT, WAIT, WAIT + 1]),
        (_, Some(latest), _) => latest + step,
        (_, None, _) => first_second(random),
    }
}

/// Midnight, any time, the morning, or so late that a phase just has or has not its time left.
fn first_second(random: &mut Random) -> u32 {
    let last_start = u64::from(LAST_SECOND - WAIT);
    let second = match random.below(8) {
        0 => 0,
        1 | 2 => random.between(1, 2 * u64::from(WAIT)),
        3 => random.between(0, LAST_SECOND.into()),
        4 => random.between(last_start - 2, last_start + 2),
        _ => random.between(28_800, 36_000),
    };
    second as u32
}

/// A day for a small band, which is widened tens of times, at times until H runs out of the grid.
pub fn day_of_small_band(random: &mut Random) -> Vec<u32> {
    busy_day(random, &MOSTLY_ABOVE)
}

/// A day of phases that wait their time out, at times as many as fit in.
fn busy_day(random: &mut Random, below_shares: &[u64]) -> Vec<u32> {
    let most = LAST_SECOND / WAIT;
    let any = random.between(2, most.into()) as u32;
    let phases = random.pick(&[most, most, most - 1, any, any, any]);
    let mut habits = random_habits(random);
    habits.below_share = random.pick(below_shares);
    let mut day = Day::default();
    // The seconds that pass beside the phases' own waits.
    let mut spare = LAST_SECOND - WAIT * phases;
    for left in (0..phases).rev() {
        // Each phase still to come takes two words at least; eight are for this one and the end.
        let room = MOST_WORDS - 2 * left as usize - 8;
        let idle = spend(random, &mut spare);
        if idle > 0 && day.words.len() < room {
            day.read(day.latest() + idle);
        }
        let late = spend(random, &mut spare);
        phase_to_its_end(random, &mut day, &habits, (room, late));
    }
    for _ in 0..random.below(5) {
        draw_word(random, &mut day, &habits);
    }
    day.words
}

/// Takes some of the spare seconds, most often none.
fn spend(random: &mut Random, spare: &mut u32) -> u32 {
    if !random.one_in(4) {
        return 0;
    }
    let spent = random.below(u64::from(*spare).min(1_000) + 1) as u32;
    *spare -= spent;
    spent
}

/// A phase with some further words in it while the list has room for them, and the second
/// that ends it, as late as given.
fn phase_to_its_end(
    random: &mut Random,
    day: &mut Day,
    habits: &Habits,
    (room, late): (usize, u32),
) {
    let start = day.latest();
    day.outside(random.below(8) < habits.below_share);
    while day.words.len() < room && random.one_in(3) {
        match random.one_in(2) {
            true => day.outside(random.below(8) < habits.below_share),
            false => day.read(start + random.below(WAIT.into()) as u32),
        }
    }
    day.read(start + WAIT + late);
    if day.words.len() < room && random.one_in(8) {
        day.inside();
    }
}

/// One fault, or several at once.
pub fn damage_day(random: &mut Random, words: &mut Vec<u32>) {
    let faults = random.pick(&[1, 1, 1, 2, 3]);
    for _ in 0..faults {
        let length = words.len();
        let place = match random.below(8) {
            0 => 0,
            1 => length,
            _ => random.below(length as u64 + 1) as usize,
        };
        let beside = words.get(place).copied();
        let faulty = match random.below(11) {
            0 | 1 => wrong_kind(random, beside),
            2 | 3 => beyond_the_day(random),
            4 | 5 => round_with_value(random),
            6 if beside.is_some() => words[place] ^ 1 << random.below(32),
            _ => earlier_second(random, words, place),
        };
        match beside {
            Some(_) if random.one_in(2) => words[place] = faulty,
            _ => words.insert(place, faulty),
        }
    }
}

/// None of the four kinds, with a value that would be right for one of them.
fn wrong_kind(random: &mut Random, beside: Option<u32>) -> u32 {
    let kind = random.pick(&[0, 0, 5, 5, 6, 7, 8, 9, 10, 11, 12, 13, 14, 15]);
    word(kind, random.pick(&[0, beside.map_or(WAIT, value)]))
}

fn beyond_the_day(random: &mut Random) -> u32 {
    let (first, last) = (LAST_SECOND + 1, (1 << 28) - 1);
    let any = random.between(first.into(), last.into()) as u32;
    word(SECOND, random.pick(&[first, first, first + 1, any, last]))
}

fn round_with_value(random: &mut Random) -> u32 {
    let kind = random.pick(&[ABOVE, BELOW, INSIDE]);
    let any = random.between(1, LAST_SECOND.into()) as u32;
    word(kind, random.pick(&[1, 1, WAIT, any, 1 << 27]))
}

/// A second below the latest one before the place, from whatever phase that is; 0 if there is
/// none to go below.
fn earlier_second(random: &mut Random, words: &[u32], place: usize) -> u32 {
    let mut before = words[..place].iter().rev();
    let latest = before.find(|word| kind(**word) == SECOND);
    let latest = latest.map_or(0, |word| value(*word));
    let any = random.below(u64::from(latest).max(1)) as u32;
    let one_less = latest.max(1) - 1;
    word(SECOND, random.pick(&[one_less, one_less, any, 0]))
}
