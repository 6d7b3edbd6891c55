//! The waiting clock: a day's seconds and rounds, followed one word after the other.

use crate::band::{band, widening};
use crate::refusal::{Refusal, CLOCK_BACK, CLOCK_WORD};
use crate::sheet::{kind, value, Grid, Price};

/// The day's last second; its first is 0.
pub const LAST_SECOND: u32 = 86_399;
/// The seconds that a phase waits before the band gives way.
pub const WAIT: u32 = 600;

/// The kinds of words: a second of the day, and rounds by where their price lies.
pub const SECOND: u32 = 1;
pub const ABOVE: u32 = 2;
pub const BELOW: u32 = 3;
pub const INSIDE: u32 = 4;

/// A phase under way: the second it counts from, and the side of its latest round, numbered as
/// `widening` takes it.
#[derive(Clone, Copy, Debug, PartialEq, Eq)]
pub struct Phase {
    pub start: u32,
    pub side: u64,
}

/// What a list has led to.
#[derive(Clone, Copy, Debug, PartialEq, Eq)]
pub struct Waiting {
    pub phase: Option<Phase>,
    /// D and H, as widened so far.
    pub band: (Price, Price),
    pub openings_due: u32,
}

/// What a word says.
enum Event {
    Second(u32),
    Outside { side: u64 },
    Inside,
}

/// The event of a word, or the refusal's number alone.
fn read(word: u32) -> Result<Event, u32> {
    match (kind(word), value(word)) {
        (SECOND, second @ 0..=LAST_SECOND) => Ok(Event::Second(second)),
        (ABOVE, 0) => Ok(Event::Outside { side: 0 }),
        (BELOW, 0) => Ok(Event::Outside { side: 1 }),
        (INSIDE, 0) => Ok(Event::Inside),
        _ => Err(CLOCK_WORD),
    }
}

/// Works off the whole list, from the starting band and no phase. The first fault is the
/// refusal, and nothing of what came before it is handed back.
pub fn waiting(lower: u64, upper: u64, words: &[u32]) -> Result<Waiting, Refusal> {
    let mut waiting = Waiting {
        phase: None,
        band: band(Grid::DOCUMENT, lower, upper)?,
        openings_due: 0,
    };
    // Until a second is read, phases count from 0; no second is lower, so the first always fits.
    let mut latest = 0;
    for (place, word) in words.iter().enumerate() {
        let refuse = |number| Refusal { number, place };
        match read(*word).map_err(refuse)? {
            Event::Second(second) => {
                if second < latest {
                    return Err(refuse(CLOCK_BACK));
                }
                latest = second;
                let passed = waiting.pass(second);
                passed.map_err(|refusal| refuse(refusal.number))?;
            }
            Event::Outside { side } => {
                let start = waiting.phase.map_or(latest, |phase| phase.start);
                waiting.phase = Some(Phase { start, side });
            }
            Event::Inside => waiting.phase = None,
        }
    }
    Ok(waiting)
}

impl Waiting {
    /// A second is reached. If a phase has waited long enough by then, it is over, its band
    /// widened and one more opening due; the widening's refusal is passed on.
    fn pass(&mut self, second: u32) -> Result<(), Refusal> {
        let Some(phase) = self.phase else {
            return Ok(());
        };
        if second >= phase.start + WAIT {
            let (lower, upper) = self.band;
            self.band = widening(lower.0.into(), upper.0.into(), phase.side)?;
            self.phase = None;
            self.openings_due += 1;
        }
        Ok(())
    }

    /// The answer as it is printed, six numbers: without a phase the first three are 0.
    pub fn line(&self) -> String {
        let phase = match self.phase {
            Some(Phase { start, side }) => format!("1 {start} {side}"),
            None => "0 0 0".to_string(),
        };
        let (lower, upper) = self.band;
        format!("{phase} {} {} {}", lower.0, upper.0, self.openings_due)
    }
}
