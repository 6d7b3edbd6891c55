//! A stored result held against an opening that was worked out anew. Once it is known to be the
//! same, the stored words are not looked at again.

use crate::answer::{Opening, Round};
use crate::refusal::ARGUMENT;
use crate::stored::Answer;

/// Every place that both lists have is tried; if all are the same, the lengths must be so too.
fn first_difference(stored: &[u32], written: &[u32]) -> Option<usize> {
    let shorter = stored.len().min(written.len());
    for place in 0..shorter {
        if stored[place] != written[place] {
            return Some(place);
        }
    }
    if stored.len() != written.len() {
        return Some(shorter);
    }
    None
}

/// Whether the result opens beside the sheet whose opening this is.
pub fn opens<'a>(opening: &'a Opening, stored: &[u32]) -> Answer<&'a Opening> {
    match first_difference(stored, &opening.words()) {
        Some(place) => Answer::Different(place),
        None => Answer::Open(opening),
    }
}

/// The round of that number, by counting through all rounds.
pub fn round(opening: &Opening, stored: &[u32], round: u64) -> Answer<Round> {
    if let Some(place) = first_difference(stored, &opening.words()) {
        return Answer::Different(place);
    }
    for (number, found) in (0_u64..).zip(&opening.rounds) {
        if number == round {
            return Answer::Open(found.clone());
        }
    }
    Answer::Refused(ARGUMENT)
}
