//! A space as a call is lent it, between entries that it is not lent. Every entry holds a mark before the call, so that each one
//! that was written is seen.

use crate::boxashewu::raw;

/// Entries before and behind the space that nobody may touch.
const BESIDE: usize = 16;

/// What a space is made of: words, or the wider numbers of a list of fees.
pub trait Entry: Copy + PartialEq {
    /// As much of a mark as the entry holds, so that every part of an entry has some of it.
    fn marked(mark: u64) -> Self;
}

impl Entry for u32 {
    fn marked(mark: u64) -> u32 {
        mark as u32
    }
}

impl Entry for u64 {
    fn marked(mark: u64) -> u64 {
        mark
    }
}

pub struct Lent<T> {
    entries: Vec<T>,
    room: usize,
    salt: u64,
}

impl<T: Entry> Lent<T> {
    /// Room for the largest space; it is used again from call to call.
    pub fn new(most: usize) -> Lent<T> {
        let entries = vec![T::marked(0); most + 2 * BESIDE];
        Lent {
            entries,
            room: 0,
            salt: 0,
        }
    }

    fn mark(&self, place: usize) -> T {
        T::marked((place as u64).wrapping_mul(0x9e37_79b9_7f4a_7c15) ^ self.salt)
    }

    /// Runs a call that writes, on a space of so many marked entries.
    pub fn lend(
        &mut self,
        room: usize,
        salt: u64,
        call: impl FnOnce(*mut T, usize) -> raw::SpaceReply,
    ) -> raw::SpaceReply {
        (self.room, self.salt) = (room, salt);
        for place in 0..room + 2 * BESIDE {
            self.entries[place] = self.mark(place);
        }
        call(self.entries[BESIDE..].as_mut_ptr(), room)
    }

    /// The first entry, counted from the start of the space, that does not hold what it should: the result, and everywhere else
    /// the mark. Entries before the space have negative places.
    pub fn wrong(&self, result: &[T]) -> Option<(isize, T, T)> {
        let end = BESIDE + result.len();
        let holds = |place: usize| match place {
            _ if (BESIDE..end).contains(&place) => result[place - BESIDE],
            _ => self.mark(place),
        };
        let place =
            (0..self.room + 2 * BESIDE).find(|place| self.entries[*place] != holds(*place))?;
        Some((
            place as isize - BESIDE as isize,
            self.entries[place],
            holds(place),
        ))
    }
}

/// The spaces that calls are lent: one for the words of a result, one for its fees.
pub struct Spaces {
    pub words: Lent<u32>,
    pub fees: Lent<u64>,
}

impl Spaces {
    pub fn new(most_words: usize, most_fees: usize) -> Spaces {
        Spaces {
            words: Lent::new(most_words),
            fees: Lent::new(most_fees),
        }
    }
}
