//! A stored result beside its sheet (02 (5)). It is held against what the opening of that sheet
//! writes; if nothing differs it is open, and can be asked for its rounds.

use crate::answer::Round;
use crate::fast;
use crate::fast::stored::View;
use crate::refusal::Refusal;
use crate::sheet::Grid;

/// What is answered about a stored result, where `T` is what was asked for.
#[derive(Clone, Debug, PartialEq, Eq)]
pub enum Answer<T> {
    /// The sheet has a fault; or it has none, the result opens, and there is no round of that
    /// number.
    Refused(Refusal),
    /// The place of the first word that is not as written, from 0. Where one of the lists goes on
    /// after the other has ended, this is where the shorter one ends. It is no refusal.
    Different(usize),
    Open(T),
}

/// Whether a result opens beside a sheet, and the view of it if so.
pub fn opens<'a>(sheet: &[u32], stored: &'a [u32]) -> Answer<View<'a>> {
    fast::stored::opens(sheet, Grid::DOCUMENT, stored)
}

/// A round of a result that is to be opened beside a sheet.
pub fn round(sheet: &[u32], stored: &[u32], round: u64) -> Answer<Round> {
    fast::stored::round(sheet, Grid::DOCUMENT, stored, round)
}
