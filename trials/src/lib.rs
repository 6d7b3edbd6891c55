//! The static library beside the reference implementation.

#[path = "../../include/boxashewu.rs"]
pub mod boxashewu;

pub mod books;
pub mod case;
pub mod compare;
pub mod expected;
pub mod lent;
pub mod tally;
