//! A second implementation of the opening auction of document 01, to compare with: a literal way and a fast one, the band,
//! the fees, the waiting clock and the view of a stored result, and random sheets and arguments.

pub mod agree;
pub mod answer;
pub mod archive;
pub mod arguments;
pub mod band;
pub mod calls;
#[cfg(test)]
mod cases;
pub mod chains;
pub mod damage;
pub mod days;
pub mod fast;
pub mod fees;
pub mod lines;
pub mod literal;
pub mod random;
pub mod refusal;
pub mod results;
pub mod shapes;
pub mod sheet;
pub mod steps;
pub mod stored;
pub mod waiting;
