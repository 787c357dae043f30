//! Lists of steps, and the product's programs, which are run with and without memory.

pub mod asked;
pub mod at_random;
pub mod commands;
pub mod drawn;
pub mod edits;
mod list;
pub mod lists;
pub mod program;
pub mod rounds;
pub mod tally;
pub mod worked;
