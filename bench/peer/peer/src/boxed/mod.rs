//! Parts that take memory as the product does: each block in a box of its own, and open units, CIDs and tickets in
//! lists that are searched. A Fetch allocates a box for each block to be written, a Block swaps it in, and the ticket's
//! end frees what it then has.

mod cids;
mod data;
mod jobs;
mod reserved;

pub use self::cids::Cids;
pub use self::data::{Data, Volume, Waiting, submission, waiting};
pub use self::jobs::Jobs;
pub use self::reserved::Reserved;
