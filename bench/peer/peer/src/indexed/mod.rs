//! Parts for many tickets, which find by its number what others search for: a number for each block of the volume says
//! who has it open, a bit says whether a CID is in use, a hash finds a ticket, and a ring points into the history in
//! place of copying what was published. They take four bytes a block, and 8 KiB a submission queue.

mod cids;
mod data;
mod jobs;
mod reserved;

pub use self::cids::Cids;
pub use self::data::{Data, Volume, Waiting, submission, waiting};
pub use self::jobs::Jobs;
pub use self::reserved::Reserved;
