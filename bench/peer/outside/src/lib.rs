//! Small traces, right and wrong, and whether any history explains one, by a search that leaves nothing out.

pub mod brute;
pub mod change;
pub mod making;
pub mod options;
pub mod state;
pub mod trace;
