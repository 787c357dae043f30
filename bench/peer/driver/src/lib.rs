//! The product and the peer behind functions of one shape.

pub mod by_hand;
#[cfg(feature = "count")]
pub mod memory;
pub mod product;
