//! An NVMe/TCP target over the proved controller. Sockets, PDUs, Fabrics and admin commands are here and unproved; each
//! I/O command goes to the controller as its entry with its data. docs/TARGET.md says how to use it.
mod admin;
mod batch;
mod completions;
mod connect;
mod connection;
mod engine;
mod faults;
mod features;
mod hosts;
mod identify;
mod image;
mod logs;
mod options;
mod outlet;
mod pairs;
mod properties;
mod records;
mod ring;
mod target;

pub use faults::{Fault, FaultKind};
pub use image::{Image, ImageError};
pub use options::Options;
pub use target::Target;
pub use vandrexu::Config;
