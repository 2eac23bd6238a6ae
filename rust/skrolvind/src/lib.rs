#![doc = include_str!("../README.md")]
#![no_std]
#![warn(missing_docs)]
#![deny(unsafe_code)]

#[cfg(feature = "alloc")]
extern crate alloc;

mod batch;
mod changes;
mod codes;
pub mod flat;
mod joined;
mod limits;
mod listing;
mod message;
mod read;
mod refusal;
mod replay;
mod severity;
#[cfg(test)]
mod tests;
mod text;
mod types;
pub mod uds_protocol;
mod write;

pub use batch::*;
pub use changes::*;
pub use codes::*;
pub use joined::*;
pub use limits::*;
pub use listing::*;
pub use message::*;
pub use read::*;
pub use refusal::*;
pub use replay::*;
pub use severity::*;
pub use text::*;
pub use types::*;
pub use write::*;
