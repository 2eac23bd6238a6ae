//! The checks over the original files.
use oracle::itself as uds_protocol;

#[path = "../checks/mod.rs"]
mod checks;
