//! The checks over the proved calls.
use skrolvind::uds_protocol;

#[path = "../checks/mod.rs"]
mod checks;
