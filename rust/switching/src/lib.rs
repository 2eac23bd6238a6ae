//! Switching from luminartech/uds_protocol is a change of imports: the checks in `checks/` are one source, which is compiled and run
//! over the original (`tests/original.rs`) and over `skrolvind::uds_protocol` (`tests/ours.rs`). What a value is, which bytes it
//! stands for and how something is refused stand there as literals, so that both sides are held to them. `tests/side_by_side.rs` gives
//! both the same bytes, very many of them. Where the two differ on purpose, `tests/differences.rs` holds each to its own.
