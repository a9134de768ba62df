// Behind iso.rs: its private items as the benchmark compares them. No logic of its own.
use super::*;

#[path = "../../src/access_iso_shared.rs"]
mod shared;
pub(crate) use shared::*;

/// completed, pending, cursor
pub(crate) fn counts(state: &IsoChannelState) -> (usize, usize, usize) {
    (state.completed.len(), state.pending.len(), state.td_last)
}
