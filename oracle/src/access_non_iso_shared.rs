// Behind non_iso.rs: the way to its private items for the oracle and the benchmark. No logic of its own.
use super::super::*;

#[inline(always)]
pub(crate) fn split(len: usize, packet: u16) -> Vec<usize> {
    split_dma_lengths(len, packet)
}

#[inline(always)]
pub(crate) fn packets(len: usize, packet: u16) -> u32 {
    packet_count(len, packet)
}

#[inline(always)]
pub(crate) fn setup_bytes(setup: &ControlSetup, direction: Direction, len: usize) -> [u8; 8] {
    setup_packet_bytes(setup, direction, len)
}

pub(super) fn words_of(active: &Dwc2ActiveRequest) -> Vec<u32> {
    active.descs.read_all().iter().flat_map(|d| [d.status.get(), d.paddr]).collect()
}

/// the length that stage `i` moved
#[inline(always)]
pub(super) fn moved_by(active: &Dwc2ActiveRequest, i: usize) -> usize {
    let stage = &active.stages[i].stage;
    stage_actual_length(stage, active.descs.read_descs(stage.desc_base, stage.descs.len()))
}
