// Behind non_iso.rs: its private items as the benchmark compares them. No logic of its own.
use super::*;

#[path = "../../src/access_non_iso_shared.rs"]
mod shared;
pub(crate) use shared::*;

/// A planned request: its stages and its descriptors.
pub(crate) struct Planned(Dwc2ActiveRequest);

#[inline(always)]
pub(crate) fn plan(state: &mut NonIsoChannelState, cfg: &ChannelConfig, lease: ChannelLease, request: TransferRequest) -> Planned {
    match state.prepare_request(cfg, RequestId::new(1), lease, request) {
        Ok(active) => Planned(active),
        Err(error) => panic!("no answer of a plan: {error:?}"),
    }
}

/// what stage `i` moved
#[inline(always)]
pub(crate) fn moved(planned: &Planned, i: usize) -> usize {
    moved_by(&planned.0, i)
}

pub(crate) fn words(planned: &Planned) -> Vec<u32> {
    words_of(&planned.0)
}

/// hcchar, hctsiz and address of each stage
pub(crate) fn programs(planned: &Planned) -> Vec<[u32; 3]> {
    planned.0.stages.iter().map(|q| [q.stage.hcchar, q.stage.hctsiz, q.stage.dma_addr]).collect()
}
