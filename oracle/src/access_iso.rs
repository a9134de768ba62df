// Behind iso.rs: its private items as the oracle compares them. No logic of its own.
use super::*;
use crate::calls::{PacketView, Reason, ResultView, View};
use crate::camera::{failure_of, fault_of};

#[path = "access_iso_shared.rs"]
mod shared;
pub(crate) use shared::*;

pub(crate) fn is_live(state: &IsoChannelState) -> bool {
    state.lease.is_some()
}

pub(crate) fn set_next(state: &mut IsoChannelState, next: u64) {
    state.next_request_id = next;
}

pub(crate) fn view(state: &IsoChannelState) -> View {
    View {
        next: state.next_request_id,
        live: state.lease.is_some(),
        cursor: state.td_last as u32,
        start: state.start_full_frame,
        reason: state.fatal.map(|reason| match reason {
            IsoHaltReason::Cancelled => Reason::Cancelled,
            IsoHaltReason::Fault(fault, word) => Reason::Fault(fault_of(fault), word),
        }),
        completed: state
            .completed
            .iter()
            .map(|(id, result)| {
                let result = match result {
                    Ok(done) => Ok((done.actual_length as u32, done.iso_packets.iter().map(result_view).collect())),
                    Err(error) => Err(failure_of(error)),
                };
                (id.raw(), result)
            })
            .collect(),
        pending: state
            .pending
            .iter()
            .map(|request| {
                let packets = request.packets.iter().map(|plan| PacketView {
                    planned: plan.planned as u32,
                    slot: plan.desc_index as u32,
                    actual: plan.actual as u32,
                    error: plan.status == TransferStatus::Error,
                });
                (request.id.raw(), packets.collect())
            })
            .collect(),
    }
}

pub(crate) fn result_view(result: &IsoPacketResult) -> ResultView {
    ResultView { planned: result.requested_length as u32, actual: result.actual_length as u32, error: result.status == TransferStatus::Error }
}
