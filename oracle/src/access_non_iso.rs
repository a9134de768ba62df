// Behind non_iso.rs: its private items as the oracle compares them. No logic of its own.
use super::*;
use crate::calls::{Role, Stage};

#[path = "access_non_iso_shared.rs"]
mod shared;
pub(crate) use shared::*;

pub(crate) fn set_toggle(state: &mut NonIsoChannelState, toggle: bool) {
    state.data_toggle = DataToggle(toggle);
}

pub(crate) fn toggle(state: &NonIsoChannelState) -> bool {
    state.data_toggle.0
}

pub(crate) struct Planned {
    pub stages: Vec<(Stage, Vec<usize>)>,
    pub words: Vec<u32>,
    pub setup: Option<Vec<u8>>,
}

/// what the request in flight has planned
pub(crate) fn planned(state: &NonIsoChannelState) -> Planned {
    let active = state.active.as_ref().expect("a request in flight");
    let stages = active.stages.iter().map(|queued| {
        let role = match queued.role {
            Dwc2StageRole::ControlSetup => Role::ControlSetup,
            Dwc2StageRole::ControlData => Role::ControlData,
            Dwc2StageRole::ControlStatus => Role::ControlStatus,
            Dwc2StageRole::Data { .. } => Role::Data,
        };
        let stage = &queued.stage;
        let view = Stage {
            role,
            hcchar: stage.hcchar,
            hctsiz: stage.hctsiz,
            dma_addr: stage.dma_addr,
            desc_base: stage.desc_base as u32,
            descs: stage.descs.len() as u32,
            len: stage.total_len() as u32,
        };
        (view, stage.descs.clone())
    });
    Planned {
        stages: stages.collect(),
        words: words_of(active),
        setup: active._setup_dma.as_ref().map(|a| a.content.clone()),
    }
}

/// a word for the status of a descriptor of the request in flight
pub(crate) fn touch(state: &NonIsoChannelState, desc: usize, word: u32) {
    let active = state.active.as_ref().expect("a request in flight");
    active.descs.read_descs(desc, 1)[0].status.set(word);
}

/// the length that stage `i` of the request in flight moved
pub(crate) fn moved(state: &NonIsoChannelState, i: usize) -> usize {
    moved_by(state.active.as_ref().expect("a request in flight"), i)
}

/// so that `Drop` leaks nothing
pub(crate) fn quiet(state: &mut NonIsoChannelState) {
    if let Some(active) = state.active.as_ref() {
        active.channel.hardware_active.store(false, Ordering::Release);
    }
}
