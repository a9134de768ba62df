//! The Rust's planning of bulk, interrupt and control transfers: a request is submitted on the board and its plan read off.

use crate::backend::kmod::{
    Kernel,
    dwc2::channel::non_iso::{NonIsoChannelState, access},
};
use crate::board::{Board, set_board, with_board};
use crate::calls::*;
use crate::camera::{direction_of, speed_of};
use crate::descriptor::EndpointType;
use crate::endpoint::{RequestId, TransferBuffer, TransferRequest};
use crate::err::TransferError;
use crate::host::ControlSetup;
use crate::shim_channel::{ChannelConfig, Dwc2Stats, EndpointAddress, EndpointInfo, HostChannelPool};
use crate::shim_regs::Dwc2Registers;
use crate::transfer::{Recipient, RequestType};

pub fn split(len: u64, packet: u16) -> Vec<u64> {
    access::split(len as usize, packet).into_iter().map(|l| l as u64).collect()
}

pub fn packets(len: u64, packet: u16) -> u64 {
    access::packets(len as usize, packet).into()
}

fn setup_of(fields: &SetupFields) -> ControlSetup {
    ControlSetup {
        request_type: [RequestType::Standard, RequestType::Class, RequestType::Vendor, RequestType::Reserved][usize::from(fields.kind)],
        recipient: [Recipient::Device, Recipient::Interface, Recipient::Endpoint, Recipient::Other][usize::from(fields.recipient)],
        request: fields.request,
        value: fields.value,
        index: fields.index,
    }
}

pub fn setup_bytes(fields: &SetupFields, direction: Direction, len: u64) -> [u8; 8] {
    access::setup_bytes(&setup_of(fields), direction_of(direction), len as usize)
}

/// A request that was submitted: its plan, and the state machine behind it.
pub struct Transferred {
    state: NonIsoChannelState,
    id: RequestId,
    pub stages: Vec<(Stage, Vec<usize>)>,
    pub words: Vec<u32>,
    pub setup: Option<Vec<u8>>,
    pub alloc_len: u64,
}

impl Drop for Transferred {
    fn drop(&mut self) {
        access::quiet(&mut self.state);
    }
}

/// the number that stands for the Rust's refusal of an address
const ADDRESS: u16 = 11;

fn submitted(cfg: ChannelConfig, request: TransferRequest, board: Board, toggle: bool) -> Result<Transferred, u16> {
    set_board(Board { connected: true, channel_free: true, ..board });
    let mut state = NonIsoChannelState::new(Dwc2Registers, Kernel, Dwc2Stats, HostChannelPool::new());
    access::set_toggle(&mut state, toggle);
    let id = match state.submit(&cfg, request) {
        Ok(id) => id,
        Err(TransferError::Address) => return Err(ADDRESS),
        Err(other) => panic!("no answer of a plan: {other:?}"),
    };
    let plan = access::planned(&state);
    let alloc_len = with_board(|b| b.alloc_len as u64);
    Ok(Transferred { state, id, stages: plan.stages, words: plan.words, setup: plan.setup, alloc_len })
}

fn config(speed: Speed, device: u8, address: u8, packet: u16, kind: EndpointType) -> ChannelConfig {
    let info = EndpointInfo {
        address: EndpointAddress(address),
        max_packet_size: packet,
        interval: 1,
        packets_per_microframe: 1,
        transfer_type: kind,
    };
    ChannelConfig { info, device_address: device, port_speed: speed_of(speed) }
}

pub fn data(r: &DataRequest) -> Result<Transferred, u16> {
    let direction = direction_of(r.direction);
    let buffer = Some(TransferBuffer { len: r.len as usize });
    let (request, kind) = match r.kind {
        DataKind::Bulk => (TransferRequest::Bulk { direction, buffer }, EndpointType::Bulk),
        DataKind::Interrupt => (TransferRequest::Interrupt { direction, buffer }, EndpointType::Interrupt),
    };
    let address = r.endpoint | u8::from(r.direction == Direction::In) << 7;
    let board = Board { base: r.base, odd: r.odd_frame, ..Board::default() };
    submitted(config(r.speed, r.device, address, r.max_packet_size, kind), request, board, r.toggle)
}

pub fn control(r: &ControlRequest, speed: Speed, fields: &SetupFields) -> Result<Transferred, u16> {
    let buffer = (r.len > 0).then_some(TransferBuffer { len: r.len as usize });
    let request = TransferRequest::Control { setup: setup_of(fields), direction: direction_of(r.direction), buffer };
    let mut board = Board { base: r.data_dma, ..Board::default() };
    board.arrays.extend([r.setup_dma, r.status_dma]);
    submitted(config(speed, r.device, 0, r.max_packet_size, EndpointType::Control), request, board, false)
}

impl Transferred {
    /// the controller's word for a descriptor
    pub fn touch(&mut self, desc: u32, word: u32) {
        access::touch(&self.state, desc as usize, word);
    }

    /// the controller's counts for a plan of which every byte came
    pub fn all_came(&mut self, plan: &Plan, array: &[u32]) {
        for (stage, (_, lengths)) in plan.stages.iter().zip(&self.stages) {
            for (i, length) in lengths.iter().enumerate() {
                let desc = stage.desc_base + i as u32;
                let asked = array[2 * desc as usize] & 0x1_ffff;
                let word = if stage.hcchar & 1 << 15 != 0 { asked - *length as u32 } else { 0 };
                access::touch(&self.state, desc as usize, word);
            }
        }
    }

    /// what stage `i` moved
    pub fn moved(&self, i: usize) -> u64 {
        access::moved(&self.state, i) as u64
    }

    /// runs the state machine to its end, every stage complete: the length moved and the toggle that it leaves
    pub fn finish(&mut self) -> (u64, bool) {
        loop {
            set_board(Board { connected: true, event: Some(3), ..Board::default() });
            match self.state.reclaim(self.id) {
                None => continue,
                Some(Ok(completion)) => return (completion.actual_length as u64, access::toggle(&self.state)),
                Some(Err(other)) => panic!("no end of a transfer: {other:?}"),
            }
        }
    }
}
