//! The Rust's planning: `prepare_request` of its state machine, which makes the stages and fills the descriptors. Leasing the
//! channel and starting the first stage come before and behind it and are not timed: the port leaves both to the firmware.

use crate::backend::kmod::{
    Kernel,
    dwc2::channel::non_iso::{NonIsoChannelState, access},
};
use crate::descriptor::EndpointType;
use crate::endpoint::{TransferBuffer, TransferRequest};
use crate::host::{ControlSetup, hub::Speed};
use crate::shim_channel::{ChannelConfig, ChannelLease, Dwc2Stats, EndpointAddress, EndpointInfo, HostChannelPool};
use crate::shim_regs::Dwc2Registers;
use crate::transfer::{Direction, Recipient, RequestType};

pub use crate::board::SMALL_ARRAY;

pub struct Planner {
    state: NonIsoChannelState,
    pool: HostChannelPool,
    cfg: ChannelConfig,
}

pub struct Planned(access::Planned);
pub struct Lease(ChannelLease);

impl Planner {
    pub fn new(kind: EndpointType, endpoint: u8, device: u8, max_packet_size: u16) -> Planner {
        let info = EndpointInfo {
            address: EndpointAddress(endpoint),
            max_packet_size,
            interval: 1,
            packets_per_microframe: 1,
            transfer_type: kind,
        };
        Planner {
            state: NonIsoChannelState::new(Dwc2Registers, Kernel, Dwc2Stats, HostChannelPool::new()),
            pool: HostChannelPool::new(),
            cfg: ChannelConfig { info, device_address: device, port_speed: Speed::High },
        }
    }

    pub fn lease(&self) -> Lease {
        Lease(self.pool.acquire(false).expect("a channel"))
    }

    #[inline(never)]
    pub fn plan(&mut self, lease: Lease, request: TransferRequest) -> Planned {
        Planned(access::plan(&mut self.state, &self.cfg, lease.0, request))
    }
}

impl Planned {
    #[inline(never)]
    pub fn moved(&self, stage: usize) -> usize {
        access::moved(&self.0, stage)
    }

    pub fn words(&self) -> Vec<u32> {
        access::words(&self.0)
    }

    pub fn programs(&self) -> Vec<[u32; 3]> {
        access::programs(&self.0)
    }
}

pub fn bulk(direction: Direction, len: u64) -> TransferRequest {
    TransferRequest::Bulk { direction, buffer: Some(TransferBuffer { len: len as usize }) }
}

pub const SETUP: ControlSetup =
    ControlSetup { request_type: RequestType::Standard, recipient: Recipient::Device, request: 6, value: 0x100, index: 0 };

pub fn control(direction: Direction, len: u64) -> TransferRequest {
    TransferRequest::Control { setup: SETUP, direction, buffer: Some(TransferBuffer { len: len as usize }) }
}

#[inline(never)]
pub fn packets(len: usize, packet: u16) -> u32 {
    access::packets(len, packet)
}

#[inline(never)]
pub fn split(len: usize, packet: u16) -> Vec<usize> {
    access::split(len, packet)
}

#[inline(never)]
pub fn setup_bytes(setup: &ControlSetup, direction: Direction, len: usize) -> [u8; 8] {
    access::setup_bytes(setup, direction, len)
}
