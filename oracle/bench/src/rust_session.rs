//! The lifted camera session as the benchmark calls it: one high-speed IN endpoint, a packet each microframe. Each call is a function
//! of its own, never inlined, as a call into the port's archive is.

use crate::backend::kmod::{
    Kernel,
    dwc2::channel::iso::{IsoChannelState, access},
};
use crate::board::with_board;
use crate::endpoint::{IsoPacket, RequestId, TransferBuffer, TransferCompletion, TransferRequest};
use crate::err::TransferError;
use crate::shim_channel::{ChannelConfig, Dwc2Stats, EndpointAddress, EndpointInfo, HostChannelPool};
use crate::shim_regs::Dwc2Registers;

pub struct RustSession {
    state: IsoChannelState,
    cfg: ChannelConfig,
}

impl Drop for RustSession {
    fn drop(&mut self) {
        access::quiet(&mut self.state);
    }
}

/// what the registers and the interrupt handler say to the next call
pub fn set_board(frame: u32, base: u64, event: Option<u32>) {
    with_board(|b| {
        b.frame = frame;
        b.base = base;
        b.event = event;
        b.disabled = 0;
    });
}

/// the halts written since the board was set
pub fn halts() -> u32 {
    with_board(|b| b.disabled)
}

pub fn request(lengths: &[u32]) -> TransferRequest {
    let packets: Vec<IsoPacket> = lengths.iter().map(|l| IsoPacket { length: *l as usize }).collect();
    let buffer = Some(TransferBuffer { len: lengths.iter().map(|l| *l as usize).sum() });
    TransferRequest::Isochronous { direction: crate::transfer::Direction::In, buffer, packets }
}

impl RustSession {
    pub fn open(endpoint: u8, device: u8, max_packet_size: u16) -> RustSession {
        let info = EndpointInfo {
            address: EndpointAddress(endpoint | 1 << 7),
            max_packet_size,
            interval: 1,
            packets_per_microframe: 1,
            transfer_type: crate::descriptor::EndpointType::Isochronous,
        };
        RustSession {
            state: IsoChannelState::new(Dwc2Registers, Kernel, Dwc2Stats, HostChannelPool::new()),
            cfg: ChannelConfig { info, device_address: device, port_speed: crate::host::hub::Speed::High },
        }
    }

    #[inline(never)]
    pub fn submit(&mut self, request: TransferRequest) -> Result<RequestId, TransferError> {
        self.state.submit(&self.cfg, request)
    }

    #[inline(never)]
    pub fn poll(&mut self) {
        access::poll(&mut self.state);
    }

    #[inline(never)]
    pub fn reclaim(&mut self, id: u64) -> Option<Result<TransferCompletion, TransferError>> {
        self.state.reclaim(RequestId::new(id))
    }

    #[inline(never)]
    pub fn cancel(&mut self, id: u64) -> Result<(), TransferError> {
        self.state.cancel(RequestId::new(id))
    }

    #[inline(never)]
    pub fn reset(&mut self) -> Result<(), TransferError> {
        self.state.reset()
    }

    #[inline(never)]
    pub fn draw(&mut self) -> u64 {
        access::draw(&mut self.state)
    }

    /// the controller's word for a slot
    pub fn touch(&self, slot: usize, word: u32) {
        access::touch(&self.state, slot, word);
    }

    pub fn ring(&self, words: &mut [u32]) {
        access::ring_words(&self.state, words);
    }

    /// completed, pending, cursor
    pub fn counts(&self) -> (usize, usize, usize) {
        access::counts(&self.state)
    }
}
