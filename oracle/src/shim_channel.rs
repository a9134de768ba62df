//! The channels that the lifted Rust leases and what goes with them, over the board.

use crate::{
    board::with_board, descriptor::EndpointType, err::TransferError, host::hub::Speed, shim_regs::Dwc2Registers,
    shim_words::Dwc2TransferFault,
};
use core::{sync::atomic::AtomicBool, task::Context};

pub struct EndpointInfo {
    pub address: EndpointAddress,
    pub max_packet_size: u16,
    pub interval: u16,
    pub packets_per_microframe: usize,
    pub transfer_type: EndpointType,
}

pub struct EndpointAddress(pub u8);

impl EndpointAddress {
    pub fn raw(&self) -> u8 {
        self.0
    }
}

pub struct ChannelConfig {
    pub info: EndpointInfo,
    pub device_address: u8,
    pub port_speed: Speed,
}

pub struct Gate;

impl Gate {
    /// # Safety
    /// none needed: one thread
    pub unsafe fn lock_raw(&self) -> Gate {
        Gate
    }
}

#[derive(Clone, Copy)]
pub struct Completions;

impl Completions {
    #[inline(always)]
    pub fn take(&self, _channel: u8) -> Option<u32> {
        with_board(|b| b.event.take())
    }

    pub fn clear(&self, _channel: u8) {}

    pub fn mark_iso(&self, _channel: u8, _iso: bool) {}

    pub fn register_waker(&self, _channel: u8, _cx: &mut Context<'_>) {}

    #[inline(always)]
    pub fn with_connected<T>(&self, act: impl FnOnce() -> Result<T, TransferError>) -> Result<T, TransferError> {
        if with_board(|b| b.gate()) { act() } else { Err(TransferError::Disconnected) }
    }
}

pub struct Periodic;

impl Periodic {
    pub fn ensure_enabled(&self, _regs: Dwc2Registers) {}

    pub fn set_channel(&self, _channel: u8, frames: &[usize]) {
        with_board(|b| b.set_frames(Some(frames)));
    }

    pub fn clear_channel(&self, _channel: u8) {
        with_board(|b| b.set_frames(None));
    }
}

pub struct ChannelLease {
    pub channel: u8,
    pub hardware_active: AtomicBool,
    pub completions: Completions,
    pub gate: Gate,
}

impl ChannelLease {
    pub fn release(self) {}
}

pub struct HostChannelPool {
    pub completions: Completions,
    pub periodic: Periodic,
}

impl HostChannelPool {
    pub fn new() -> HostChannelPool {
        HostChannelPool { completions: Completions, periodic: Periodic }
    }

    pub fn acquire(&self, _control: bool) -> Result<ChannelLease, TransferError> {
        if with_board(|b| b.lends_channel()) {
            Ok(ChannelLease { channel: 1, hardware_active: AtomicBool::new(false), completions: Completions, gate: Gate })
        } else {
            Err(TransferError::NoChannel)
        }
    }
}

pub struct Dwc2Stats;

impl Dwc2Stats {
    pub fn record_transfer(&self) {}
    pub fn record_stage(&self) {}
    pub fn record_dma_alloc(&self) {}
    pub fn record_fault(&self, _fault: Dwc2TransferFault) {}
}
