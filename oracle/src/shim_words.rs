//! Words and their parts, written from document 01, "Words": agreement on these is no evidence about the full crate.

use crate::{err::TransferError, transfer::Direction};
use core::cell::Cell;

#[derive(Clone, Copy, Debug, PartialEq, Eq)]
pub enum Dwc2EpType {
    Control,
    Isochronous,
    Bulk,
    Interrupt,
}

#[derive(Clone, Copy, Debug, PartialEq, Eq)]
pub enum Dwc2Pid {
    Data0,
    Data1,
    Data2,
    MData,
    Setup,
}

#[derive(Clone, Copy, Debug, PartialEq, Eq)]
pub enum Dwc2TransferFault {
    Ahb,
    Stall,
    Babble,
    Transaction,
    FrameOverrun,
    DataToggle,
}

/// 01: "The fault is the first set of 2, 3, 8, 7, 9, 10."
pub fn hcint_fault(hcint: u32) -> Option<Dwc2TransferFault> {
    use Dwc2TransferFault::*;
    let order = [(2, Ahb), (3, Stall), (8, Babble), (7, Transaction), (9, FrameOverrun), (10, DataToggle)];
    order.into_iter().find(|(bit, _)| hcint >> bit & 1 == 1).map(|(_, fault)| fault)
}

pub fn fault_to_transfer_error(fault: Dwc2TransferFault, hcint: u32) -> TransferError {
    TransferError::Fault(fault, hcint)
}

pub fn endpoint_number(address: u8) -> u8 {
    address & 0x0f
}

pub fn dma_addr32(address: u64) -> Result<u32, TransferError> {
    u32::try_from(address).map_err(|_| TransferError::Address)
}

/// 01: packet size 0 to 10, endpoint 11 to 14, IN 15, low speed 17, type 18 to 19, mult 20 to 21, device 22 to 28
pub fn hcchar(device: u8, endpoint: u8, direction: Direction, kind: Dwc2EpType, packet: u16, low: bool, mult: u8) -> u32 {
    let kind = match kind {
        Dwc2EpType::Control => 0,
        Dwc2EpType::Isochronous => 1,
        Dwc2EpType::Bulk => 2,
        Dwc2EpType::Interrupt => 3,
    };
    let mut word = u32::from(packet) & 0x7ff;
    word |= (u32::from(endpoint) & 0xf) << 11;
    word |= u32::from(direction == Direction::In) << 15;
    word |= u32::from(low) << 17;
    word |= kind << 18;
    word |= (u32::from(mult) & 3) << 20;
    word |= (u32::from(device) & 0x7f) << 22;
    word
}

/// 01: SCHINFO 0 to 7, descriptors − 1 at 8 to 15, PID 29 to 30 (DATA0 0, DATA2 1, DATA1 2, MDATA and SETUP 3)
pub fn hctsiz_ddma(pid: Dwc2Pid, descs: u32, schinfo: u32) -> u32 {
    let pid = match pid {
        Dwc2Pid::Data0 => 0,
        Dwc2Pid::Data2 => 1,
        Dwc2Pid::Data1 => 2,
        Dwc2Pid::MData | Dwc2Pid::Setup => 3,
    };
    schinfo & 0xff | (descs.saturating_sub(1) & 0xff) << 8 | pid << 29
}

/// 01: "IN counts are rounded up to whole packets, zero to one packet."
pub fn initial_len(len: usize, packet: u32, is_in: bool) -> usize {
    if !is_in {
        return len;
    }
    let packet = packet.max(1) as usize;
    len.div_ceil(packet).max(1) * packet
}

#[derive(Clone, Debug)]
pub struct DmaDescriptor {
    pub status: Cell<u32>,
    pub paddr: u32,
}

impl DmaDescriptor {
    pub const NBYTES_LIMIT: u32 = 131_071;
    pub const ISO_NBYTES_LIMIT: u32 = 4_095;
    pub const SIZE: usize = 8;

    fn with(status: u32, paddr: u32) -> DmaDescriptor {
        DmaDescriptor { status: Cell::new(status), paddr }
    }

    /// 01: "An isochronous descriptor has active, its length, and on the last packet interrupt."
    pub fn new_iso(paddr: u32, len: u32, last: bool) -> DmaDescriptor {
        Self::with(1 << 31 | u32::from(last) << 25 | len & 0xfff, paddr)
    }

    /// 01: "Setup is 0x87000008."
    pub fn new_setup(paddr: u32, len: u32) -> DmaDescriptor {
        Self::with(0x8700_0000 | len & 0x1_ffff, paddr)
    }

    /// 01: "In a chain every descriptor is active and the last has interrupt and end of list."
    fn chained(paddr: u32, count: u32, last: bool) -> DmaDescriptor {
        Self::with(1 << 31 | u32::from(last) << 26 | u32::from(last) << 25 | count & 0x1_ffff, paddr)
    }

    pub fn new_in(paddr: u32, len: u32, packet: u32, last: bool) -> DmaDescriptor {
        Self::chained(paddr, initial_len(len as usize, packet, true) as u32, last)
    }

    pub fn new_out(paddr: u32, len: u32, _packet: u32, last: bool) -> DmaDescriptor {
        Self::chained(paddr, len, last)
    }

    pub fn is_active(&self) -> bool {
        self.status.get() >> 31 == 1
    }

    pub fn remaining(&self) -> u32 {
        self.status.get() & 0x1_ffff
    }

    pub fn iso_remaining(&self) -> u32 {
        self.status.get() & 0xfff
    }

    /// 01: "result 28 to 29 (only 1 is a packet error)"
    pub fn iso_status_error(&self) -> bool {
        self.status.get() >> 28 & 3 == 1
    }
}
