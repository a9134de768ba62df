//! Words: the statuses of descriptors and the registers of a channel, bit by bit.

use crate::slips::{Slip, slip};
use lifted::calls::*;

const ACTIVE: u32 = 1 << 31;
const END_OF_LIST: u32 = 1 << 26;
const INTERRUPT: u32 = 1 << 25;

pub fn is_active(status: u32) -> bool {
    status & ACTIVE != 0
}

/// "An isochronous descriptor has active, its length, and on the last packet interrupt."
pub fn iso_status(length: u32, last: bool) -> u32 {
    ACTIVE + length + if last { INTERRUPT } else { 0 }
}

/// "In a chain every descriptor is active and the last has interrupt and end of list."
pub fn chain_status(count: u32, last: bool) -> u32 {
    ACTIVE + count + if last { INTERRUPT + END_OF_LIST } else { 0 }
}

/// DATA0 0, DATA2 1, DATA1 2, MDATA and SETUP 3
pub fn pid_number(pid: Pid) -> u32 {
    match pid {
        Pid::Data0 => 0,
        Pid::Data2 => 1,
        Pid::Data1 => 2,
        Pid::MData | Pid::Setup => 3,
    }
}

/// The fields of HCCHAR, each within its width.
pub struct Hcchar {
    pub packet: u16,
    pub endpoint: u8,
    pub direction: Direction,
    pub low: bool,
    pub kind: u32,
    pub mult: u8,
    pub device: u8,
    pub odd: bool,
}

impl Hcchar {
    /// "packet size 0 to 10, endpoint 11 to 14, IN 15, low speed 17, type 18 to 19 .., mult 20 to 21 .., device 22 to 28, odd
    /// frame 29"
    pub fn word(&self) -> u32 {
        let fields = [
            (u32::from(self.packet), 0),
            (u32::from(self.endpoint), 11),
            (u32::from(self.direction == Direction::In), 15),
            (u32::from(self.low), 17),
            (self.kind, 18),
            (u32::from(self.mult), 20),
            (u32::from(self.device), 22),
            (u32::from(self.odd), 29),
        ];
        fields.iter().map(|(value, at)| value << at).sum()
    }
}

/// "SCHINFO 0 to 7, descriptors − 1 at 8 to 15, PID 29 to 30"
pub fn hctsiz(pid: Pid, descs: u32, schinfo: u32) -> u32 {
    schinfo + ((descs - 1) << 8) + (pid_number(pid) << 29)
}

pub(super) const COMPLETE: u32 = 1 << 0;
pub(super) const HALTED: u32 = 1 << 1;

/// "The fault is the first set of 2, 3, 8, 7, 9, 10."
pub fn fault(hcint: u32) -> Option<Fault> {
    let mut order =
        [(2, Fault::Ahb), (3, Fault::Stall), (8, Fault::Babble), (7, Fault::Transaction), (9, Fault::Overrun), (10, Fault::Toggle)];
    if slip(Slip::FaultOrder) {
        order.swap(2, 3);
    }
    order.iter().find(|(bit, _)| hcint & (1 << bit) != 0).map(|(_, fault)| *fault)
}

/// "bits 0, 1, 2, 9, for IN also 7, 8"
pub fn interrupt_mask(direction: Direction) -> u32 {
    if direction == Direction::In && !slip(Slip::MaskIn) { 0x387 } else { 0x207 }
}

/// "exceeds 4,294,967,295"
pub fn is_beyond(base: u64, bytes: u64) -> bool {
    u128::from(base) + u128::from(bytes) > 4_294_967_295
}
