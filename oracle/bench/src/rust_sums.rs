//! The Rust's ring sums, each a function of its own, never inlined, as a call into the port's archive is.

use crate::backend::kmod::dwc2::channel::iso::access;
use crate::host::hub::Speed;
use crate::shim_words::{Dwc2Pid, hctsiz_ddma};
use crate::transfer::Direction;

#[inline(never)]
pub fn ring_size(speed: Speed) -> usize {
    access::ring_size(speed)
}

#[inline(never)]
pub fn max_xfer_size(speed: Speed) -> usize {
    access::max_xfer_size(speed)
}

#[inline(never)]
pub fn schinfo(speed: Speed, interval: u32) -> u32 {
    access::schinfo(speed, interval)
}

#[inline(never)]
pub fn pid(speed: Speed, direction: Direction, mult: u8) -> Pid {
    Pid(access::pid(speed, direction, mult))
}

pub struct Pid(Dwc2Pid);

impl Pid {
    /// as HCTSIZ has it
    pub fn number(&self) -> u32 {
        hctsiz_ddma(self.0, 0, 0) >> 29
    }
}

#[inline(never)]
pub fn desc_idx(speed: Speed, frame: u32) -> usize {
    access::desc_idx(speed, frame)
}

#[inline(never)]
pub fn starting_frame(raw: u32, speed: Speed) -> u32 {
    access::starting_frame(raw, speed)
}

#[inline(never)]
pub fn gcd(a: usize, b: usize) -> usize {
    access::divisor(a, b)
}

#[inline(never)]
pub fn along_grid(cursor: usize, target: usize, interval: usize, ring: usize) -> usize {
    access::along_grid(cursor, target, interval, ring)
}

#[inline(never)]
pub fn max_packets(interval: u32, speed: Speed) -> usize {
    access::max_packets(interval, speed)
}

#[inline(never)]
pub fn service_frames(start: u32, interval: u32, speed: Speed) -> Vec<usize> {
    access::service_frames(start, interval, speed)
}
