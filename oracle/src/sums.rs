//! The Rust's ring sums.

use crate::backend::kmod::dwc2::channel::iso::access;
use crate::calls::{Direction, Pid, Speed};
use crate::camera::{direction_of, speed_of};
use crate::shim_words::Dwc2Pid;

pub(crate) fn pid_of(pid: Dwc2Pid) -> Pid {
    match pid {
        Dwc2Pid::Data0 => Pid::Data0,
        Dwc2Pid::Data1 => Pid::Data1,
        Dwc2Pid::Data2 => Pid::Data2,
        Dwc2Pid::MData => Pid::MData,
        Dwc2Pid::Setup => Pid::Setup,
    }
}

pub fn ring_size(speed: Speed) -> u32 {
    access::ring_size(speed_of(speed)) as u32
}

pub fn packet_limit(speed: Speed) -> u32 {
    access::max_xfer_size(speed_of(speed)) as u32
}

pub fn schinfo(speed: Speed, interval: u16) -> u32 {
    access::schinfo(speed_of(speed), interval.into())
}

pub fn pid(speed: Speed, direction: Direction, mult: u8) -> Pid {
    pid_of(access::pid(speed_of(speed), direction_of(direction), mult))
}

pub fn slot_of_frame(speed: Speed, frame: u32) -> u32 {
    access::desc_idx(speed_of(speed), frame) as u32
}

pub fn starting_frame(raw: u32, speed: Speed) -> u32 {
    access::starting_frame(raw, speed_of(speed))
}

pub fn gcd(a: u16, b: u16) -> u32 {
    access::divisor(a.into(), b.into()) as u32
}

pub fn grid(cursor: u16, target: u16, interval: u16, ring: u16) -> u32 {
    access::along_grid(cursor.into(), target.into(), interval.into(), ring.into()) as u32
}

pub fn capacity(interval: u16, speed: Speed) -> u32 {
    access::max_packets(interval.into(), speed_of(speed)) as u32
}

pub fn service_frames(start: u32, interval: u16, speed: Speed) -> Vec<u8> {
    access::service_frames(start, interval.into(), speed_of(speed)).into_iter().map(|f| f as u8).collect()
}

/// the number drawn from a counter, and the counter behind it
pub fn drawn(next: u64) -> (u64, u64) {
    crate::camera::drawn(next)
}
