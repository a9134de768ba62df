//! Ring sums: document 01's arithmetic of slots, frames and request numbers.

use crate::slips::{Slip, slip};
use lifted::calls::*;

/// "256 slots at high speed, 64 at full; low counts as full here"
pub fn ring_size(speed: Speed) -> u32 {
    if speed == Speed::High { 256 } else { 64 }
}

/// "Packet limit 3,072 or 1,023."
pub fn packet_limit(speed: Speed) -> u32 {
    if speed == Speed::High { 3_072 } else { 1_023 }
}

/// "An interval of 0 counts as 1"
pub fn interval_of(interval: u16) -> u64 {
    if interval == 0 { if slip(Slip::IntervalZero) { 2 } else { 1 } } else { interval.into() }
}

/// "found by Euclid's rule on remainders"; of 0 and 0 it is 1 (DECISIONS 6)
pub fn gcd(a: u64, b: u64) -> u64 {
    if b == 0 { if a == 0 { 1 } else { a } } else { gcd(b, a % b) }
}

/// "Capacity is R/g − 1."
pub fn capacity_of(interval: u16, ring: u32) -> u64 {
    let whole = u64::from(ring) / gcd(interval_of(interval), ring.into());
    if slip(Slip::CapacityWhole) { whole } else { whole - 1 }
}

/// "high speed adds 16 to the raw number if its low three bits are 5 or more, else 8, wrapping at 32 bits, then divides by 8.
/// Full speed adds 2, wrapping, and keeps 16 bits."
pub fn starting_frame(raw: u32, speed: Speed) -> u32 {
    if speed == Speed::High {
        let from = if slip(Slip::SkipFromFour) { 4 } else { 5 };
        raw.wrapping_add(if raw % 8 >= from { 16 } else { 8 }) / 8
    } else {
        raw.wrapping_add(if slip(Slip::FullStartOne) { 1 } else { 2 }) % 65_536
    }
}

/// "high speed (frame mod 32) × 8; full speed frame mod 64"
pub fn slot_of_frame(speed: Speed, frame: u32, ring: u32) -> u32 {
    if speed == Speed::High { (frame % (ring / 8)) * 8 } else { frame % if slip(Slip::SlotOfFull) { ring / 2 } else { ring } }
}

/// "insert at (t + ((c − t) mod g)) mod R, the inner mod never negative"; a ring of 0 slots answers 0 (DECISIONS 6)
pub fn grid(cursor: u64, target: u64, interval: u16, ring: u64) -> u64 {
    if ring == 0 {
        return 0;
    }
    let g = if slip(Slip::GridByInterval) { interval_of(interval) as i64 } else { gcd(interval_of(interval), ring) as i64 };
    let difference = cursor as i64 - target as i64;
    let inner = if slip(Slip::GridNegative) { difference % g } else { ((difference % g) + g) % g };
    (target as i64 + inner).rem_euclid(ring as i64) as u64
}

/// "SCHINFO at full speed is 255. At high speed it has the bits 0, i, 2i, .. for ceil(8/i) terms."
pub fn schinfo(speed: Speed, interval: u16) -> u32 {
    if speed != Speed::High {
        return if slip(Slip::SchinfoFull) { 1 } else { 255 };
    }
    let i = interval_of(interval);
    let terms = if slip(Slip::SchinfoFloor) { 8 / i } else { 8u64.div_ceil(i) };
    (0..terms).map(|k| k * i).filter(|bit| *bit < 8).fold(0, |word, bit| word | 1 << bit)
}

/// "begin at start mod 64, step by ceil(interval/8) at high speed or interval at full, mod 64, until the first comes again"
pub fn service_frames(start: u32, interval: u16, speed: Speed) -> Vec<u8> {
    let step = match (speed, slip(Slip::ListFloor)) {
        (Speed::High, false) => interval_of(interval).div_ceil(8),
        (Speed::High, true) => (interval_of(interval) / 8).max(1),
        _ => interval_of(interval),
    };
    let first = u64::from(start) % 64;
    let mut list = vec![first as u8];
    let mut at = (first + step) % 64;
    while at != first {
        list.push(at as u8);
        at = (at + step) % 64;
    }
    list
}

/// "high-speed IN gives DATA0, DATA1, DATA2 for mult 1, 2, 3; OUT gives DATA0 for mult 1, else MDATA; full speed DATA0. Mult 0
/// counts as 1 everywhere."; above 3 it counts as 3 (DECISIONS 6)
pub fn pid(speed: Speed, direction: Direction, mult: u8) -> Pid {
    match (speed, direction, mult) {
        (Speed::Full | Speed::Low, _, _) | (_, _, 0 | 1) => Pid::Data0,
        (_, Direction::In, 2) => Pid::Data1,
        (_, Direction::In, _) => Pid::Data2,
        (_, Direction::Out, 2) if slip(Slip::PidOutTwo) => Pid::Data1,
        (_, Direction::Out, _) => Pid::MData,
    }
}

/// "The next request number after 2^64 − 1 is 1."
pub fn next_number(number: u64) -> u64 {
    if number == u64::MAX { if slip(Slip::NumberZero) { 0 } else { 1 } } else { number + 1 }
}
