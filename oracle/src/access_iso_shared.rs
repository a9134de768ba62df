// Behind iso.rs: the way to its private items for the oracle and the benchmark. No logic of its own.
use super::super::*;

#[inline(always)]
pub(crate) fn ring_size(speed: Speed) -> usize {
    iso_ring_size(speed)
}

#[inline(always)]
pub(crate) fn max_xfer_size(speed: Speed) -> usize {
    iso_max_xfer_size(speed)
}

#[inline(always)]
pub(crate) fn schinfo(speed: Speed, interval: u32) -> u32 {
    iso_schinfo(speed, interval)
}

#[inline(always)]
pub(crate) fn pid(speed: Speed, direction: Direction, mult: u8) -> Dwc2Pid {
    iso_pid(speed, direction, mult)
}

#[inline(always)]
pub(crate) fn desc_idx(speed: Speed, frame: u32) -> usize {
    frame_to_desc_idx(speed, frame)
}

#[inline(always)]
pub(crate) fn starting_frame(raw: u32, speed: Speed) -> u32 {
    iso_starting_frame(raw, speed)
}

#[inline(always)]
pub(crate) fn divisor(a: usize, b: usize) -> usize {
    gcd(a, b)
}

#[inline(always)]
pub(crate) fn along_grid(cursor: usize, target: usize, interval: usize, ring: usize) -> usize {
    advance_along_grid(cursor, target, interval, ring)
}

#[inline(always)]
pub(crate) fn max_packets(interval: u32, speed: Speed) -> usize {
    iso_max_packets(interval, speed)
}

#[inline(always)]
pub(crate) fn service_frames(start: u32, interval: u32, speed: Speed) -> Vec<usize> {
    iso_service_frames(start, interval, speed)
}

#[inline(always)]
pub(crate) fn poll(state: &mut IsoChannelState) {
    state.poll_channel();
}

#[inline(always)]
pub(crate) fn draw(state: &mut IsoChannelState) -> u64 {
    state.allocate_request_id().raw()
}

/// so that `Drop` leaks nothing
pub(crate) fn quiet(state: &mut IsoChannelState) {
    if let Some(lease) = state.lease.as_ref() {
        lease.hardware_active.store(false, Ordering::Release);
    }
}

/// a ring that is not there is zero
pub(crate) fn ring_words(state: &IsoChannelState, words: &mut [u32]) {
    words.fill(0);
    if let Some(ring) = state.ring.as_ref() {
        for (pair, desc) in words.chunks_exact_mut(2).zip(ring.read_all()) {
            pair[0] = desc.status.get();
            pair[1] = desc.paddr;
        }
    }
}

/// a word for the status of an active slot
pub(crate) fn touch(state: &IsoChannelState, slot: usize, word: u32) {
    if let Some(ring) = state.ring.as_ref() {
        let desc = &ring.read_descs(slot, 1)[0];
        if desc.is_active() {
            desc.status.set(word);
        }
    }
}
